/* The calls of ULFM, as the stub has them. */
#ifndef STUB_MPI_EXT_H
#define STUB_MPI_EXT_H

#include <mpi.h>

STUB_CALL(MPIX_Comm_agree, (MPI_Comm comm, int *flag));
STUB_CALL(MPIX_Comm_shrink, (MPI_Comm comm, MPI_Comm *made));
STUB_CALL(MPIX_Comm_revoke, (MPI_Comm comm));
STUB_CALL(MPIX_Comm_failure_ack, (MPI_Comm comm));
STUB_CALL(MPIX_Comm_failure_get_acked, (MPI_Comm comm, MPI_Group *group));
STUB_CALL(MPIX_Comm_ack_failed, (MPI_Comm comm, int wanted, int *acked));
STUB_CALL(MPIX_Comm_get_failed, (MPI_Comm comm, MPI_Group *group));
STUB_CALL(MPIX_Comm_is_revoked, (MPI_Comm comm, int *flag));

#endif
