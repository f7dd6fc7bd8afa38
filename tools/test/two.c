/* Two ranks agree, rank 1 dies, and rank 0 goes on alone: what tools/ulfm_log.c must log of it stands in two.observed. */
#include "stub/stub.h"

#include <mpi.h>
#include <mpi-ext.h>
#include <stdio.h>
#include <string.h>

int main(int argc, char **argv)
{
    int rank, flag, revoked, acked;
    MPI_Comm rest;
    MPI_Group failed;
    if (argc == 2 && strcmp(argv[1], "--size") == 0) {
        printf("%zu\n", stub_size());
        return 0;
    }
    MPI_Init(&argc, &argv);
    MPI_Comm_rank(MPI_COMM_WORLD, &rank);
    flag = rank == 0 ? 0x0f : 0x3c;
    MPIX_Comm_agree(MPI_COMM_WORLD, &flag);
    if (rank == 1)
        stub_die();
    flag = 0xff;
    MPIX_Comm_agree(MPI_COMM_WORLD, &flag);
    MPIX_Comm_get_failed(MPI_COMM_WORLD, &failed);
    MPI_Group_free(&failed);
    MPIX_Comm_failure_get_acked(MPI_COMM_WORLD, &failed);
    MPI_Group_free(&failed);
    MPIX_Comm_failure_ack(MPI_COMM_WORLD);
    MPIX_Comm_ack_failed(MPI_COMM_WORLD, 1, &acked);
    flag = -2;
    MPIX_Comm_agree(MPI_COMM_WORLD, &flag);
    MPI_Barrier(MPI_COMM_WORLD);
    MPIX_Comm_shrink(MPI_COMM_WORLD, &rest);
    MPI_Barrier(rest);
    MPIX_Comm_revoke(rest);
    MPIX_Comm_is_revoked(rest, &revoked);
    MPI_Barrier(rest);
    MPI_Comm_free(&rest);
    return MPI_Finalize();
}
