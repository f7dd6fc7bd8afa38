/* As much of an MPI with ULFM as tools/ulfm_log.c takes, for its test: stub.c has the functions, for processes that share a file. */
#ifndef STUB_MPI_H
#define STUB_MPI_H

typedef int MPI_Comm;
typedef struct stub_group *MPI_Group;

#define MPI_COMM_WORLD 1
#define MPI_COMM_NULL 0

#define MPI_SUCCESS 0
#define MPIX_ERR_PROC_FAILED 101
#define MPIX_ERR_REVOKED 103

/* A call, and its second name, by which a tool that stands before it calls it. */
#define STUB_CALL(name, words) \
    int name words;            \
    int P##name words

STUB_CALL(MPI_Init, (int *argc, char ***argv));
STUB_CALL(MPI_Init_thread, (int *argc, char ***argv, int required, int *provided));
STUB_CALL(MPI_Finalize, (void));
STUB_CALL(MPI_Barrier, (MPI_Comm comm));
STUB_CALL(MPI_Comm_free, (MPI_Comm *comm));
STUB_CALL(MPI_Comm_rank, (MPI_Comm comm, int *rank));
STUB_CALL(MPI_Group_free, (MPI_Group *group));

/* By their second name alone. */
int PMPI_Comm_size(MPI_Comm comm, int *size);
int PMPI_Comm_group(MPI_Comm comm, MPI_Group *group);
int PMPI_Error_class(int code, int *error_class);
int PMPI_Group_size(MPI_Group group, int *size);
int PMPI_Group_translate_ranks(MPI_Group one, int count, const int ranks[], MPI_Group other, int found[]);

#endif
