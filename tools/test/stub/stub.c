/*
 * An MPI for the test of tools/ulfm_log.c: processes that share the file $STUB_SHARED, with their rank in $STUB_RANK and how many they are
 * in $STUB_RANKS. A process that ends without MPI_Finalize has failed; stub_die says so and ends it.
 */
#include "stub.h"

#include <mpi.h>
#include <mpi-ext.h>

#include <fcntl.h>
#include <sched.h>
#include <stdatomic.h>
#include <stdlib.h>
#include <sys/mman.h>
#include <unistd.h>

enum { MOST = 8, COMMS = 8, ROUNDS = 8 };

/* What all processes share: zeros at first. */
struct shared {
    atomic_int dead[MOST];
    atomic_int revoked[COMMS];
    atomic_int came[COMMS][ROUNDS][MOST];
    atomic_uint lacking[COMMS][ROUNDS]; /* the bits that some flag lacks */
    atomic_int arrived[COMMS][ROUNDS][MOST];
};

struct stub_group {
    int size;
    int ranks[MOST];
};

static struct shared *shared;
static int own, all;
static int member[COMMS][MOST];
static int agreements[COMMS], barriers[COMMS], acked[COMMS];
static int made = 1;

static int number(const char *name)
{
    const char *text = getenv(name);
    return text != NULL ? atoi(text) : 0;
}

int PMPI_Init(int *argc, char ***argv)
{
    (void)argc;
    (void)argv;
    own = number("STUB_RANK");
    all = number("STUB_RANKS");
    int file = open(getenv("STUB_SHARED"), O_RDWR);
    if (file < 0 || all > MOST)
        abort();
    shared = mmap(NULL, sizeof *shared, PROT_READ | PROT_WRITE, MAP_SHARED, file, 0);
    if (shared == MAP_FAILED)
        abort();
    for (int r = 0; r < all; r++)
        member[MPI_COMM_WORLD][r] = 1;
    return MPI_SUCCESS;
}

int PMPI_Init_thread(int *argc, char ***argv, int required, int *provided)
{
    *provided = required;
    return PMPI_Init(argc, argv);
}

int PMPI_Finalize(void)
{
    return MPI_SUCCESS;
}

void stub_die(void)
{
    atomic_store(&shared->dead[own], 1);
    _exit(0);
}

size_t stub_size(void)
{
    return sizeof(struct shared);
}

int PMPI_Comm_rank(MPI_Comm comm, int *rank)
{
    (void)comm;
    *rank = own;
    return MPI_SUCCESS;
}

int PMPI_Comm_size(MPI_Comm comm, int *size)
{
    (void)comm;
    *size = all;
    return MPI_SUCCESS;
}

int PMPI_Error_class(int code, int *error_class)
{
    *error_class = code;
    return MPI_SUCCESS;
}

static MPI_Group group_of(MPI_Comm comm, int dead, int most)
{
    MPI_Group group = calloc(1, sizeof *group);
    for (int r = 0; r < all; r++)
        if (member[comm][r] && (!dead || atomic_load(&shared->dead[r])) && group->size < most)
            group->ranks[group->size++] = r;
    return group;
}

int PMPI_Comm_group(MPI_Comm comm, MPI_Group *group)
{
    *group = group_of(comm, 0, MOST);
    return MPI_SUCCESS;
}

int PMPI_Group_free(MPI_Group *group)
{
    free(*group);
    *group = NULL;
    return MPI_SUCCESS;
}

int PMPI_Group_size(MPI_Group group, int *size)
{
    *size = group->size;
    return MPI_SUCCESS;
}

int PMPI_Group_translate_ranks(MPI_Group one, int count, const int ranks[], MPI_Group other, int found[])
{
    for (int i = 0; i < count; i++)
        for (int j = 0; j < other->size; j++)
            if (other->ranks[j] == one->ranks[ranks[i]])
                found[i] = j;
    return MPI_SUCCESS;
}

/* Waits for all members that haven't failed; gives how many have failed. */
static int wait_for(MPI_Comm comm, atomic_int *came)
{
    int failed = 0;
    for (int r = 0; r < all; r++) {
        if (!member[comm][r])
            continue;
        while (!atomic_load(&came[r]) && !atomic_load(&shared->dead[r]))
            sched_yield();
        failed += !atomic_load(&came[r]);
    }
    return failed;
}

/* Takes part in the next agreement, and gives how many had failed. */
static int take_part(MPI_Comm comm, unsigned lacking, unsigned *all_lack)
{
    int round = agreements[comm]++;
    atomic_fetch_or(&shared->lacking[comm][round], lacking);
    atomic_store(&shared->came[comm][round][own], 1);
    int failed = wait_for(comm, shared->came[comm][round]);
    *all_lack = atomic_load(&shared->lacking[comm][round]);
    return failed;
}

int PMPIX_Comm_agree(MPI_Comm comm, int *flag)
{
    unsigned lacking;
    int failed = take_part(comm, ~(unsigned)*flag, &lacking);
    *flag = (int)~lacking;
    return failed > acked[comm] ? MPIX_ERR_PROC_FAILED : MPI_SUCCESS;
}

int PMPIX_Comm_shrink(MPI_Comm comm, MPI_Comm *new_comm)
{
    unsigned lacking;
    take_part(comm, 0, &lacking);
    made++;
    for (int r = 0; r < all; r++)
        member[made][r] = member[comm][r] && !atomic_load(&shared->dead[r]);
    *new_comm = made;
    return MPI_SUCCESS;
}

int PMPIX_Comm_revoke(MPI_Comm comm)
{
    atomic_store(&shared->revoked[comm], 1);
    return MPI_SUCCESS;
}

int PMPIX_Comm_is_revoked(MPI_Comm comm, int *flag)
{
    *flag = atomic_load(&shared->revoked[comm]);
    return MPI_SUCCESS;
}

int PMPIX_Comm_get_failed(MPI_Comm comm, MPI_Group *group)
{
    *group = group_of(comm, 1, MOST);
    return MPI_SUCCESS;
}

int PMPIX_Comm_ack_failed(MPI_Comm comm, int wanted, int *count)
{
    MPI_Group group = group_of(comm, 1, wanted < MOST ? wanted : MOST);
    if (group->size > acked[comm])
        acked[comm] = group->size;
    *count = acked[comm];
    return PMPI_Group_free(&group);
}

int PMPIX_Comm_failure_ack(MPI_Comm comm)
{
    int count;
    return PMPIX_Comm_ack_failed(comm, MOST, &count);
}

int PMPIX_Comm_failure_get_acked(MPI_Comm comm, MPI_Group *group)
{
    *group = group_of(comm, 1, acked[comm]);
    return MPI_SUCCESS;
}

int PMPI_Barrier(MPI_Comm comm)
{
    int round = barriers[comm]++;
    if (atomic_load(&shared->revoked[comm]))
        return MPIX_ERR_REVOKED;
    atomic_store(&shared->arrived[comm][round][own], 1);
    return wait_for(comm, shared->arrived[comm][round]) > 0 ? MPIX_ERR_PROC_FAILED : MPI_SUCCESS;
}

int PMPI_Comm_free(MPI_Comm *comm)
{
    *comm = MPI_COMM_NULL;
    return MPI_SUCCESS;
}

/* Calls that nobody logs stand under MPI's own names too. */
int MPI_Comm_rank(MPI_Comm comm, int *rank)
{
    return PMPI_Comm_rank(comm, rank);
}

int MPI_Group_free(MPI_Group *group)
{
    return PMPI_Group_free(group);
}
