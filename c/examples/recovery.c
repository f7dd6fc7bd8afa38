/* Four ranks work, one of them dies, and the others recover. Each rank is a thread, and so is the failure detector.
 *
 * All four agree. Then rank 3's thread ends without a word, and the others wait for it in their next agree until the detector, which
 * waits for the ends of threads, declares it. That agree raises an error at all three alike. They ask who has failed, acknowledge it,
 * and agree again, without an error. They revoke the communicator, shrink it, go on with the new one, and give that back. What is
 * printed is the same however the threads are scheduled. */
#include "ranks.h"

enum { RANKS = 4, DIES = 3 };

/* What a survivor saw, in the order of its calls: of each the code, and what it told. */
struct seen {
    int first_code, met_code, failed_code, ack_code, settled_code, revoked_code, shrink_code, barrier_code, last_code, free_code;
    ulfm_flag first, met, settled, last;
    size_t failed_count;
    uint16_t failed[RANKS], acknowledged, comm;
    bool is_revoked;
};

static struct seen seen_by[RANKS];

/* The four lowest bits without that of its number. */
static ulfm_flag flag_of(const struct rank *rank)
{
    return 15u & ~(1u << rank->number);
}

static int agree(struct rank *rank, uint16_t comm, ulfm_flag *flag)
{
    *flag = flag_of(rank);
    return ulfm_agree(rank->handle, comm, flag);
}

/* From the agree that meets the failure to the new communicator. Whether to go on is decided by agrees, and by nothing else. */
static void recover(struct rank *rank)
{
    struct seen *seen = &seen_by[rank->number];
    seen->met_code = agree(rank, ULFM_COMM_WORLD, &seen->met);
    seen->failed_code = ulfm_get_failed(rank->handle, ULFM_COMM_WORLD, seen->failed, RANKS, &seen->failed_count);
    seen->ack_code = ulfm_ack_failed(rank->handle, ULFM_COMM_WORLD, (uint16_t)seen->failed_count, &seen->acknowledged);
    seen->settled_code = agree(rank, ULFM_COMM_WORLD, &seen->settled);
    bool is_first;
    seen->revoked_code = ulfm_revoke(rank->handle, ULFM_COMM_WORLD, &is_first);
    if (seen->revoked_code == ULFM_SUCCESS)
        seen->revoked_code = ulfm_is_revoked(rank->handle, ULFM_COMM_WORLD, &seen->is_revoked);
    seen->shrink_code = ulfm_shrink(rank->handle, ULFM_COMM_WORLD, &seen->comm);
}

static void go_on(struct rank *rank)
{
    struct seen *seen = &seen_by[rank->number];
    seen->barrier_code = ulfm_barrier(rank->handle, seen->comm);
    seen->last_code = agree(rank, seen->comm, &seen->last);
    seen->free_code = ulfm_free(rank->handle, seen->comm);
}

static void *work(void *argument)
{
    struct rank *rank = argument;
    struct seen *seen = &seen_by[rank->number];
    seen->first_code = agree(rank, ULFM_COMM_WORLD, &seen->first);
    if (rank->number == DIES)
        return NULL;
    recover(rank);
    go_on(rank);
    rank->is_done = true;
    return NULL;
}

static void print(const char *what, int code)
{
    printf("  %s: %s\n", what, ulfm_strerror(code));
}

static void report(const struct rank *rank)
{
    const struct seen *seen = &seen_by[rank->number];
    printf("rank %u\n", rank->number);
    printf("  agreed %x; %x; %x; %x\n", (unsigned)seen->first, (unsigned)seen->met, (unsigned)seen->settled, (unsigned)seen->last);
    print("the first agree", seen->first_code);
    print("the agree that met the failure", seen->met_code);
    printf("  failed:");
    for (size_t at = 0; at < seen->failed_count && at < RANKS; at++)
        printf(" %u", seen->failed[at]);
    printf("; acknowledged: %u\n", seen->acknowledged);
    print("the agree behind that", seen->settled_code);
    printf("  revoked: %s; communicator %u\n", seen->is_revoked ? "yes" : "no", seen->comm);
    print("shrink", seen->shrink_code);
    print("barrier on the new one", seen->barrier_code);
    print("agree on the new one", seen->last_code);
    print("given back", seen->free_code);
}

int main(void)
{
    /* one communicator to be made; rounds for three agrees and a shrink */
    if (run_ranks(RANKS, 2, 4, work) != ULFM_SUCCESS)
        return 1;
    for (int at = 0; at < RANKS; at++)
        if (ranks[at].is_done)
            report(&ranks[at]);
    return close_ranks();
}
