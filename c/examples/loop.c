/* Five ranks work, two of them die one after the other, and the others recover in a loop. Each rank is a thread, and so is the failure
 * detector.
 *
 * Rank 4's thread ends before it has contributed anything. The others' agree ends when the detector, which waits for the ends of threads,
 * declares it, and raises an error at all of them alike. They acknowledge the failure, revoke the communicator, shrink it, and agree on
 * the new one. There rank 3's thread ends: the agree raises an error again, and they go round once more, until an agree is clean. What is
 * printed is the same however the threads are scheduled. */
#include "ranks.h"

enum { RANKS = 5, COMMS = 4 };

/* What a rank saw on its way. */
struct seen {
    int code;               /* of the call that ended its work */
    uint16_t comm;          /* on which it goes on */
    size_t count;           /* how many agrees it made */
    int codes[COMMS];       /* of each its code */
    ulfm_flag flags[COMMS]; /* .. and its flag */
};

static struct seen seen_by[RANKS];

/* Whether a rank's thread ends once it holds this communicator: rank 4's on the first, rank 3's on the second. */
static bool dies_on(const struct rank *rank, uint16_t comm)
{
    return (rank->number == 4 && comm == 0) || (rank->number == 3 && comm == 1);
}

/* Acknowledges the failures that the rank has seen. */
static int acknowledge(struct rank *rank, uint16_t comm)
{
    uint16_t failures[RANKS], acknowledged;
    size_t count;
    int code = ulfm_failures(rank->handle, failures, RANKS, &count);
    return code ? code : ulfm_ack_failed(rank->handle, comm, (uint16_t)count, &acknowledged);
}

/* Agrees on one communicator after the other, until an agree is clean. All survivors go the same way: whether they go on is decided by
 * the agree's code, which is the same for all of them. */
static int recover(struct rank *rank, struct seen *seen)
{
    for (seen->comm = ULFM_COMM_WORLD; seen->count < COMMS;) {
        if (dies_on(rank, seen->comm))
            return ULFM_SUCCESS;
        ulfm_flag flag = 31u & ~(1u << rank->number); /* the five lowest bits without that of its number */
        int code = ulfm_agree(rank->handle, seen->comm, &flag);
        if (code != ULFM_SUCCESS && code != ULFM_ERR_PROC_FAILED)
            return code;
        seen->codes[seen->count] = code;
        seen->flags[seen->count++] = flag;
        if (code == ULFM_SUCCESS) {
            rank->is_done = true;
            return code;
        }
        bool is_first;
        if ((code = acknowledge(rank, seen->comm)) || (code = ulfm_revoke(rank->handle, seen->comm, &is_first))
            || (code = ulfm_shrink(rank->handle, seen->comm, &seen->comm)))
            return code;
    }
    return ULFM_SUCCESS;
}

static void *work(void *argument)
{
    struct rank *rank = argument;
    struct seen *seen = &seen_by[rank->number];
    seen->code = recover(rank, seen);
    return NULL;
}

static void report(const struct rank *rank)
{
    const struct seen *seen = &seen_by[rank->number];
    printf("rank %u: %s\n", rank->number, ulfm_strerror(seen->code));
    for (size_t at = 0; at < seen->count; at++)
        printf("  agreed %x: %s\n", (unsigned)seen->flags[at], ulfm_strerror(seen->codes[at]));
    if (rank->is_done)
        printf("  goes on with communicator %u\n", seen->comm);
}

int main(void)
{
    /* rounds for an agree and a shrink on each communicator */
    if (run_ranks(RANKS, COMMS, 2, work) != ULFM_SUCCESS)
        return 1;
    for (int at = 0; at < RANKS; at++)
        report(&ranks[at]);
    return close_ranks();
}
