/* A world whose ranks are threads, with a failure detector in a thread beside them: what recovery.c and loop.c have in common. */
#ifndef RANKS_H
#define RANKS_H

#include "ulfm.h"

#include <pthread.h>
#include <stdio.h>
#include <stdlib.h>

enum { MOST_RANKS = 8 };

/* A rank with its thread, which alone calls by its handle until it is joined. */
struct rank {
    ulfm_handle *handle;
    pthread_t thread;
    uint16_t number;
    bool is_done; /* all its work; written by its thread, read once that is joined */
};

static struct rank ranks[MOST_RANKS];
static uint16_t rank_count;
static ulfm_handle outside = ULFM_HANDLE_NULL;

/* Waits for the thread of each rank in turn, the last one's first, and declares those whose work isn't done. (A detector that waits for
 * whoever ends first would look at all of them again and again.) */
static void *detect(void *unused)
{
    (void)unused;
    for (int at = rank_count - 1; at >= 0; at--) {
        bool is_first;
        pthread_join(ranks[at].thread, NULL);
        if (!ranks[at].is_done && ulfm_fail(&outside, ranks[at].number, &is_first) != ULFM_SUCCESS)
            abort();
    }
    return NULL;
}

/* Opens a world of so many ranks, which are at most MOST_RANKS, and lets each work in a thread, with the detector beside them. All threads
 * have ended when it returns the opening's code. */
static int run_ranks(uint16_t count, uint16_t comms, uint16_t rounds, void *(*work)(void *rank))
{
    static ulfm_handle handles[MOST_RANKS]; /* null, all of them */
    int code = ulfm_open(count, comms, rounds, &outside, handles, count);
    if (code != ULFM_SUCCESS) {
        fprintf(stderr, "open: %s\n", ulfm_strerror(code));
        return code;
    }
    rank_count = count;
    for (uint16_t at = 0; at < count; at++) {
        ranks[at].number = at;
        ranks[at].handle = &handles[at];
    }
    for (int at = 0; at < count; at++)
        if (pthread_create(&ranks[at].thread, NULL, work, &ranks[at]) != 0)
            abort();
    pthread_t detector;
    if (pthread_create(&detector, NULL, detect, NULL) != 0)
        abort();
    pthread_join(detector, NULL);
    return code;
}

static int close_ranks(void)
{
    for (int at = 0; at < rank_count; at++)
        ulfm_close(ranks[at].handle);
    return ulfm_close(&outside);
}

#endif
