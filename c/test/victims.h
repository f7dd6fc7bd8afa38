/* What the tests share in which processes are killed: time and chance, when a process is ended, and whether two were answered the same. */
#ifndef VICTIMS_H
#define VICTIMS_H

#include "ulfm.h"

#include <signal.h>
#include <stdbool.h>
#include <stdlib.h>
#include <sys/types.h>
#include <time.h>

static double now(void)
{
    struct timespec time;
    clock_gettime(CLOCK_MONOTONIC, &time);
    return (double)time.tv_sec + 1e-9 * (double)time.tv_nsec;
}

/* A random number above 0, at most `most`. */
static double some(double most)
{
    return most * ((double)rand() + 1) / ((double)RAND_MAX + 1);
}

/* Ends a process once its moment has come, if it has one, or when so many seconds have passed as it may take: whether they have. */
static bool ends_late(pid_t pid, bool *is_killed, double moment, double passed, double most)
{
    bool is_late = passed > most;
    if (!*is_killed && (is_late || (moment > 0 && passed >= moment))) {
        *is_killed = true;
        kill(pid, SIGKILL);
    }
    return is_late;
}

static bool same_reply(const ulfm_reply *one, const ulfm_reply *other)
{
    return one->kind == other->kind && one->flag == other->flag && one->failed == other->failed && one->comm == other->comm &&
           one->context == other->context && one->size == other->size && one->raised == other->raised;
}

/* Whether two were answered the same: the first `count` codes, and the replies that go with them. */
static bool same_answers(int count, const int *codes, const int *other_codes, const ulfm_reply *replies, const ulfm_reply *other_replies)
{
    for (int at = 0; at < count; at++)
        if (codes[at] != other_codes[at] || !same_reply(&replies[at], &other_replies[at]))
            return false;
    return true;
}

#endif
