/* What single calls cost through C, in one thread: the least of several means, in nanoseconds a call.
 *
 *     calls             measures
 *     calls --rounds    1,000 rounds of four ranks and a question each, for a profiler that counts instructions */
#include "clock.h"
#include "ulfm.h"

#include <stdio.h>
#include <stdlib.h>
#include <string.h>

enum { CALLS = 4000, REPEATS = 25 };

static ulfm_handle outside = ULFM_HANDLE_NULL, ranks[4];

static void opened(uint16_t count)
{
    if (ulfm_open(count, 1, 4096, &outside, ranks, count) != ULFM_SUCCESS)
        abort();
}

static void closed(uint16_t count)
{
    for (int rank = 0; rank < count; rank++)
        ulfm_close(&ranks[rank]);
    ulfm_close(&outside);
}

static void wants(int code, int wanted)
{
    if (code != wanted)
        abort();
}

/* Of each sort one call, with the communicator of this world. */
static void refused(void)
{
    ulfm_reply reply;
    wants(ulfm_poll(&ranks[0], 0, &reply), ULFM_ERR_IDLE);
}

static void is_revoked(void)
{
    bool is;
    wants(ulfm_is_revoked(&ranks[0], 0, &is), ULFM_SUCCESS);
}

static void get_failed(void)
{
    uint16_t failed[4];
    size_t count;
    wants(ulfm_get_failed(&ranks[0], 0, failed, 4, &count), ULFM_SUCCESS);
}

static void agree_alone(void)
{
    ulfm_flag flag = 1;
    wants(ulfm_agree(&ranks[0], 0, &flag), ULFM_SUCCESS);
}

static void agree_of_four(void)
{
    ulfm_reply reply;
    for (int rank = 0; rank < 4; rank++)
        wants(ulfm_iagree(&ranks[rank], 0, 1), ULFM_SUCCESS);
    for (int rank = 0; rank < 4; rank++)
        wants(ulfm_poll(&ranks[rank], 0, &reply), ULFM_SUCCESS);
}

static void measure(const char *what, uint16_t count, void (*call)(void))
{
    double least = 1e99;
    for (int repeat = 0; repeat < REPEATS; repeat++) {
        opened(count);
        call();
        double begin = now();
        for (int at = 0; at < CALLS; at++)
            call();
        double mean = (now() - begin) / CALLS;
        least = mean < least ? mean : least;
        closed(count);
    }
    printf("%-60s %8.0f ns\n", what, least);
}

/* 1,000 agrees of four ranks, each of whom asks whether it is revoked. */
static void rounds(void)
{
    opened(4);
    for (int round = 0; round < 1000; round++) {
        agree_of_four();
        for (int rank = 0; rank < 4; rank++) {
            bool is;
            wants(ulfm_is_revoked(&ranks[rank], 0, &is), ULFM_SUCCESS);
        }
    }
    closed(4);
}

int main(int count, char **words)
{
    if (count == 2 && strcmp(words[1], "--rounds") == 0) {
        rounds();
        return 0;
    }
    measure("a poll that is refused (idle), world of 1", 1, refused);
    measure("ulfm_is_revoked, world of 1", 1, is_revoked);
    measure("ulfm_get_failed of an empty group, world of 1", 1, get_failed);
    measure("ulfm_agree, world of 1: a start and a poll", 1, agree_alone);
    measure("a round of 4 ranks in one thread: 4 starts, 4 polls", 4, agree_of_four);
    return 0;
}
