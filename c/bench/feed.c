/* What an entry of a log costs to feed, by the log's length: nanoseconds an entry of ulfm_feed, in a world of 1,024 ranks unless another number is
 * given. The last rank's replica is fed each log from its first entry on. Each figure is the least of some runs.
 *
 *     feed [RANKS]
 *
 * The logs: contributions to one round after the other, each legal, in the ranks' order and in a mixed one; the same with each entry once more
 * behind itself, which is left out; contributions and arrivals in turn; with a tenth of the ranks declared and marked in each round; and in order,
 * where the replica itself starts an agree before each round, which waits for the round's last entry, and polls behind it. Each is fed up to three
 * lengths, of which the last is all that the world's rounds allow. */
#include "clock.h"
#include "ulfm.h"

#include <stdio.h>
#include <stdlib.h>

enum { RUNS = 5, SHORT = 10000, LONG = 100000 };
enum { A_FAILURE = 1, AN_AGREE = 2, A_MARK = 4, AN_ARRIVAL = 5 };

struct fed {
    ulfm_entry *entries;
    uint64_t count, legal;
};

static uint16_t ranks, rounds;

static void put(struct fed *log, int kind, unsigned by, unsigned round, unsigned rank, unsigned known, uint64_t flag)
{
    ulfm_entry *entry = &log->entries[log->count++];
    const unsigned numbers[] = {by, 0, round, rank, known, kind == AN_AGREE ? known : 0};
    *entry = (ulfm_entry){{(unsigned char)kind, 1}};
    for (int at = 0; at < 6; at++) {
        entry->bytes[2 + 2 * at] = (unsigned char)(numbers[at] % 256);
        entry->bytes[3 + 2 * at] = (unsigned char)(numbers[at] / 256);
    }
    for (int at = 0; at < 8; at++)
        entry->bytes[16 + at] = (unsigned char)(flag >> 8 * at & 255);
    log->legal++;
}

enum sort { IN_ORDER, MIXED, TWICE, WITH_BARRIERS, WITH_FAILURES, WITH_CALLS, SORTS };
static const char *const names[SORTS] = {"contributions in order", "contributions mixed", "each one twice", "contributions and arrivals",
                                         "a tenth marked", "its own agree under way"};

static uint64_t flag_of(unsigned rank)
{
    return ~(uint64_t)0 ^ (uint64_t)1 << rank % 64;
}

/* One round's entries. */
static void put_round(struct fed *log, enum sort sort, unsigned round)
{
    unsigned failed = sort == WITH_FAILURES ? ranks / 10u : 0;
    for (unsigned at = 0; at < ranks; at++) {
        /* 7 and a number of ranks of 2 have no common divisor; else it is the order itself */
        unsigned rank = sort == IN_ORDER || sort == WITH_CALLS || ranks % 7 == 0 ? at : at * 7 % ranks;
        if (rank < failed) {
            put(log, A_MARK, ranks - 1u, round, rank, rank + 1, 0);
            continue;
        }
        put(log, AN_AGREE, rank, round, rank, failed, flag_of(rank));
        if (sort == TWICE) {
            log->entries[log->count] = log->entries[log->count - 1];
            log->count++;
        }
        if (sort == WITH_BARRIERS)
            put(log, AN_ARRIVAL, rank, round, rank, 0, 0);
    }
}

static struct fed made(enum sort sort)
{
    struct fed log = {malloc((2 * (size_t)rounds + 1) * ranks * sizeof(ulfm_entry)), 0, 0};
    if (log.entries == NULL)
        exit(2);
    for (unsigned rank = 0; sort == WITH_FAILURES && rank < ranks / 10u; rank++, log.legal++)
        if (ulfm_failure_entry((uint16_t)rank, &log.entries[log.count++]) != ULFM_SUCCESS)
            exit(2);
    for (unsigned round = 0; round < rounds; round++)
        put_round(&log, sort, round);
    return log;
}

static void run(ulfm_handle *rank, int begun, uint32_t wanted, uint32_t kind)
{
    ulfm_entry entry;
    ulfm_reply reply = ULFM_REPLY_INIT;
    int code = 0;
    uint32_t ran;
    if (begun != ULFM_SUCCESS || ulfm_run(rank, &entry, &reply, &code, &ran) != ULFM_SUCCESS || code != ULFM_SUCCESS || ran != wanted || reply.kind != kind)
        fprintf(stderr, "a call went otherwise\n"), exit(1);
}

/* The replica's own call before an entry, where it makes any: behind each round its poll, and then the next start. */
static void call(ulfm_handle *rank, uint64_t index)
{
    uint64_t round = index / ranks;
    if (index % ranks != 0 || round >= rounds)
        return;
    if (round > 0) {
        run(rank, ULFM_SUCCESS, ULFM_ANSWERED, ULFM_PENDING);
        run(rank, ulfm_begin_poll(rank, ULFM_COMM_WORLD), ULFM_ANSWERED, ULFM_AGREED);
    }
    if (round + 1 < rounds) /* the last round is kept for a shrink */
        run(rank, ulfm_begin_agree(rank, ULFM_COMM_WORLD, flag_of(ranks - 1u)), ULFM_WANTS, ULFM_PENDING);
}

/* Feeds a new replica so many entries: nanoseconds an entry. */
static double feed(const struct fed *log, enum sort sort, uint64_t count)
{
    ulfm_handle rank = ULFM_HANDLE_NULL;
    uint64_t taken = 0;
    uint32_t fed;
    if (ulfm_open_replica(&rank, (uint16_t)(ranks - 1), ranks, 1, rounds) != ULFM_SUCCESS)
        exit(2);
    double begin = now();
    for (uint64_t index = 0; index < count; index++) {
        if (sort == WITH_CALLS)
            call(&rank, index);
        if (ulfm_feed(&rank, index, &log->entries[index], &fed) != ULFM_SUCCESS)
            exit(2);
        taken += fed != ULFM_LEFT_OUT;
    }
    double each = (now() - begin) / (double)count;
    if (count == log->count && taken != log->legal)
        fprintf(stderr, "%llu entries were taken, and not %llu\n", (unsigned long long)taken, (unsigned long long)log->legal), exit(1);
    ulfm_close(&rank);
    return each;
}

int main(int words, char **word)
{
    ranks = (uint16_t)(words > 1 ? atoi(word[1]) : ULFM_MAX_RANKS);
    if (ranks < 2 || ranks > ULFM_MAX_RANKS)
        return fprintf(stderr, "usage: feed [RANKS]\n"), 2;
    /* as many as a world may have: its size is ranks + 2 + 2 * rounds * ranks */
    unsigned most = (ULFM_MAX_SIZE - ranks - 2u) / (2u * ranks);
    rounds = (uint16_t)(most < ULFM_MAX_ROUNDS ? most : ULFM_MAX_ROUNDS);
    printf("%u ranks, %u rounds: nanoseconds an entry\n", ranks, rounds);
    for (enum sort sort = IN_ORDER; sort < SORTS; sort++) {
        struct fed log = made(sort);
        const uint64_t lengths[] = {SHORT, LONG, log.count};
        printf("%-28s", names[sort]);
        for (int at = 0; at < 3; at++) {
            double least = 1e18;
            for (int run = 0; run < RUNS && (at == 0 || lengths[at] > lengths[at - 1]); run++) {
                double each = feed(&log, sort, lengths[at] < log.count ? lengths[at] : log.count);
                least = each < least ? each : least;
            }
            printf("%10llu: %6.0f", (unsigned long long)lengths[at], least < 1e18 ? least : 0);
            fflush(stdout);
        }
        printf("\n");
        free(log.entries);
    }
    return 0;
}
