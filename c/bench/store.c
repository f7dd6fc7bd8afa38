/* What ranks over a log in a store cost: store operations counted, and an agree timed beside the store's own append and delivery.
 *
 *     store_times WHERE OTHER N K      N processes agree K times over the log at WHERE, and in turn with that append an entry each to the log at
 *                                      OTHER, and read on until they have all of them: microseconds of each, the median of K
 *     store_times WHERE --count N D    N processes agree, D of them end and are declared, and the others agree again and shrink: appends counted */
#include "clock.h"
#include "drivers/replica.h"

#include <stdio.h>
#include <stdlib.h>
#include <string.h>
#include <sys/mman.h>
#include <sys/wait.h>
#include <unistd.h>

enum { MOST = 64, ROUNDS = 1000, ROOM = 256 };

static struct shared {
    _Atomic int arrived;
    double agrees[MOST][ROUNDS], bare[MOST][ROUNDS];
    uint64_t appends[MOST], polls[MOST], before[MOST], shrinks[MOST];
} *shared;
static int count, rounds;

static void check(const char *what, int code)
{
    if (code != LOG_OK)
        fprintf(stderr, "%s: %s\n", what, log_strerror(code)), exit(1);
}

/* All begin a round together. */
static void meet(int at)
{
    shared->arrived++;
    while (shared->arrived < at * count)
        usleep(100);
}

/* Appends an entry of no kind, and reads on until as many came as there are processes. */
static void bare_round(struct log *log, uint64_t *next)
{
    ulfm_entry entry, came[ROOM];
    log_nothing(&entry);
    check("append", log->append(log, &entry));
    for (uint64_t end = *next + (uint64_t)count; *next < end;) {
        size_t got = 0;
        check("deliver", log->deliver(log, *next, came, ROOM, &got, 1000));
        *next += got;
    }
}

static void work(const char *where, const char *other, int number)
{
    static struct replica replica;
    struct log_world world = {(uint16_t)count, 1, (uint16_t)(rounds + 1)};
    struct log *log, *bare;
    uint64_t next = 0;
    ulfm_flag flag = ~((ulfm_flag)1 << number);
    check(where, log_open(where, world, &log));
    check(other, log_open(other, world, &bare));
    check("open", replica_open(&replica, log, (uint16_t)number, world));
    /* by turns the one and the other comes first, since the second is slower, whichever it is */
    for (int part = 0; part < 2 * rounds; part++) {
        bool is_bare = (part % 4 == 0) || (part % 4 == 3);
        meet(part + 1);
        double begin = now();
        if (is_bare)
            bare_round(bare, &next);
        else
            check("agree", replica_agree(&replica, ULFM_COMM_WORLD, &flag));
        (is_bare ? shared->bare : shared->agrees)[number][part / 2] = 1e-3 * (now() - begin);
    }
    shared->appends[number] = replica.appends;
}

static struct log_world few_rounds(void)
{
    return (struct log_world){(uint16_t)count, 2, 4};
}

/* One agree, one more behind the end of the last D, and a shrink. */
static void count_appends(const char *where, int number, int dead)
{
    static struct replica replica;
    struct log *log;
    ulfm_flag flag = 1;
    check(where, log_open(where, few_rounds(), &log));
    check("open", replica_open(&replica, log, (uint16_t)number, few_rounds()));
    check("agree", replica_agree(&replica, ULFM_COMM_WORLD, &flag));
    shared->before[number] = replica.appends;
    if (number >= count - dead)
        return;
    /* polls that find somebody missing: as many as are made in half a second */
    ulfm_reply reply;
    replica.limit = 500;
    check("start", ulfm_begin_agree(&replica.rank, ULFM_COMM_WORLD, 1));
    if (dead > 0 && replica_wait(&replica, ULFM_COMM_WORLD, &reply) != ULFM_ERR_PENDING)
        fprintf(stderr, "somebody was missing, and it was answered\n"), exit(1);
    shared->polls[number] = replica.appends - shared->before[number] - 1;
    shared->arrived++;
    replica.limit = 0;
    check("agree", replica_wait(&replica, ULFM_COMM_WORLD, &reply));
    shared->appends[number] = replica.appends;
    uint16_t made;
    check("shrink", replica_shrink(&replica, ULFM_COMM_WORLD, &made));
    shared->shrinks[number] = replica.appends - shared->appends[number];
}

static int by_size(const void *one, const void *other)
{
    double a = *(const double *)one, b = *(const double *)other;
    return (a > b) - (a < b);
}

/* The median over all rounds of the last process's time. */
static double median(double of[MOST][ROUNDS])
{
    double last[ROUNDS] = {0};
    for (int round = 0; round < rounds; round++)
        for (int number = 0; number < count; number++)
            last[round] = of[number][round] > last[round] ? of[number][round] : last[round];
    qsort(last, (size_t)rounds, sizeof *last, by_size);
    return last[rounds / 2];
}

static uint64_t sum(const uint64_t *of)
{
    uint64_t all = 0;
    for (int number = 0; number < count; number++)
        all += of[number];
    return all;
}

static void declare(const char *where, int dead)
{
    struct log *log;
    uint64_t next = 0;
    check(where, log_open(where, few_rounds(), &log));
    while (shared->arrived < count - dead)
        usleep(1000);
    for (int number = count - dead; number < count; number++) {
        ulfm_entry entry;
        check("entry", ulfm_failure_entry((uint16_t)number, &entry));
        check("declare", log_put(log, &entry, &next));
    }
    log->close(log);
}

int main(int words, char **word)
{
    if (words != 5 || (count = atoi(word[3])) < 1 || count > MOST)
        return fprintf(stderr, "usage: store_times WHERE OTHER N K | store_times WHERE --count N D\n"), 2;
    bool counts = strcmp(word[2], "--count") == 0;
    rounds = atoi(word[4]);
    if (rounds < !counts || rounds > ROUNDS)
        return 2;
    shared = mmap(NULL, sizeof *shared, PROT_READ | PROT_WRITE, MAP_SHARED | MAP_ANONYMOUS, -1, 0);
    if (shared == MAP_FAILED)
        return perror("mmap"), 2;
    for (int number = 0; number < count; number++)
        if (fork() == 0) {
            counts ? count_appends(word[1], number, rounds) : work(word[1], word[2], number);
            _exit(0);
        }
    if (counts)
        declare(word[1], rounds);
    for (int left = count; left > 0; left--) {
        int status;
        if (wait(&status) < 0 || status != 0)
            return 1;
    }
    /* each survivor has a start more in the second agree, and one in the shrink */
    uint64_t marks = 0, left = (uint64_t)(count - rounds);
    for (int number = 0; counts && number < count - rounds; number++)
        marks += shared->appends[number] - shared->before[number] - 1;
    if (counts)
        printf("%d ranks: %llu appends in their starts, %llu in polls that find %d missing, %llu marks of %d declared; beside its starts a shrink "
               "has %llu\n", count, (unsigned long long)sum(shared->before), (unsigned long long)sum(shared->polls), rounds,
               (unsigned long long)marks, rounds, (unsigned long long)(sum(shared->shrinks) - left));
    else
        printf("%d %.0f %.0f %.3f\n", count, median(shared->bare), median(shared->agrees), (double)sum(shared->appends) / (count * rounds));
    return 0;
}
