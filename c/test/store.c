/* Ranks are processes, each with a replica over a log in a store. One or two of them are ended by SIGKILL: at a moment, or at each of their
 * appends in turn: before it, in its middle (over a file), or behind it. The parent declares whom waitpid tells to be dead.
 *
 * All agree round after round, shrink, and agree on the new communicator. In each run no two survivors may differ in any reply (flag, failed
 * group, error, communicator), what a victim had been answered before its death is what the survivors were answered, and everybody has ended
 * within a minute. Appends are made twice, or answered as if they had failed, now and then; and the parent appends entries that aren't legal.
 *
 *     store_kill WHERE [--runs R] [--seed S]       WHERE as in drivers/log.h, with %d for the number of the run
 *     store_kill WHERE --agrees N --pause MS       one world of four, of which one is killed half way; N agrees with rests between them
 *     store_kill WHERE --forked OTHER              two replicas over two logs differ, and their digests tell it */
#include "drivers/replica.h"
#include "victims.h"

#include <fcntl.h>
#include <signal.h>
#include <stdio.h>
#include <stdlib.h>
#include <string.h>
#include <sys/file.h>
#include <sys/mman.h>
#include <sys/wait.h>
#include <time.h>
#include <unistd.h>

enum { MOST = 8, LATER = 2, REPLIES = 1024, A_MINUTE = 60, NAME = 512 };

static int agrees = 4, pause_between;

/* What a process was answered, in order. `count` grows once the reply is written, so that a victim's replies are whole. */
struct seen {
    _Atomic int count;
    int codes[REPLIES];
    ulfm_reply replies[REPLIES];
    uint16_t failed[REPLIES][MOST];
    struct replica_mark mark;
    uint64_t appends;
    _Atomic bool begun;
};

static struct seen *shared;

/* ---- a log at whose k-th append its process ends ---- */

enum how { BEFORE, AMID, BEHIND, WAYS };

struct dying_log {
    struct log log, *real;
    const char *where;
    uint64_t appends, dies_at;
    enum how how;
    unsigned seed;
};

static void end_amid(const char *where, const ulfm_entry *entry)
{
    if (strncmp(where, "file:", 5) == 0) {
        int file = open(where + 5, O_WRONLY);
        if (file < 0 || flock(file, LOCK_EX) != 0)
            abort();
        off_t size = lseek(file, 0, SEEK_END), end = size - (size - LOG_HEAD) % (off_t)sizeof entry->bytes;
        if (pwrite(file, entry->bytes, 1 + (size_t)rand() % (sizeof entry->bytes - 1), end) <= 0)
            abort();
    }
    kill(getpid(), SIGKILL);
}

static int append(struct log *log, const ulfm_entry *entry)
{
    struct dying_log *own = (struct dying_log *)log;
    bool dies = ++own->appends == own->dies_at;
    if (dies && own->how == BEFORE)
        kill(getpid(), SIGKILL);
    if (dies && own->how == AMID)
        end_amid(own->where, entry);
    int chance = rand_r(&own->seed) % 100;
    if (chance < 4)
        return LOG_AWAY; /* it isn't made */
    int code = own->real->append(own->real, entry);
    if (chance < 12)
        own->real->append(own->real, entry);
    if (dies)
        kill(getpid(), SIGKILL);
    return chance >= 12 && chance < 16 ? LOG_AWAY : code; /* it is made */
}

static int deliver(struct log *log, uint64_t index, ulfm_entry *entries, size_t room, size_t *count, int milliseconds)
{
    struct log *real = ((struct dying_log *)log)->real;
    return real->deliver(real, index, entries, room, count, milliseconds);
}

/* ---- a rank ---- */

static int keep(struct replica *replica, struct seen *seen, uint16_t comm, int code, const ulfm_reply *reply)
{
    uint16_t failed[MOST];
    size_t count = 0;
    seen->codes[seen->count] = code;
    if (code == ULFM_SUCCESS) {
        seen->replies[seen->count] = *reply;
        replica_get_failed(replica, comm, failed, MOST, &count);
        memcpy(seen->failed[seen->count], failed, reply->failed * sizeof *failed);
        if (reply->failed > count)
            seen->codes[seen->count] = -100; /* it was decided that more have failed than the rank knows */
    }
    seen->mark = replica_mark(replica);
    seen->appends = replica->appends;
    seen->count++;
    return code;
}

/* Agrees; acknowledges what is known to have failed where the error is raised. */
static int agree(struct replica *replica, uint16_t comm, ulfm_flag flag, struct seen *seen)
{
    ulfm_reply reply;
    uint16_t acknowledged;
    int code = ulfm_begin_agree(&replica->rank, comm, flag);
    if (code == ULFM_SUCCESS)
        code = replica_wait(replica, comm, &reply);
    if (keep(replica, seen, comm, code, &reply) == ULFM_SUCCESS && reply.raised)
        code = replica_ack_failed(replica, comm, ULFM_MAX_RANKS, &acknowledged);
    return code;
}

static int work(struct replica *replica, int number, struct seen *seen)
{
    ulfm_reply reply;
    int code = ULFM_SUCCESS;
    for (int round = 0; round < agrees && code == ULFM_SUCCESS; round++) {
        log_sleep(pause_between);
        code = agree(replica, ULFM_COMM_WORLD, ~((ulfm_flag)1 << (number + round) % 64), seen);
    }
    if (code == ULFM_SUCCESS)
        code = ulfm_begin_shrink(&replica->rank, ULFM_COMM_WORLD);
    if (code == ULFM_SUCCESS)
        code = replica_wait(replica, ULFM_COMM_WORLD, &reply);
    if (keep(replica, seen, ULFM_COMM_WORLD, code, &reply) != ULFM_SUCCESS)
        return code;
    for (int round = 0; round < LATER && code == ULFM_SUCCESS; round++)
        code = agree(replica, reply.comm, ~((ulfm_flag)1 << (number + round) % 64), seen);
    return code;
}

/* ---- a run ---- */

/* How one run goes: of each rank the moment at which it is killed (seconds from the begin), or at which of its appends it ends itself; 0 where
 * it isn't. */
struct plan {
    int processes;
    double moments[MOST];
    uint64_t appends[MOST];
    enum how how;
    const char *where;
};

static struct log_world world_of(const struct plan *plan)
{
    return (struct log_world){(uint16_t)plan->processes, 2, (uint16_t)(agrees + LATER)};
}

static void child(const struct plan *plan, int number, unsigned seed)
{
    static struct replica replica;
    struct dying_log own = {{append, deliver, NULL}, NULL, plan->where, 0, plan->appends[number], plan->how, seed};
    srand(seed);
    int code = log_open(plan->where, world_of(plan), &own.real);
    shared[number].begun = true;
    if (code == LOG_OK)
        code = replica_open(&replica, &own.log, (uint16_t)number, world_of(plan));
    if (code == ULFM_SUCCESS)
        code = work(&replica, number, &shared[number]);
    if (code == LOG_OK) {
        replica_close(&replica);
        own.real->close(own.real);
    }
    _exit(code);
}

/* Whether two saw the same, as far as the first has come. */
static bool alike(const struct seen *one, const struct seen *other)
{
    return one->count <= other->count && same_answers(one->count, one->codes, other->codes, one->replies, other->replies) &&
           memcmp(one->failed, other->failed, (size_t)one->count * sizeof one->failed[0]) == 0;
}

/* Entries that no history allows: of no kind; a contribution that knows more failures than there are; a mark of nobody. */
static void intrude(struct log *log)
{
    ulfm_entry entry;
    for (size_t at = 0; at < sizeof entry.bytes; at++)
        entry.bytes[at] = (unsigned char)rand();
    entry.bytes[14] |= 1; /* which has to be 0 */
    log->append(log, &entry);
    log->append(log, &(ulfm_entry){{2, 1, 1, 0, 0, 0, 0, 0, 1, 0, 5, 0, 3, 0, 0, 0, 7}});
    log->append(log, &(ulfm_entry){{4, 1, 0, 0, 0, 0, 0, 0, 99, 0, 1}});
}

/* What a run came to: how many died, and what was wrong. */
struct outcome {
    int died;
    double seconds;
    const char *wrong;
};

static const char *judge(int processes, const bool *is_dead)
{
    int survivor = 0;
    while (survivor < processes && is_dead[survivor])
        survivor++;
    for (int number = 0; number < processes && survivor < processes; number++) {
        if (!is_dead[number] && shared[number].count != agrees + 1 + LATER)
            return "a survivor hasn't come to its end";
        if (!alike(&shared[number], &shared[survivor]))
            return is_dead[number] ? "a victim was answered otherwise" : "two survivors differ";
    }
    return NULL;
}

static struct outcome run(const struct plan *plan)
{
    struct outcome outcome = {0, 0, NULL};
    struct log *log;
    uint64_t next = 0;
    memset(shared, 0, MOST * sizeof *shared);
    int code = log_open(plan->where, world_of(plan), &log);
    if (code != LOG_OK)
        printf("%s: %s\n", plan->where, log_strerror(code)), exit(2);
    pid_t pids[MOST];
    bool is_dead[MOST] = {false}, is_killed[MOST] = {false};
    fflush(stdout);
    for (int number = 0; number < plan->processes; number++) {
        unsigned seed = (unsigned)rand();
        if ((pids[number] = fork()) < 0)
            perror("fork"), exit(2);
        if (pids[number] == 0)
            child(plan, number, seed);
    }
    double begin = now();
    for (int left = plan->processes; left > 0;) {
        int status;
        pid_t pid = waitpid(-1, &status, WNOHANG);
        for (int number = 0; number < plan->processes; number++) {
            if (ends_late(pids[number], &is_killed[number], plan->moments[number], now() - begin, A_MINUTE + agrees * pause_between / 1000))
                outcome.wrong = "somebody hangs";
            if (pid != pids[number])
                continue;
            left--;
            pids[number] = -2;
            ulfm_entry entry;
            if (WIFSIGNALED(status)) {
                is_dead[number] = true;
                outcome.died++;
                intrude(log);
                ulfm_failure_entry((uint16_t)number, &entry);
                if ((code = log_put(log, &entry, &next)) != LOG_OK)
                    outcome.wrong = log_strerror(code);
            } else if (WEXITSTATUS(status) != ULFM_SUCCESS && outcome.wrong == NULL) {
                outcome.wrong = log_strerror((signed char)WEXITSTATUS(status));
            }
        }
        if (pid == 0)
            usleep(50);
    }
    outcome.seconds = now() - begin;
    if (outcome.wrong == NULL)
        outcome.wrong = judge(plan->processes, is_dead);
    log->close(log);
    /* what was wrong can be looked at */
    if (strncmp(plan->where, "file:", 5) == 0 && outcome.wrong == NULL)
        unlink(plan->where + 5);
    return outcome;
}

/* ---- many runs ---- */

static int worlds;

/* Where the next world is: each has a name of its own. */
static const char *new_world(const char *pattern)
{
    static char name[NAME];
    const char *at = strstr(pattern, "%d");
    if (at == NULL || strlen(pattern) > NAME - 16)
        printf("%s has no %%d\n", pattern), exit(2);
    snprintf(name, sizeof name, "%.*s%d%s", (int)(at - pattern), pattern, worlds++, at + 2);
    return name;
}

/* Runs of one sort: so many processes, so many victims, killed at random moments or at one append after the other. */
static int runs_of(const char *pattern, int processes, int victims, bool by_append, int runs)
{
    struct plan whole = {.processes = processes, .where = new_world(pattern)};
    struct outcome first = run(&whole);
    double most = first.seconds, seconds = 0;
    uint64_t appends = shared[0].appends;
    int died = 0, wrong = first.wrong != NULL;
    if (wrong)
        printf("a run of %d processes without a victim: %s\n", processes, first.wrong);
    for (int at = 0; at < runs; at++) {
        struct plan plan = {.processes = processes, .how = (enum how)(at % WAYS), .where = new_world(pattern)};
        int victim = rand() % processes;
        for (int which = 0; which < victims; which++, victim = (victim + 1 + rand() % (processes - 1)) % processes) {
            if (by_append)
                plan.appends[victim] = 1 + (which > 0 ? (uint64_t)rand() : (uint64_t)(at / WAYS)) % appends;
            else
                plan.moments[victim] = some(most);
        }
        struct outcome outcome = run(&plan);
        died += outcome.died;
        seconds += outcome.seconds;
        if (outcome.wrong != NULL) {
            wrong++;
            printf("world %s, %d processes, %d victims, %s: %s\n", plan.where, processes, victims, by_append ? "at an append" : "at a moment", outcome.wrong);
        }
    }
    printf("%d processes, %d to be killed %s: %d runs, %d deaths, %.0f ms each; %d wrong\n", processes, victims,
           by_append ? "at an append" : "at a moment", runs, died, runs > 0 ? 1000 * seconds / runs : 0, wrong);
    return wrong;
}

/* One world of four, of which one is killed half way, in a time in which the store is ended and begun again. */
static int one_long_run(const char *where)
{
    struct plan plan = {.processes = 4, .where = where, .moments = {0, 0, 0.0005 * agrees * pause_between}};
    struct outcome outcome = run(&plan);
    printf("%d agrees of 4 processes, %d died, %.1f seconds: %s\n", agrees, outcome.died, outcome.seconds, outcome.wrong != NULL ? outcome.wrong : "all alike");
    return outcome.wrong != NULL || outcome.died != 1;
}

/* ---- a forked log ---- */

/* Rank `number` of two over a log in which the other one is declared: it agrees alone. */
static int alone(const char *where, uint16_t number, struct replica *replica, ulfm_flag *flag)
{
    struct log_world world = {2, 1, 4};
    struct log *log;
    int code = log_open(where, world, &log);
    if (code == LOG_OK)
        code = replica_open(replica, log, number, world);
    if (code == LOG_OK)
        code = replica_fail(replica, 1 - number);
    *flag = 8u | number;
    return code == LOG_OK ? replica_agree(replica, ULFM_COMM_WORLD, flag) : code;
}

static int forked(const char *where, const char *other)
{
    static struct replica replicas[2], third;
    ulfm_flag flags[2], flag;
    int codes[2] = {alone(where, 0, &replicas[0], &flags[0]), alone(other, 1, &replicas[1], &flags[1])};
    bool differ = codes[0] == ULFM_ERR_PROC_FAILED && codes[1] == ULFM_ERR_PROC_FAILED && flags[0] != flags[1];
    bool is_told = replica_compare(&replicas[1], replica_mark(&replicas[0])) == REPLICA_FORKED &&
                   replica_compare(&replicas[0], replica_mark(&replicas[1])) == REPLICA_FORKED;
    /* one more over the first log: it is refused, and has the same digest where it came as far */
    int refused = alone(where, 1, &third, &flag);
    bool is_same = replica_compare(&third, replica_mark(&replicas[0])) == REPLICA_SAME && refused == ULFM_ERR_SELF_FAILED;
    printf("two logs: flags %llx and %llx, %s; one log: %s\n", (unsigned long long)flags[0], (unsigned long long)flags[1],
           differ && is_told ? "and the digests tell it" : "which is wrong", is_same ? "the same digest" : "which is wrong");
    return !(differ && is_told && is_same);
}

int main(int count, char **words)
{
    int runs = 200, made = 0, wrong = 0;
    unsigned seed = 1;
    const char *other = NULL;
    if (count < 2 || count % 2 != 0)
        return fprintf(stderr, "usage: store_kill WHERE [--runs R] [--seed S] [--agrees N --pause MS] [--forked OTHER]\n"), 2;
    for (int at = 2; at + 1 < count; at += 2) {
        if (strcmp(words[at], "--runs") == 0)
            runs = atoi(words[at + 1]);
        if (strcmp(words[at], "--seed") == 0)
            seed = (unsigned)atoi(words[at + 1]);
        if (strcmp(words[at], "--agrees") == 0)
            agrees = atoi(words[at + 1]);
        if (strcmp(words[at], "--pause") == 0)
            pause_between = atoi(words[at + 1]);
        if (strcmp(words[at], "--forked") == 0)
            other = words[at + 1];
    }
    if (agrees < 1 || agrees > REPLIES - 1 - LATER)
        return 2;
    srand(seed);
    shared = mmap(NULL, MOST * sizeof *shared, PROT_READ | PROT_WRITE, MAP_SHARED | MAP_ANONYMOUS, -1, 0);
    if (shared == MAP_FAILED)
        return perror("mmap"), 2;
    if (other != NULL)
        return forked(words[1], other);
    if (pause_between > 0)
        return one_long_run(words[1]);
    /* of each sort so many in a hundred */
    const int shares[8] = {10, 10, 5, 5, 25, 25, 10, 10};
    for (int sort = 0, share = 0; sort < 8; sort++) {
        share += shares[sort];
        int until = runs * share / 100;
        wrong += runs_of(words[1], sort & 1 ? 8 : 4, sort & 2 ? 2 : 1, (sort & 4) != 0, until - made);
        made = until;
    }
    printf("%d runs, %d wrong\n", made, wrong);
    return wrong != 0;
}
