/* Three ranks, each with a replica of its own, recover from the end of one. All that goes between them is a log in a store.
 *
 *     store WHERE              all three as processes of this machine: rank 2 is ended by SIGKILL, and declared
 *     store WHERE rank N       rank N alone, as on a machine of its own: it agrees on and on, until somebody is declared
 *     store WHERE fail N       declares rank N failed
 *     store WHERE dump         the log as a file, on standard output. It appends an entry of no kind, to know where it ends
 *
 * WHERE is file:PATH, postgres:WORLD@CONNECTION or etcd:WORLD@HOST:PORT,.. : drivers/log.h has them. Each world is used once, so take a new
 * name each time. Whatever the moment of the end, all survivors leave with one flag, one failed group, one error and one communicator. */
#include "drivers/replica.h"

#include <signal.h>
#include <stdio.h>
#include <stdlib.h>
#include <string.h>
#include <sys/mman.h>
#include <sys/wait.h>
#include <unistd.h>

enum { RANKS = 3, VICTIM = 2, ROUNDS = 4096, BEFORE_IT_IS_KILLED = 10, PAUSE = 200 };

static const struct log_world WORLD = {RANKS, 2, ROUNDS};

/* What a survivor saw; alike at all of them. */
struct seen {
    int met, settled, shrunk, last;
    ulfm_flag met_flag, settled_flag, last_flag;
    uint16_t failed[RANKS], comm, size;
    size_t failed_count;
};

static int wrong(const char *what, int code)
{
    fprintf(stderr, "%s: %s\n", what, log_strerror(code));
    return code;
}

/* Opens the log, and waits for a store that is away. */
static int opened(const char *where, struct log **log)
{
    enum { TRIES = 30, BETWEEN = 1000 };
    int code = log_open(where, WORLD, log);
    for (int left = TRIES; code == LOG_AWAY && left > 0; left--) {
        log_sleep(BETWEEN);
        code = log_open(where, WORLD, log);
    }
    return code;
}

/* From the agree that met the failure to one on the new communicator. */
static int recover(struct replica *replica, ulfm_flag flag, struct seen *seen)
{
    uint16_t acknowledged, members[RANKS];
    size_t size = 0;
    int code = replica_get_failed(replica, ULFM_COMM_WORLD, seen->failed, RANKS, &seen->failed_count);
    if (code == ULFM_SUCCESS)
        code = replica_ack_failed(replica, ULFM_COMM_WORLD, (uint16_t)seen->failed_count, &acknowledged);
    if (code != ULFM_SUCCESS)
        return code;
    seen->settled_flag = flag;
    seen->settled = replica_agree(replica, ULFM_COMM_WORLD, &seen->settled_flag);
    seen->shrunk = replica_shrink(replica, ULFM_COMM_WORLD, &seen->comm);
    if (seen->shrunk != ULFM_SUCCESS)
        return seen->shrunk;
    code = ulfm_members(&replica->rank, seen->comm, members, RANKS, &size);
    seen->size = (uint16_t)size;
    seen->last_flag = flag;
    return code != ULFM_SUCCESS ? code : (seen->last = replica_agree(replica, seen->comm, &seen->last_flag));
}

static void tell(const struct seen *seen, const char *indent)
{
    printf("%sthe agree that met the failure: %s\n", indent, ulfm_strerror(seen->met));
    printf("%sthe failed group: %zu, rank %u\n", indent, seen->failed_count, seen->failed[0]);
    printf("%sacknowledged, and agreed again: %s, flag %08x\n", indent, ulfm_strerror(seen->settled), (unsigned)seen->settled_flag);
    printf("%sshrunk: %s, communicator %u of %u\n", indent, ulfm_strerror(seen->shrunk), seen->comm, seen->size);
    printf("%san agree on it: %s, flag %08x\n", indent, ulfm_strerror(seen->last), (unsigned)seen->last_flag);
}

/* A rank's whole work. `agrees` counts its agrees; it rests between two of them, so that there is time to end somebody by hand. */
static int work(const char *where, uint16_t number, int pause, struct seen *seen, _Atomic unsigned *agrees)
{
    struct replica *replica = malloc(sizeof *replica);
    struct log *log;
    int code = replica == NULL ? ULFM_ERR_NO_MEM : opened(where, &log);
    if (code != LOG_OK)
        return wrong(where, code);
    code = replica_open(replica, log, number, WORLD);
    if (code != ULFM_SUCCESS)
        return wrong("open", code);
    ulfm_flag flag = ~(1u << number);
    do {
        log_sleep(pause);
        seen->met_flag = flag;
        seen->met = replica_agree(replica, ULFM_COMM_WORLD, &seen->met_flag);
        ++*agrees;
    } while (seen->met == ULFM_SUCCESS);
    code = seen->met == ULFM_ERR_PROC_FAILED ? recover(replica, flag, seen) : seen->met;
    if (code != ULFM_SUCCESS)
        wrong("a call", code);
    if (pause > 0) {
        printf("rank %u, behind %u agrees:\n", number, *agrees);
        tell(seen, "  ");
        printf("its log: %llu entries, digest %016llx\n", (unsigned long long)replica->fed, (unsigned long long)replica->digest);
    }
    replica_close(replica);
    log->close(log);
    free(replica);
    return code;
}

/* Declares a rank failed: for whoever has found out that it is dead. */
static int declare(const char *where, uint16_t number)
{
    struct log *log;
    ulfm_entry entry;
    uint64_t next = 0;
    int code = ulfm_failure_entry(number, &entry);
    if (code == ULFM_SUCCESS)
        code = opened(where, &log);
    if (code != LOG_OK)
        return code;
    code = log_put(log, &entry, &next);
    log->close(log);
    return code;
}

static int dump(const char *where)
{
    struct log *log;
    unsigned char head[LOG_HEAD];
    ulfm_entry end, entry;
    uint64_t next = 0;
    size_t count;
    int code = opened(where, &log);
    if (code != LOG_OK)
        return code;
    log_nothing(&end);
    code = log_put(log, &end, &next);
    log_head(WORLD, head);
    fwrite(head, sizeof head, 1, stdout);
    for (uint64_t at = 0; code == LOG_OK && at + 1 < next;) {
        code = log->deliver(log, at, &entry, 1, &count, 500);
        if (code == LOG_OK && count == 1)
            fwrite(entry.bytes, sizeof entry.bytes, 1, stdout);
        if (code == LOG_OK)
            at += count;
    }
    log->close(log);
    return code;
}

/* All three here. */
static int all(const char *where)
{
    struct {
        struct seen seen[RANKS];
        _Atomic unsigned agrees[RANKS];
    } *shared = mmap(NULL, sizeof *shared, PROT_READ | PROT_WRITE, MAP_SHARED | MAP_ANONYMOUS, -1, 0);
    pid_t pids[RANKS];
    if (shared == MAP_FAILED)
        return perror("mmap"), 1;
    for (uint16_t number = 0; number < RANKS; number++) {
        pids[number] = fork();
        if (pids[number] < 0)
            return perror("fork"), 1;
        if (pids[number] == 0)
            _exit(work(where, number, 0, &shared->seen[number], &shared->agrees[number]) != ULFM_SUCCESS);
    }
    int status, ended_well = 0, alike = 0;
    while (shared->agrees[VICTIM] < BEFORE_IT_IS_KILLED && waitpid(pids[VICTIM], &status, WNOHANG) == 0)
        log_sleep(1);
    kill(pids[VICTIM], SIGKILL);
    waitpid(pids[VICTIM], &status, 0);
    int code = declare(where, VICTIM);
    printf("rank %d was ended, and is declared: %s\n", VICTIM, log_strerror(code));
    const struct seen *one = &shared->seen[0];
    for (int number = 0; number < RANKS; number++)
        if (number != VICTIM) {
            waitpid(pids[number], &status, 0);
            ended_well += status == 0;
            alike += memcmp(&shared->seen[number], one, sizeof *one) == 0;
        }
    printf("%d of %d survivors ended well, and %d saw the same:\n", ended_well, RANKS - 1, alike);
    tell(one, "  ");
    return !(code == LOG_OK && ended_well == RANKS - 1 && alike == RANKS - 1);
}

int main(int count, char **words)
{
    struct seen seen = {0};
    _Atomic unsigned agrees = 0;
    int number = count == 4 ? atoi(words[3]) : 0;
    if (count == 2)
        return all(words[1]);
    if (count == 4 && number >= 0 && number < RANKS && strcmp(words[2], "rank") == 0)
        return work(words[1], (uint16_t)number, PAUSE, &seen, &agrees) != ULFM_SUCCESS;
    int code = LOG_WHERE;
    if (count == 4 && number >= 0 && number < RANKS && strcmp(words[2], "fail") == 0)
        code = declare(words[1], (uint16_t)number);
    else if (count == 3 && strcmp(words[2], "dump") == 0)
        code = dump(words[1]);
    else
        fprintf(stderr, "usage: store WHERE [rank N | fail N | dump]\n");
    return code != LOG_OK && wrong(words[0], code) != LOG_OK;
}
