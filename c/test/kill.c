/* Ranks are processes, and one or two of them are ended by SIGKILL: at random moments, or just before each access in turn that they make to
 * words which processes share. The parent declares whom waitpid tells to be dead.
 *
 * All agree round after round, shrink, and agree on the new communicator. In each run no two survivors may differ in any reply, what a
 * victim had been answered before its death is what the survivors were answered, and everybody has ended within half a minute.
 *
 *     kill [--runs R] [--seed S]        200 runs, seed 1; a line for each sort of runs, and status 1 where one was wrong */
#include "dies.h"
#include "ulfm.h"
#include "victims.h"

#include <errno.h>
#include <stdio.h>
#include <string.h>
#include <sys/wait.h>
#include <time.h>

enum { MOST = 8, AGREES = 4, LATER = 2, REPLIES = AGREES + 1 + LATER, HALF_A_MINUTE = 30 };

/* What a process was answered, in order. `count` grows once the reply is written, so that a victim's replies are whole. */
struct seen {
    _Atomic int count;
    int codes[REPLIES];
    ulfm_reply replies[REPLIES];
};

/* What the processes of a run share beside the world. */
struct shared {
    struct seen seen[MOST];
    long accesses[MOST];
    _Atomic int begun;
};

static struct shared *shared;
static char *region;
static size_t region_size;
static _Atomic uint8_t *touched;

static void *map(size_t size)
{
    void *at = mmap(NULL, size, PROT_READ | PROT_WRITE, MAP_SHARED | MAP_ANONYMOUS, -1, 0);
    if (at == MAP_FAILED)
        perror("mmap"), exit(2);
    return at;
}

/* ---- a rank ---- */

static int keep(struct seen *seen, int code, const ulfm_reply *reply)
{
    seen->codes[seen->count] = code;
    if (code == ULFM_SUCCESS)
        seen->replies[seen->count] = *reply;
    seen->count++;
    return code;
}

/* Agrees; acknowledges what is known to have failed where the error is raised. */
static int agree(ulfm_handle *rank, uint16_t comm, ulfm_flag flag, struct seen *seen)
{
    ulfm_reply reply;
    uint16_t acknowledged;
    int code = ulfm_iagree(rank, comm, flag);
    if (code == ULFM_SUCCESS)
        code = ulfm_wait(rank, comm, &reply);
    if (keep(seen, code, &reply) == ULFM_SUCCESS && reply.raised)
        code = ulfm_ack_failed(rank, comm, ULFM_MAX_RANKS, &acknowledged);
    return code;
}

static int work(ulfm_handle *rank, int number, struct seen *seen)
{
    ulfm_reply reply;
    int code = ULFM_SUCCESS;
    for (int round = 0; round < AGREES && code == ULFM_SUCCESS; round++)
        code = agree(rank, ULFM_COMM_WORLD, ~(1u << (number + round)), seen);
    if (code == ULFM_SUCCESS)
        code = ulfm_ishrink(rank, ULFM_COMM_WORLD);
    if (code == ULFM_SUCCESS)
        code = ulfm_wait(rank, ULFM_COMM_WORLD, &reply);
    if (keep(seen, code, &reply) != ULFM_SUCCESS)
        return code;
    for (int round = 0; round < LATER && code == ULFM_SUCCESS; round++)
        code = agree(rank, reply.comm, ~(1u << (number + round)), seen);
    return code;
}

/* ---- a run ---- */

/* How one run goes: of each rank the moment at which it is killed (seconds from the begin), or before which of its accesses it ends
 * itself; 0 where it isn't. */
struct plan {
    int processes;
    double moments[MOST];
    long accesses[MOST];
    bool notes_touched;
};

static void child(const struct plan *plan, ulfm_handle *ranks, ulfm_handle *outside, int number)
{
    ulfm_drop_copy(outside);
    for (int other = 0; other < plan->processes; other++)
        if (other != number)
            ulfm_drop_copy(&ranks[other]);
    /* all begin together */
    shared->begun++;
    while (shared->begun < plan->processes)
        sched_yield();
    bool is_watched = plan->notes_touched || plan->accesses[number] != 0;
    if (is_watched)
        watch_begins((struct watch){region, region_size, touched, (uint8_t)(1 << number), plan->accesses[number], &shared->accesses[number]});
    int code = work(&ranks[number], number, &shared->seen[number]);
    if (is_watched)
        watch_ends();
    _exit(code);
}

/* Whether two saw the same, as far as the first has come. */
static bool alike(const struct seen *one, const struct seen *other)
{
    return one->count <= other->count && same_answers(one->count, one->codes, other->codes, one->replies, other->replies);
}

/* Whether somebody's moment is still to come: then the parent doesn't sleep. */
static bool waits(const struct plan *plan, const bool *is_killed)
{
    for (int number = 0; number < plan->processes; number++)
        if (plan->moments[number] > 0 && !is_killed[number])
            return true;
    return false;
}

/* What a run came to: how many died, in how many replies' time the first did, and what was wrong. */
struct outcome {
    int died, replies_before;
    double seconds;
    const char *wrong;
};

static struct outcome run(const struct plan *plan)
{
    struct outcome outcome = {0, -1, 0, NULL};
    ulfm_handle outside = ULFM_HANDLE_NULL, ranks[MOST];
    memset(ranks, 0, sizeof ranks);
    memset(shared, 0, sizeof *shared);
    memset(region, 0, region_size);
    int code = ulfm_open_shared((uint16_t)plan->processes, 2, AGREES + LATER, region, region_size, &outside, ranks, (size_t)plan->processes);
    if (code != ULFM_SUCCESS)
        printf("open: %s\n", ulfm_strerror(code)), exit(2);
    pid_t pids[MOST];
    fflush(stdout);
    for (int number = 0; number < plan->processes; number++) {
        pids[number] = fork();
        if (pids[number] < 0)
            perror("fork"), exit(2);
        if (pids[number] == 0)
            child(plan, ranks, &outside, number);
    }
    while (shared->begun < plan->processes)
        sched_yield();

    bool is_dead[MOST] = {false}, is_killed[MOST] = {false};
    double begin = now();
    for (int left = plan->processes; left > 0;) {
        int status;
        pid_t pid = waitpid(-1, &status, WNOHANG);
        for (int number = 0; number < plan->processes; number++) {
            bool is_first;
            if (ends_late(pids[number], &is_killed[number], plan->moments[number], now() - begin, HALF_A_MINUTE))
                outcome.wrong = "somebody hangs";
            if (pid != pids[number])
                continue;
            left--;
            pids[number] = -2;
            if (WIFSIGNALED(status)) {
                is_dead[number] = true;
                outcome.died++;
                if (outcome.replies_before < 0)
                    outcome.replies_before = shared->seen[number].count;
                if (WTERMSIG(status) != SIGKILL)
                    outcome.wrong = "a signal other than SIGKILL";
                if (ulfm_fail(&outside, (uint16_t)number, &is_first) != ULFM_SUCCESS || !is_first)
                    outcome.wrong = "a declaration is refused";
            } else if (WEXITSTATUS(status) != ULFM_SUCCESS && outcome.wrong == NULL) {
                outcome.wrong = ulfm_strerror(WEXITSTATUS(status));
            }
        }
        if (pid == 0)
            waits(plan, is_killed) ? sched_yield() : usleep(20);
    }
    outcome.seconds = now() - begin;

    int survivor = 0;
    while (survivor < plan->processes && is_dead[survivor])
        survivor++;
    for (int number = 0; number < plan->processes && outcome.wrong == NULL; number++) {
        const struct seen *seen = &shared->seen[number];
        if (!is_dead[number] && seen->count != REPLIES)
            outcome.wrong = "a survivor lacks replies";
        else if (!alike(seen, &shared->seen[survivor]))
            outcome.wrong = is_dead[number] ? "a victim was answered otherwise" : "two survivors differ";
    }
    ulfm_close(&outside);
    ulfm_forget_shared(region);
    return outcome;
}

/* ---- many runs ---- */

/* Runs of one sort: so many processes, so many victims, killed at random moments or each before one access more than in the run before. */
static int runs_of(int processes, int victims, bool by_access, int runs)
{
    region_size = (ulfm_shared_size((uint16_t)processes, 2, AGREES + LATER) + 4095) / 4096 * 4096;
    region = map(region_size);
    touched = map(region_size / 8);
    struct plan whole = {.processes = processes};
    double least = run(&whole).seconds;
    for (int at = 0; at < 8; at++) {
        double seconds = run(&whole).seconds;
        least = seconds < least ? seconds : least;
    }
    /* which words are shared, and how many accesses a rank makes when nobody fails */
    whole.notes_touched = true;
    run(&whole);
    long accesses = 0;
    if (by_access) {
        struct plan counted = {.processes = processes, .accesses = {LONG_MAX}};
        run(&counted);
        accesses = shared->accesses[0];
    }

    int died = 0, wrong = 0;
    bool moments[REPLIES + 1] = {false};
    for (int at = 0; at < runs; at++) {
        struct plan plan = {.processes = processes};
        int victim = rand() % processes;
        for (int which = 0; which < victims; which++, victim = (victim + 1 + rand() % (processes - 1)) % processes) {
            /* the first victim's access goes through all in turn, with gaps where there are more of them than runs */
            if (by_access)
                plan.accesses[victim] = which > 0 ? 1 + rand() % accesses : accesses > runs ? 1 + at * accesses / runs : 1 + at % accesses;
            else
                plan.moments[victim] = some(1.5 * least);
        }
        struct outcome outcome = run(&plan);
        died += outcome.died;
        if (outcome.replies_before >= 0)
            moments[outcome.replies_before] = true;
        if (outcome.wrong != NULL) {
            wrong++;
            printf("run %d of %d processes, %d victims, %s: %s\n", at, processes, victims, by_access ? "by access" : "at a moment", outcome.wrong);
        }
    }
    int spread = 0;
    for (int at = 0; at <= REPLIES; at++)
        spread += moments[at];
    printf("%d processes, %d to be killed %s: %d runs, %d deaths, the first behind %d different numbers of replies", processes, victims,
           by_access ? "before an access" : "at a moment", runs, died, spread);
    if (by_access)
        printf(", at %ld of %ld accesses", accesses < runs ? accesses : runs, accesses);
    printf("; %d wrong\n", wrong);
    munmap(region, region_size);
    munmap((void *)touched, region_size / 8);
    return wrong;
}

int main(int count, char **words)
{
    int runs = 200, wrong = 0;
    unsigned seed = 1;
    for (int at = 1; at + 1 < count; at += 2) {
        if (strcmp(words[at], "--runs") == 0)
            runs = atoi(words[at + 1]);
        if (strcmp(words[at], "--seed") == 0)
            seed = (unsigned)atoi(words[at + 1]);
    }
    srand(seed);
    shared = map(sizeof *shared);
    /* of each sort so many in a hundred: more where there are more accesses to go through */
    const int shares[8] = {8, 8, 7, 7, 15, 25, 10, 20};
    int made = 0;
    for (int sort = 0, share = 0; sort < 8; sort++) {
        share += shares[sort];
        int until = runs * share / 100;
        wrong += runs_of(sort & 1 ? 8 : 4, sort & 2 ? 2 : 1, (sort & 4) != 0, until - made);
        made = until;
    }
    printf("%d runs, %d wrong\n", made, wrong);
    return wrong != 0;
}
