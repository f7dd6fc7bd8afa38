/* Four ranks are processes. One of them is ended by SIGKILL in the middle of its agrees, and the others recover.
 *
 * The parent opens the world in memory that is shared, and forks a process for each rank. All agree again and again. The parent kills
 * rank 2 at some moment, learns of its end by waitpid, and declares it. The agree that the others are in then raises an error, at all
 * alike. They ask who has failed, acknowledge it, agree again, shrink, and go on with the new communicator. Whatever the moment, all
 * survivors leave with one value, one failed group, one error and one communicator: the parent compares what they saw. */
#include "ulfm.h"

#include <signal.h>
#include <stdio.h>
#include <string.h>
#include <sys/mman.h>
#include <sys/wait.h>
#include <unistd.h>

enum { RANKS = 4, VICTIM = 2, ROUNDS = 4096, BEFORE_IT_IS_KILLED = 50, THEN_IT_WAITS = 4000 };

/* What a survivor saw; alike at all of them. */
struct seen {
    int met, settled, shrunk, last;
    uint32_t agrees;
    ulfm_flag met_flag, settled_flag, last_flag;
    uint16_t failed[RANKS], comm, size;
    size_t failed_count;
};

/* What the processes share beside the world. A process writes its own entry alone; the parent reads it once that has ended. */
struct shared {
    _Atomic unsigned agrees_of_the_victim;
    struct seen seen[RANKS];
};

static void *map(size_t size)
{
    void *at = mmap(NULL, size, PROT_READ | PROT_WRITE, MAP_SHARED | MAP_ANONYMOUS, -1, 0);
    return at == MAP_FAILED ? NULL : at;
}

/* A rank's whole work, in its own process. */
static int work(ulfm_handle *rank, int number, struct shared *shared)
{
    struct seen *seen = &shared->seen[number];
    do {
        seen->met_flag = ~(1u << number);
        seen->met = ulfm_agree(rank, ULFM_COMM_WORLD, &seen->met_flag);
        seen->agrees++;
        /* it leaves rounds for the others, should the parent be late */
        if (number == VICTIM && ++shared->agrees_of_the_victim == THEN_IT_WAITS)
            pause();
    } while (seen->met == ULFM_SUCCESS);
    if (seen->met != ULFM_ERR_PROC_FAILED)
        return seen->met;

    int code = ulfm_get_failed(rank, ULFM_COMM_WORLD, seen->failed, RANKS, &seen->failed_count);
    uint16_t acknowledged;
    if (code == ULFM_SUCCESS)
        code = ulfm_ack_failed(rank, ULFM_COMM_WORLD, (uint16_t)seen->failed_count, &acknowledged);
    if (code != ULFM_SUCCESS)
        return code;
    seen->settled_flag = ~(1u << number);
    seen->settled = ulfm_agree(rank, ULFM_COMM_WORLD, &seen->settled_flag);

    ulfm_reply reply;
    seen->shrunk = ulfm_ishrink(rank, ULFM_COMM_WORLD);
    if (seen->shrunk == ULFM_SUCCESS)
        seen->shrunk = ulfm_wait(rank, ULFM_COMM_WORLD, &reply);
    if (seen->shrunk != ULFM_SUCCESS)
        return seen->shrunk;
    seen->comm = reply.comm;
    seen->size = reply.size;
    seen->last_flag = ~(1u << number);
    return seen->last = ulfm_agree(rank, seen->comm, &seen->last_flag);
}

int main(void)
{
    size_t size = ulfm_shared_size(RANKS, 2, ROUNDS);
    void *region = map(size);
    struct shared *shared = map(sizeof *shared);
    ulfm_handle outside = ULFM_HANDLE_NULL, ranks[RANKS] = {ULFM_HANDLE_NULL};
    if (region == NULL || shared == NULL)
        return perror("mmap"), 1;
    int code = ulfm_open_shared(RANKS, 2, ROUNDS, region, size, &outside, ranks, RANKS);
    if (code != ULFM_SUCCESS)
        return fprintf(stderr, "open: %s\n", ulfm_strerror(code)), 1;

    pid_t pids[RANKS];
    for (int number = 0; number < RANKS; number++) {
        pids[number] = fork();
        if (pids[number] < 0)
            return perror("fork"), 1;
        if (pids[number] == 0) {
            /* each handle is used by one process: the others' aren't this one's */
            ulfm_drop_copy(&outside);
            for (int other = 0; other < RANKS; other++)
                if (other != number)
                    ulfm_drop_copy(&ranks[other]);
            _exit(work(&ranks[number], number, shared) != ULFM_SUCCESS);
        }
    }
    for (int number = 0; number < RANKS; number++)
        ulfm_drop_copy(&ranks[number]);

    while (shared->agrees_of_the_victim < BEFORE_IT_IS_KILLED)
        usleep(10);
    kill(pids[VICTIM], SIGKILL);

    /* The detector: whoever was ended by a signal has failed. */
    int ended_well = 0;
    for (int left = RANKS; left > 0; left--) {
        int status;
        pid_t pid = wait(&status);
        for (uint16_t number = 0; number < RANKS; number++) {
            bool is_first = false;
            if (pids[number] != pid)
                continue;
            ended_well += WIFEXITED(status) && WEXITSTATUS(status) == 0;
            if (WIFSIGNALED(status) && ulfm_fail(&outside, number, &is_first) == ULFM_SUCCESS && is_first)
                printf("rank %u was ended by signal %d, and is declared\n", number, WTERMSIG(status));
        }
    }

    const struct seen *one = &shared->seen[0];
    int alike = 0;
    for (int number = 0; number < RANKS; number++)
        alike += number != VICTIM && memcmp(&shared->seen[number], one, sizeof *one) == 0;
    printf("%d of %d survivors ended well, and %d saw the same:\n", ended_well, RANKS - 1, alike);
    printf("  the agree that met the failure: %s\n", ulfm_strerror(one->met));
    printf("  the failed group: %zu, rank %u\n", one->failed_count, one->failed[0]);
    printf("  acknowledged, and agreed again: %s, flag %08x\n", ulfm_strerror(one->settled), (unsigned)one->settled_flag);
    printf("  shrunk: %s, communicator %u of %u\n", ulfm_strerror(one->shrunk), one->comm, one->size);
    printf("  an agree on it: %s, flag %08x\n", ulfm_strerror(one->last), (unsigned)one->last_flag);
    ulfm_close(&outside);
    ulfm_forget_shared(region);
    munmap(region, size);
    return !(ended_well == RANKS - 1 && alike == RANKS - 1);
}
