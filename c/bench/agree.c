/* How long a round takes where each rank is a thread, or a process.
 *
 *     agree threads|processes N K      N ranks agree K times and shrink; prints the nanoseconds of a round
 *
 * Measured from the first that begins to the last that ends, over K + 1 rounds. */
#include "clock.h"
#include "ulfm.h"

#include <pthread.h>
#include <stdio.h>
#include <stdlib.h>
#include <string.h>
#include <sys/mman.h>
#include <sys/wait.h>
#include <unistd.h>

enum { MOST = 64 };

static struct shared {
    _Atomic int begun;
    double begins[MOST], ends[MOST];
    ulfm_flag last[MOST];
} *shared;
static ulfm_handle outside = ULFM_HANDLE_NULL, ranks[MOST];
static int count, rounds;

static void work(int number)
{
    shared->begun++;
    while (shared->begun < count)
        sched_yield();
    shared->begins[number] = now();
    uint16_t made;
    for (int round = 0; round < rounds; round++) {
        ulfm_flag flag = ~(1u << ((number + round) % 32));
        if (ulfm_agree(&ranks[number], ULFM_COMM_WORLD, &flag) != ULFM_SUCCESS)
            abort();
        shared->last[number] = flag;
    }
    if (ulfm_shrink(&ranks[number], ULFM_COMM_WORLD, &made) != ULFM_SUCCESS)
        abort();
    shared->ends[number] = now();
}

static void *thread(void *argument)
{
    work((int)((ulfm_handle *)argument - ranks));
    return NULL;
}

static void by_threads(void)
{
    pthread_t threads[MOST];
    if (ulfm_open((uint16_t)count, 2, (uint16_t)(rounds + 1), &outside, ranks, (size_t)count) != ULFM_SUCCESS)
        abort();
    for (int number = 0; number < count; number++)
        pthread_create(&threads[number], NULL, thread, &ranks[number]);
    for (int number = 0; number < count; number++)
        pthread_join(threads[number], NULL);
}

static void by_processes(void)
{
    size_t size = ulfm_shared_size((uint16_t)count, 2, (uint16_t)(rounds + 1));
    void *region = mmap(NULL, size, PROT_READ | PROT_WRITE, MAP_SHARED | MAP_ANONYMOUS, -1, 0);
    if (region == MAP_FAILED || ulfm_open_shared((uint16_t)count, 2, (uint16_t)(rounds + 1), region, size, &outside, ranks, (size_t)count) != ULFM_SUCCESS)
        abort();
    for (int number = 0; number < count; number++)
        if (fork() == 0) {
            work(number);
            _exit(0);
        }
    for (int number = 0; number < count; number++) {
        int status;
        if (wait(&status) < 0 || status != 0)
            abort();
    }
}

int main(int words, char **word)
{
    if (words != 4 || (count = atoi(word[2])) < 1 || count > MOST || (rounds = atoi(word[3])) < 1 || rounds > 4095)
        return fprintf(stderr, "usage: agree threads|processes N K\n"), 2;
    shared = mmap(NULL, sizeof *shared, PROT_READ | PROT_WRITE, MAP_SHARED | MAP_ANONYMOUS, -1, 0);
    if (shared == MAP_FAILED)
        abort();
    strcmp(word[1], "threads") == 0 ? by_threads() : by_processes();
    double begin = shared->begins[0], end = shared->ends[0];
    for (int number = 1; number < count; number++) {
        begin = shared->begins[number] < begin ? shared->begins[number] : begin;
        end = shared->ends[number] > end ? shared->ends[number] : end;
        if (shared->last[number] != shared->last[0])
            abort();
    }
    printf("%.0f\n", (end - begin) / (rounds + 1));
    return 0;
}
