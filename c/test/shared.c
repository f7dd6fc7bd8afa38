/* Worlds in regions: the size that is told suffices, a smaller one is answered by a code, and what is in a region stays apart from malloc's. */
#include "check.h"
#include "ulfm.h"

#include <stdlib.h>
#include <string.h>
#include <sys/mman.h>

static ulfm_handle outside = ULFM_HANDLE_NULL, ranks[ULFM_MAX_RANKS];

static void *map(size_t size)
{
    void *at = mmap(NULL, size, PROT_READ | PROT_WRITE, MAP_SHARED | MAP_ANONYMOUS, -1, 0);
    if (at == MAP_FAILED)
        perror("mmap"), exit(2);
    return at;
}

/* Opens in a region of the size that is told; each handle's block lies in it, or in no region at all. */
static void fits(uint16_t count, uint16_t comms, uint16_t rounds)
{
    size_t size = ulfm_shared_size(count, comms, rounds);
    char *region = map(size);
    EQUAL(ulfm_open_shared(count, comms, rounds, region, size, &outside, ranks, count), ULFM_SUCCESS);
    EQUAL((char *)outside.at >= region && (char *)outside.at < region + size, true);
    for (int rank = 0; rank < count; rank++)
        EQUAL((char *)ranks[rank].at >= region && (char *)ranks[rank].at < region + size, true);
    for (int rank = 0; rank < count; rank++)
        EQUAL(ulfm_close(&ranks[rank]), ULFM_SUCCESS);
    EQUAL(ulfm_close(&outside), ULFM_SUCCESS);
    ulfm_forget_shared(region);
    munmap(region, size);
}

static void sizes_suffice(void)
{
    const uint16_t counts[] = {1, 2, 3, 4, 8, 64, 1000, 1024}, comms[] = {1, 2, 33, 256}, rounds[] = {1, 2, 100, 4096};
    for (size_t i = 0; i < sizeof counts / sizeof *counts; i++)
        for (size_t j = 0; j < sizeof comms / sizeof *comms; j++)
            for (size_t k = 0; k < sizeof rounds / sizeof *rounds; k++)
                if (ulfm_shared_size(counts[i], comms[j], rounds[k]) > 0)
                    fits(counts[i], comms[j], rounds[k]);
    EQUAL(ulfm_shared_size(0, 1, 1), 0);
    EQUAL(ulfm_shared_size(1, 0, 1), 0);
    EQUAL(ulfm_shared_size(1, 1, 0), 0);
    EQUAL(ulfm_shared_size(1025, 1, 1), 0);
    EQUAL(ulfm_shared_size(1024, 1, 2048), 0);
    EQUAL(ulfm_shared_size(UINT16_MAX, UINT16_MAX, UINT16_MAX), 0);
}

/* A region that is too small, by whatever much, is answered by a code, and nothing behind it is touched. */
static void small_regions_are_refused(void)
{
    enum { GUARD = 64 };
    size_t size = ulfm_shared_size(3, 2, 4);
    unsigned char *region = map(size + GUARD);
    int refused = 0;
    for (size_t smaller = 0; smaller < size; smaller += smaller < 4096 ? 8 : 1024) {
        memset(region, 0, size);
        memset(region + smaller, 0xa5, GUARD);
        int code = ulfm_open_shared(3, 2, 4, region, smaller, &outside, ranks, 3);
        for (int at = 0; at < GUARD; at++)
            EQUAL(region[smaller + (size_t)at], 0xa5);
        EQUAL(code == ULFM_SUCCESS || code == ULFM_ERR_NO_MEM, true);
        EQUAL(outside.at != NULL, code == ULFM_SUCCESS);
        refused += code == ULFM_ERR_NO_MEM;
        if (code == ULFM_SUCCESS) {
            for (int rank = 0; rank < 3; rank++)
                ulfm_close(&ranks[rank]);
            ulfm_close(&outside);
            ulfm_forget_shared(region);
        }
    }
    EQUAL(refused > 100, true);
    munmap(region, size + GUARD);
}

/* A region has one world, a process 64 regions; faults of limits are told as by ulfm_open. */
static void regions_are_counted(void)
{
    enum { MOST = 64 };
    static ulfm_handle outsides[MOST + 1], owns[MOST + 1];
    size_t size = ulfm_shared_size(1, 1, 1);
    char *regions = map((MOST + 1) * size);
    for (size_t at = 0; at <= MOST; at++)
        EQUAL(ulfm_open_shared(1, 1, 1, regions + at * size, size, &outsides[at], &owns[at], 1), at < MOST ? ULFM_SUCCESS : ULFM_ERR_NO_MEM);
    EQUAL(ulfm_open_shared(1, 1, 1, regions, size, &outsides[MOST], &owns[MOST], 1), ULFM_ERR_NO_MEM);
    ulfm_close(&outsides[7]);
    ulfm_close(&owns[7]);
    ulfm_forget_shared(regions + 7 * size);
    EQUAL(ulfm_open_shared(1, 1, 0, regions + 7 * size, size, &outsides[7], &owns[7], 1), ULFM_ERR_OUT_OF_RANGE);
    EQUAL(ulfm_open_shared(1, 1, 1, regions + 7 * size, size, &outsides[7], &owns[7], 2), ULFM_ERR_COUNT);
    EQUAL(ulfm_open_shared(1, 1, 1, regions + 7 * size, size, &outsides[7], &owns[7], 1), ULFM_SUCCESS);
    /* each of them is a world of its own, beside one of malloc's */
    EQUAL(ulfm_open(1, 1, 2, &outsides[MOST], &owns[MOST], 1), ULFM_SUCCESS);
    for (size_t at = 0; at <= MOST; at++) {
        uint16_t made = 0;
        EQUAL(ulfm_shrink(&owns[at], 0, &made), ULFM_ERR_NO_ROOM);
        EQUAL(ulfm_close(&owns[at]), ULFM_SUCCESS);
        EQUAL(ulfm_close(&outsides[at]), ULFM_SUCCESS);
        ulfm_forget_shared(regions + at * size);
    }
    munmap(regions, (MOST + 1) * size);
}

/* A rank grows what it keeps: blocks of the region are exchanged for malloc's, and all of those come back. */
static void ranks_grow(void)
{
    size_t size = ulfm_shared_size(4, 40, 3);
    char *region = map(size);
    EQUAL(ulfm_open_shared(4, 40, 3, region, size, &outside, ranks, 4), ULFM_SUCCESS);
    for (uint16_t comm = 0; comm < 30; comm++) {
        uint16_t made[4] = {0, 0, 0, 0};
        for (int rank = 0; rank < 4; rank++)
            EQUAL(ulfm_ishrink(&ranks[rank], comm), ULFM_SUCCESS);
        for (int rank = 0; rank < 4; rank++) {
            ulfm_reply reply;
            EQUAL(ulfm_poll(&ranks[rank], comm, &reply), ULFM_SUCCESS);
            made[rank] = reply.comm;
            EQUAL(made[rank], comm + 1);
        }
    }
    for (int rank = 0; rank < 4; rank++)
        EQUAL(ulfm_close(&ranks[rank]), ULFM_SUCCESS);
    EQUAL(ulfm_close(&outside), ULFM_SUCCESS);
    ulfm_forget_shared(region);
    munmap(region, size);
}

int main(void)
{
    sizes_suffice();
    small_regions_are_refused();
    regions_are_counted();
    ranks_grow();
    return checks_end();
}
