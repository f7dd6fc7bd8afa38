/* The three functions by which the library takes memory, over malloc; and worlds in memory that processes share.
 *
 * What the library rests on: a block that is handed out is fresh, aligned to 16 bytes, and not handed out again until it is given
 * back; where memory is refused, `ok` is false and nothing has changed.
 *
 * While ulfm_open_shared opens a world, the opening thread's blocks come from the region, one behind the other. Such a block is never
 * handed out again, also where it was given back. All others are malloc's. */
#include "ulfm.h"

#include <stdatomic.h>
#include <stdlib.h>
#include <string.h>

/* The library wants an address that isn't null also where there is none. */
struct block {
    bool ok;
    void *at;
};

static struct block taken(void *at)
{
    static max_align_t nowhere;
    return (struct block){at != NULL, at != NULL ? at : (void *)&nowhere};
}

/* ---- regions: this process's, in its own memory, so that a fork's parent and child know of their own each ---- */

enum { MOST_REGIONS = 64, ALIGNMENT = 16 };

/* An empty entry has no begin; one that is being set or taken away has no end, and so holds no block. */
struct region {
    _Atomic(char *) begin;
    _Atomic(char *) end;
};

static struct region regions[MOST_REGIONS];

/* Where the thread that opens a world takes its next block; null in all others. */
static _Thread_local char *next_block, *last_byte;

static bool in_a_region(const char *at)
{
    for (int i = 0; i < MOST_REGIONS; i++) {
        const char *begin = atomic_load(&regions[i].begin), *end = atomic_load(&regions[i].end);
        if (begin != NULL && end != NULL && at >= begin && at < end)
            return true;
    }
    return false;
}

static void *take_of_region(size_t size)
{
    size_t padding = (size_t)(-(uintptr_t)next_block % ALIGNMENT), room = (size_t)(last_byte - next_block);
    if (padding > room || size > room - padding)
        return NULL;
    char *at = next_block + padding;
    next_block = at + size;
    return at;
}

/* ---- what the library calls ---- */

struct block rattle_alloc(size_t size, size_t alignment)
{
    if (alignment > ALIGNMENT)
        return taken(NULL);
    size += size == 0; /* so that each block has an address of its own */
    return taken(next_block != NULL ? take_of_region(size) : malloc(size));
}

void rattle_dealloc(void *at)
{
    if (!in_a_region(at))
        free(at);
}

/* Keeps the first `kept` bytes. Where memory is refused the block is as it was. */
struct block rattle_realloc(void *at, size_t kept, size_t size, size_t alignment)
{
    if (alignment > ALIGNMENT)
        return taken(NULL);
    if (next_block == NULL && !in_a_region(at))
        return taken(realloc(at, size > 0 ? size : 1));
    struct block moved = rattle_alloc(size, alignment);
    if (moved.ok) {
        memcpy(moved.at, at, kept < size ? kept : size);
        rattle_dealloc(at);
    }
    return moved;
}

/* ---- worlds in a region ---- */

/* An entry for a region that has none; null where it has one, or where all are taken. */
static struct region *new_entry(char *begin)
{
    for (int i = 0; i < MOST_REGIONS; i++)
        if (atomic_load(&regions[i].begin) == begin)
            return NULL;
    for (int i = 0; i < MOST_REGIONS; i++) {
        char *empty = NULL;
        if (atomic_compare_exchange_strong(&regions[i].begin, &empty, begin))
            return &regions[i];
    }
    return NULL;
}

int ulfm_open_shared(uint16_t ranks, uint16_t comms, uint16_t rounds, void *region, size_t size, ulfm_handle *outside,
                     ulfm_handle *handles, size_t count)
{
    struct region *entry = new_entry(region);
    if (entry == NULL)
        return ULFM_ERR_NO_MEM;
    next_block = region;
    last_byte = next_block + size;
    atomic_store(&entry->end, last_byte);
    int code = ulfm_open(ranks, comms, rounds, outside, handles, count);
    next_block = last_byte = NULL;
    if (code != ULFM_SUCCESS)
        ulfm_forget_shared(region);
    return code;
}

void ulfm_forget_shared(void *region)
{
    for (int i = 0; i < MOST_REGIONS; i++)
        if (atomic_load(&regions[i].begin) == region) {
            atomic_store(&regions[i].end, NULL);
            atomic_store(&regions[i].begin, NULL);
        }
}

size_t ulfm_shared_size(uint16_t ranks, uint16_t comms, uint16_t rounds)
{
    size_t all_rounds = (size_t)comms * rounds;
    size_t words = ranks + 2 * (size_t)comms + 2 * all_rounds * ranks;
    if (ranks == 0 || ranks > ULFM_MAX_RANKS || comms == 0 || comms > ULFM_MAX_COMMS || rounds == 0 || rounds > ULFM_MAX_ROUNDS ||
        words > ULFM_MAX_SIZE)
        return 0;
    /* the words, those of wings and of blocks beside them, what each rank keeps, and some room */
    return 8 * (words + all_rounds * (ranks + 4)) + ranks * (4096 + 16 * (size_t)ranks) + 65536;
}
