/* Each allocation is refused in turn, that one alone or it with all behind it, until a run asks for no more. A call that answers
 * ULFM_ERR_NO_MEM is made again once memory is there; all answers are then those of a run that was refused nothing, and in the end all
 * memory has been given back. Linked with --wrap, so that the library's malloc, realloc and free are those below. */
#include "check.h"
#include "ulfm.h"

#include <stdlib.h>

void *__real_malloc(size_t size);
void *__real_realloc(void *block, size_t size);
void __real_free(void *block);
void *__wrap_malloc(size_t size);
void *__wrap_realloc(void *block, size_t size);
void __wrap_free(void *block);

static long asked, refuse_from, refuse_to, held;

static bool is_refused(void)
{
    asked++;
    return asked >= refuse_from && asked <= refuse_to;
}

void *__wrap_malloc(size_t size)
{
    void *block = is_refused() ? NULL : __real_malloc(size);
    held += block != NULL;
    return block;
}

void *__wrap_realloc(void *block, size_t size)
{
    return is_refused() ? NULL : __real_realloc(block, size);
}

void __wrap_free(void *block)
{
    held -= block != NULL;
    __real_free(block);
}

static int refusals;

/* Whether a call is to be made again: memory was refused, and is there from now on. */
static bool again(int code)
{
    if (code != ULFM_ERR_NO_MEM)
        return false;
    refusals++;
    refuse_to = 0;
    return true;
}

enum { RANKS = 5 };

static int opened(ulfm_handle *outside, ulfm_handle *ranks)
{
    int code;
    while (again(code = ulfm_open(RANKS, 3, 4, outside, ranks, RANKS))) {
        EQUAL(held, 0);
        EQUAL(outside->at == NULL, true);
        for (int rank = 0; rank < RANKS; rank++)
            EQUAL(ranks[rank].at == NULL, true);
    }
    return code;
}

/* A query gives the ranks 1 and 3, once there is memory for it; until then it writes nothing. */
static void lists_failed(int (*query)(ulfm_handle *, uint16_t, uint16_t *, size_t, size_t *), ulfm_handle *rank)
{
    uint16_t list[RANKS] = {9, 9};
    size_t count = 9;
    int code;
    while (again(code = query(rank, 0, list, RANKS, &count))) {
        EQUAL(count, 9);
        EQUAL(list[0], 9);
    }
    EQUAL(code, ULFM_SUCCESS);
    EQUAL(count, 2);
    EQUAL(list[0] * 10 + list[1], 13);
}

/* An agree, two failures, the failed group, what is acknowledged of it, a shrink, who is missing in it, and an agree on the new
 * communicator. */
static void run(void)
{
    ulfm_handle outside = ULFM_HANDLE_NULL, ranks[RANKS] = {ULFM_HANDLE_NULL};
    ulfm_reply reply;
    bool first;
    int code;
    EQUAL(opened(&outside, ranks), ULFM_SUCCESS);
    for (int rank = 0; rank < RANKS; rank++)
        EQUAL(ulfm_iagree(&ranks[rank], 0, 8u | (unsigned)rank), ULFM_SUCCESS);
    for (int rank = 0; rank < RANKS; rank++) {
        EQUAL(ulfm_poll(&ranks[rank], 0, &reply), ULFM_SUCCESS);
        EQUAL(reply.flag, 8);
    }
    EQUAL(ulfm_fail(&outside, 1, &first), ULFM_SUCCESS);
    EQUAL(ulfm_fail(&ranks[2], 3, &first), ULFM_SUCCESS);
    for (int rank = 0; rank < RANKS; rank += 2) {
        uint16_t acknowledged = 9;
        lists_failed(ulfm_get_failed, &ranks[rank]);
        EQUAL(ulfm_failure_ack(&ranks[rank], 0, &acknowledged), ULFM_SUCCESS);
        EQUAL(acknowledged, 2);
        lists_failed(ulfm_failure_get_acked, &ranks[rank]);
        EQUAL(ulfm_ishrink(&ranks[rank], 0), ULFM_SUCCESS);
        uint16_t missing[RANKS] = {9};
        size_t count = 2;
        while (again(code = ulfm_missing(&ranks[rank], 0, missing, RANKS, &count))) {
            EQUAL(count, 2);
            EQUAL(missing[0], 9);
        }
        EQUAL(code, ULFM_SUCCESS);
        EQUAL(count, 4 - rank / 2);
    }
    for (int rank = 0; rank < RANKS; rank += 2) {
        while (again(code = ulfm_poll(&ranks[rank], 0, &reply)))
            EQUAL(ulfm_ishrink(&ranks[rank], 0), ULFM_ERR_BUSY);
        EQUAL(code, ULFM_SUCCESS);
        EQUAL(reply.kind, ULFM_SHRUNK);
        EQUAL(reply.comm, 1);
        EQUAL(reply.size, 3);
    }
    for (int rank = 0; rank < RANKS; rank += 2)
        EQUAL(ulfm_iagree(&ranks[rank], 1, 16u | (unsigned)rank), ULFM_SUCCESS);
    for (int rank = 0; rank < RANKS; rank += 2) {
        EQUAL(ulfm_poll(&ranks[rank], 1, &reply), ULFM_SUCCESS);
        EQUAL(reply.flag, 16);
        EQUAL(ulfm_free(&ranks[rank], 1), ULFM_SUCCESS);
    }
    for (int rank = 0; rank < RANKS; rank++)
        EQUAL(ulfm_close(&ranks[rank]), ULFM_SUCCESS);
    EQUAL(ulfm_close(&outside), ULFM_SUCCESS);
    EQUAL(held, 0);
}

int main(void)
{
    run();
    long whole = asked;
    for (int and_all_behind = 0; and_all_behind < 2; and_all_behind++)
        for (long number = 1; number <= whole; number++) {
            int before = refusals;
            asked = 0;
            refuse_from = number;
            refuse_to = and_all_behind ? LONG_MAX : number;
            run();
            EQUAL(refusals > before, true);
        }
    printf("%ld allocations, %d refusals answered\n", whole, refusals);
    return checks_end();
}
