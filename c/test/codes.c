/* Every code that a call may answer, and what is left after it. (Memory that is refused has a test of its own, memory.c. ULFM_ERR_TWICE
 * takes a copied handle, which is undefined.) */
#include "check.h"
#include "ulfm.h"

#include <string.h>

enum { UNTOUCHED = 77 };

static ulfm_handle outside = ULFM_HANDLE_NULL, ranks[ULFM_MAX_RANKS];

static void opened(uint16_t count, uint16_t comms, uint16_t rounds)
{
    EQUAL(ulfm_open(count, comms, rounds, &outside, ranks, count), ULFM_SUCCESS);
}

static void closed(uint16_t count)
{
    for (uint16_t rank = 0; rank < count; rank++)
        EQUAL(ulfm_close(&ranks[rank]), ULFM_SUCCESS);
    EQUAL(ulfm_close(&outside), ULFM_SUCCESS);
}

/* The outside declares a rank. */
static void declared(uint16_t rank)
{
    bool first;
    EQUAL(ulfm_fail(&outside, rank, &first), ULFM_SUCCESS);
}

/* The kind of the reply to a poll of the world's communicator, which succeeds. */
static uint32_t polled(ulfm_handle *handle, ulfm_reply *reply)
{
    EQUAL(ulfm_poll(handle, 0, reply), ULFM_SUCCESS);
    return reply->kind;
}

/* Each call of a rank with this handle and communicator answers this code, and writes nothing. */
static void all_answer(ulfm_handle *handle, uint16_t comm, int code)
{
    ulfm_reply reply, untouched;
    uint16_t list[4] = {UNTOUCHED, UNTOUCHED, UNTOUCHED, UNTOUCHED}, number = UNTOUCHED;
    size_t count = UNTOUCHED;
    bool is = true;
    memset(&untouched, UNTOUCHED, sizeof untouched);
    reply = untouched;
    EQUAL(ulfm_iagree(handle, comm, 1), code);
    EQUAL(ulfm_ishrink(handle, comm), code);
    EQUAL(ulfm_ibarrier(handle, comm), code);
    EQUAL(ulfm_poll(handle, comm, &reply), code);
    EQUAL(ulfm_revoke(handle, comm, &is), code);
    EQUAL(ulfm_is_revoked(handle, comm, &is), code);
    EQUAL(ulfm_get_failed(handle, comm, list, 4, &count), code);
    EQUAL(ulfm_ack_failed(handle, comm, 1, &number), code);
    EQUAL(ulfm_failure_ack(handle, comm, &number), code);
    EQUAL(ulfm_failure_get_acked(handle, comm, list, 4, &count), code);
    EQUAL(ulfm_free(handle, comm), code);
    ulfm_flag flag = UNTOUCHED;
    EQUAL(ulfm_wait(handle, comm, &reply), code);
    EQUAL(ulfm_wait_for(handle, comm, 3, &reply), code);
    EQUAL(ulfm_agree(handle, comm, &flag), code);
    EQUAL(ulfm_agree_for(handle, comm, 3, &flag), code);
    EQUAL(ulfm_shrink(handle, comm, &number), code);
    EQUAL(ulfm_shrink_for(handle, comm, 3, &number), code);
    EQUAL(ulfm_barrier(handle, comm), code);
    EQUAL(ulfm_barrier_for(handle, comm, 3), code);
    EQUAL(memcmp(&reply, &untouched, sizeof reply), 0);
    EQUAL(count, UNTOUCHED);
    EQUAL(list[0], UNTOUCHED);
    EQUAL(number, UNTOUCHED);
    EQUAL(flag, UNTOUCHED);
    EQUAL(is, true);
}

/* The calls that read what a rank keeps answer this code, and write nothing. Three of them name a communicator. */
static void reads_answer(ulfm_handle *handle, uint16_t comm, int code, int code_of_comm)
{
    uint16_t list[1] = {UNTOUCHED}, number = UNTOUCHED;
    uint32_t steps = UNTOUCHED;
    size_t count = UNTOUCHED;
    EQUAL(ulfm_members(handle, comm, list, 1, &count), code_of_comm);
    EQUAL(ulfm_context(handle, comm, &number), code_of_comm);
    EQUAL(ulfm_missing(handle, comm, list, 1, &count), code_of_comm);
    if (code != ULFM_SUCCESS) {
        EQUAL(ulfm_rank(handle, &number), code);
        EQUAL(ulfm_failures(handle, list, 1, &count), code);
        EQUAL(ulfm_last_steps(handle, &steps), code);
    }
    EQUAL(count + list[0] + number + steps, 4 * UNTOUCHED);
}

static void handles_are_checked(void)
{
    ulfm_handle null = ULFM_HANDLE_NULL;
    bool first = true;
    all_answer(&null, 0, ULFM_ERR_HANDLE);
    reads_answer(&null, 0, ULFM_ERR_HANDLE, ULFM_ERR_HANDLE);
    EQUAL(ulfm_fail(&null, 0, &first), ULFM_ERR_HANDLE);
    EQUAL(ulfm_close(&null), ULFM_ERR_HANDLE);
    EQUAL(first, true);
    opened(2, 1, 2);
    all_answer(&outside, 0, ULFM_ERR_NOT_A_RANK);
    all_answer(&outside, 9, ULFM_ERR_NOT_A_RANK);
    reads_answer(&outside, 0, ULFM_ERR_NOT_A_RANK, ULFM_ERR_NOT_A_RANK);
    EQUAL(ulfm_close(&ranks[1]), ULFM_SUCCESS);
    EQUAL(ranks[1].at == NULL, true);
    all_answer(&ranks[1], 0, ULFM_ERR_HANDLE);
    reads_answer(&ranks[1], 0, ULFM_ERR_HANDLE, ULFM_ERR_HANDLE);
    EQUAL(ulfm_close(&ranks[1]), ULFM_ERR_HANDLE);
    EQUAL(ulfm_close(&ranks[0]), ULFM_SUCCESS);
    EQUAL(ulfm_close(&outside), ULFM_SUCCESS);
    EQUAL(ulfm_close(&outside), ULFM_ERR_HANDLE);
    EQUAL(ulfm_fail(&outside, 0, &first), ULFM_ERR_HANDLE);
    /* open handles are given back where they are opened anew */
    opened(2, 1, 2);
    opened(2, 1, 2);
    closed(2);
}

/* Opening with these limits answers this code; the handles are as they were where it isn't 0. */
static void open_answers(uint16_t count, uint16_t comms, uint16_t rounds, size_t handles, int code)
{
    EQUAL(ulfm_open(count, comms, rounds, &outside, ranks, handles), code);
    EQUAL(outside.at != NULL, code == ULFM_SUCCESS);
    for (size_t rank = 0; rank < handles; rank++)
        EQUAL(ranks[rank].at != NULL, code == ULFM_SUCCESS);
    if (code == ULFM_SUCCESS)
        closed(count);
}

static void limits_are_checked(void)
{
    open_answers(1, 1, 1, 1, ULFM_SUCCESS);
    open_answers(0, 1, 1, 0, ULFM_ERR_OUT_OF_RANGE);
    open_answers(1, 0, 1, 1, ULFM_ERR_OUT_OF_RANGE);
    open_answers(1, 1, 0, 1, ULFM_ERR_OUT_OF_RANGE);
    open_answers(ULFM_MAX_RANKS, 1, 1, ULFM_MAX_RANKS, ULFM_SUCCESS);
    static ulfm_handle many[ULFM_MAX_RANKS + 1];
    EQUAL(ulfm_open(ULFM_MAX_RANKS + 1, 1, 1, &outside, many, ULFM_MAX_RANKS + 1), ULFM_ERR_OUT_OF_RANGE);
    open_answers(1, ULFM_MAX_COMMS, 1, 1, ULFM_SUCCESS);
    open_answers(1, ULFM_MAX_COMMS + 1, 1, 1, ULFM_ERR_OUT_OF_RANGE);
    open_answers(1, 1, ULFM_MAX_ROUNDS, 1, ULFM_SUCCESS);
    open_answers(1, 1, ULFM_MAX_ROUNDS + 1, 1, ULFM_ERR_OUT_OF_RANGE);
    open_answers(UINT16_MAX, UINT16_MAX, UINT16_MAX, 0, ULFM_ERR_COUNT);
    open_answers(1024, 1, 2047, 1024, ULFM_SUCCESS);
    open_answers(1024, 1, 2048, 1024, ULFM_ERR_TOO_LARGE);
    open_answers(1024, 256, 4096, 1024, ULFM_ERR_TOO_LARGE);
    open_answers(3, 1, 1, 2, ULFM_ERR_COUNT);
    open_answers(3, 1, 1, 4, ULFM_ERR_COUNT);
    open_answers(3, 0, 0, 2, ULFM_ERR_COUNT);
}

static void refusals_of_ranks(void)
{
    bool first = false;
    opened(2, 2, 3);
    EQUAL(ulfm_fail(&outside, 2, &first), ULFM_ERR_RANK);
    EQUAL(ulfm_fail(&ranks[0], UINT16_MAX, &first), ULFM_ERR_RANK);
    all_answer(&ranks[0], 1, ULFM_ERR_COMM);
    all_answer(&ranks[0], 2, ULFM_ERR_COMM);
    all_answer(&ranks[0], UINT16_MAX, ULFM_ERR_COMM);
    reads_answer(&ranks[0], 1, ULFM_SUCCESS, ULFM_ERR_COMM);
    reads_answer(&ranks[0], UINT16_MAX, ULFM_SUCCESS, ULFM_ERR_COMM);
    EQUAL(ulfm_free(&ranks[0], 0), ULFM_ERR_WORLD_KEPT);
    EQUAL(ulfm_fail(&outside, 1, &first), ULFM_SUCCESS);
    EQUAL(first, true);
    EQUAL(ulfm_fail(&ranks[0], 1, &first), ULFM_SUCCESS);
    EQUAL(first, false);
    /* the first that holds is answered: whoever is declared hears that, and of the communicator nothing */
    all_answer(&ranks[1], 1, ULFM_ERR_SELF_FAILED);
    all_answer(&ranks[1], 0, ULFM_ERR_SELF_FAILED);
    closed(2);
}

static void requests_are_checked(void)
{
    ulfm_reply reply = {9, 9, 9, 9, 9, 9, true};
    bool first;
    opened(2, 3, 3);
    EQUAL(ulfm_poll(&ranks[0], 0, &reply), ULFM_ERR_IDLE);
    EQUAL(ulfm_wait(&ranks[0], 0, &reply), ULFM_ERR_IDLE);
    EQUAL(reply.kind, 9);
    EQUAL(ulfm_iagree(&ranks[0], 0, 6), ULFM_SUCCESS);
    EQUAL(ulfm_iagree(&ranks[0], 0, 6), ULFM_ERR_BUSY);
    EQUAL(ulfm_ishrink(&ranks[0], 0), ULFM_ERR_BUSY);
    EQUAL(ulfm_ibarrier(&ranks[0], 0), ULFM_ERR_BUSY);
    EQUAL(polled(&ranks[0], &reply), ULFM_PENDING);
    EQUAL(reply.flag, 0);
    EQUAL(reply.raised, false);
    EQUAL(ulfm_wait_for(&ranks[0], 0, 5, &reply), ULFM_ERR_PENDING);
    EQUAL(ulfm_wait_for(&ranks[0], 0, 0, &reply), ULFM_ERR_PENDING);
    EQUAL(ulfm_ishrink(&ranks[1], 0), ULFM_SUCCESS);
    EQUAL(ulfm_poll(&ranks[0], 0, &reply), ULFM_ERR_MISMATCH);
    EQUAL(ulfm_poll(&ranks[0], 0, &reply), ULFM_ERR_IDLE);
    EQUAL(ulfm_poll(&ranks[1], 0, &reply), ULFM_ERR_MISMATCH);

    EQUAL(ulfm_iagree(&ranks[0], 0, (ulfm_flag)5 << 32 | 6), ULFM_SUCCESS);
    EQUAL(ulfm_iagree(&ranks[1], 0, (ulfm_flag)3 << 32 | 3), ULFM_SUCCESS);
    for (int rank = 0; rank < 2; rank++) {
        EQUAL(polled(&ranks[rank], &reply), ULFM_AGREED);
        EQUAL(reply.flag, (ulfm_flag)1 << 32 | 2);
        EQUAL(reply.failed + reply.comm + reply.context + reply.size + reply.raised, 0);
    }
    /* one round is left, for a shrink */
    EQUAL(ulfm_iagree(&ranks[0], 0, 6), ULFM_ERR_ROUNDS_USED_UP);
    EQUAL(ulfm_ishrink(&ranks[0], 0), ULFM_SUCCESS);
    EQUAL(ulfm_ishrink(&ranks[1], 0), ULFM_SUCCESS);
    EQUAL(polled(&ranks[0], &reply), ULFM_SHRUNK);
    EQUAL(reply.comm, 1);
    EQUAL(reply.context, 1);
    EQUAL(reply.size, 2);
    EQUAL(reply.flag + reply.failed + reply.raised, 0);
    EQUAL(ulfm_ishrink(&ranks[0], 0), ULFM_ERR_ROUNDS_USED_UP);
    /* the other's is open still: it can't shrink what it holds besides */
    EQUAL(ulfm_poll(&ranks[1], 0, &reply), ULFM_SUCCESS);
    EQUAL(ulfm_ishrink(&ranks[1], 1), ULFM_SUCCESS);
    EQUAL(ulfm_ishrink(&ranks[1], 1), ULFM_ERR_BUSY);
    EQUAL(ulfm_free(&ranks[1], 1), ULFM_ERR_BUSY);
    EQUAL(ulfm_ishrink(&ranks[0], 1), ULFM_SUCCESS);
    EQUAL(ulfm_poll(&ranks[0], 1, &reply), ULFM_SUCCESS);
    EQUAL(reply.comm, 2);
    EQUAL(ulfm_ishrink(&ranks[0], 2), ULFM_SUCCESS);
    EQUAL(ulfm_ishrink(&ranks[0], 1), ULFM_ERR_SHRINK_OPEN);
    EQUAL(ulfm_poll(&ranks[1], 1, &reply), ULFM_SUCCESS);
    EQUAL(ulfm_ishrink(&ranks[1], 2), ULFM_SUCCESS);
    EQUAL(ulfm_poll(&ranks[0], 2, &reply), ULFM_ERR_NO_ROOM);
    EQUAL(ulfm_poll(&ranks[0], 2, &reply), ULFM_ERR_IDLE);
    EQUAL(ulfm_poll(&ranks[1], 2, &reply), ULFM_ERR_NO_ROOM);
    EQUAL(ulfm_free(&ranks[0], 1), ULFM_SUCCESS);
    EQUAL(ulfm_free(&ranks[0], 1), ULFM_ERR_COMM);

    for (int round = 0; round < 3; round++) {
        EQUAL(ulfm_ibarrier(&ranks[0], 0), ULFM_SUCCESS);
        EQUAL(ulfm_barrier_for(&ranks[0], 0, 2), ULFM_ERR_BUSY);
        if (round < 2)
            EQUAL(ulfm_wait_for(&ranks[0], 0, 2, &reply), ULFM_ERR_PENDING);
        if (round == 0) {
            EQUAL(ulfm_barrier(&ranks[1], 0), ULFM_SUCCESS);
            EQUAL(polled(&ranks[0], &reply), ULFM_DONE);
        } else if (round == 1) {
            declared(1);
            EQUAL(ulfm_poll(&ranks[0], 0, &reply), ULFM_ERR_PROC_FAILED);
        } else {
            EQUAL(ulfm_revoke(&ranks[0], 0, &first), ULFM_SUCCESS);
            EQUAL(first, true);
            EQUAL(ulfm_poll(&ranks[0], 0, &reply), ULFM_ERR_REVOKED);
        }
        EQUAL(ulfm_poll(&ranks[0], 0, &reply), ULFM_ERR_IDLE);
    }
    EQUAL(ulfm_ibarrier(&ranks[0], 0), ULFM_ERR_ROUNDS_USED_UP);
    closed(2);
}

static void contexts_are_used_up(void)
{
    ulfm_reply reply;
    opened(1, 70, 2);
    for (uint16_t comm = 0; comm < 63; comm++) {
        uint16_t next = 0;
        EQUAL(ulfm_shrink(&ranks[0], comm, &next), ULFM_SUCCESS);
        EQUAL(next, comm + 1);
    }
    EQUAL(ulfm_ishrink(&ranks[0], 63), ULFM_SUCCESS);
    EQUAL(ulfm_poll(&ranks[0], 63, &reply), ULFM_ERR_NO_CONTEXT);
    EQUAL(ulfm_poll(&ranks[0], 63, &reply), ULFM_ERR_IDLE);
    EQUAL(ulfm_free(&ranks[0], 7), ULFM_SUCCESS);
    EQUAL(ulfm_ishrink(&ranks[0], 63), ULFM_SUCCESS);
    EQUAL(ulfm_poll(&ranks[0], 63, &reply), ULFM_SUCCESS);
    EQUAL(reply.context, 7);
    closed(1);
}

/* Lists are cut to the room that there is, and counted whole. */
static void lists_are_cut(void)
{
    uint16_t list[4] = {UNTOUCHED, UNTOUCHED, UNTOUCHED, UNTOUCHED}, acknowledged = 9;
    size_t count = 9;
    opened(4, 1, 1);
    EQUAL(ulfm_get_failed(&ranks[0], 0, list, 4, &count), ULFM_SUCCESS);
    EQUAL(count, 0);
    EQUAL(list[0], UNTOUCHED);
    declared(3);
    declared(1);
    EQUAL(ulfm_get_failed(&ranks[0], 0, list, 0, &count), ULFM_SUCCESS);
    EQUAL(count, 2);
    EQUAL(list[0], UNTOUCHED);
    EQUAL(ulfm_get_failed(&ranks[0], 0, list, 1, &count), ULFM_SUCCESS);
    EQUAL(count, 2);
    EQUAL(list[0], 3);
    EQUAL(list[1], UNTOUCHED);
    EQUAL(ulfm_get_failed(&ranks[0], 0, list, 4, &count), ULFM_SUCCESS);
    EQUAL(list[1], 1);
    EQUAL(list[2], UNTOUCHED);
    EQUAL(ulfm_ack_failed(&ranks[0], 0, 0, &acknowledged), ULFM_SUCCESS);
    EQUAL(acknowledged, 0);
    EQUAL(ulfm_ack_failed(&ranks[0], 0, 1, &acknowledged), ULFM_SUCCESS);
    EQUAL(acknowledged, 1);
    EQUAL(ulfm_ack_failed(&ranks[0], 0, UINT16_MAX, &acknowledged), ULFM_SUCCESS);
    EQUAL(acknowledged, 2);
    closed(4);
}

/* Those that are acknowledged are the first of the failed group, cut to the room that there is. */
static void acknowledged_are_listed(void)
{
    uint16_t list[4] = {UNTOUCHED, UNTOUCHED, UNTOUCHED, UNTOUCHED}, acknowledged = 9;
    size_t count = 9;
    opened(4, 1, 1);
    EQUAL(ulfm_failure_ack(&ranks[0], 0, &acknowledged), ULFM_SUCCESS);
    EQUAL(acknowledged, 0);
    declared(3);
    declared(1);
    EQUAL(ulfm_failure_get_acked(&ranks[0], 0, list, 4, &count), ULFM_SUCCESS);
    EQUAL(count, 0);
    EQUAL(list[0], UNTOUCHED);
    EQUAL(ulfm_ack_failed(&ranks[0], 0, 1, &acknowledged), ULFM_SUCCESS);
    EQUAL(ulfm_failure_get_acked(&ranks[0], 0, list, 4, &count), ULFM_SUCCESS);
    EQUAL(count, 1);
    EQUAL(list[0], 3);
    EQUAL(list[1], UNTOUCHED);
    EQUAL(ulfm_failure_ack(&ranks[0], 0, &acknowledged), ULFM_SUCCESS);
    EQUAL(acknowledged, 2);
    list[0] = UNTOUCHED;
    EQUAL(ulfm_failure_get_acked(&ranks[0], 0, list, 0, &count), ULFM_SUCCESS);
    EQUAL(count, 2);
    EQUAL(list[0], UNTOUCHED);
    EQUAL(ulfm_failure_get_acked(&ranks[0], 0, list, 4, &count), ULFM_SUCCESS);
    EQUAL(list[0], 3);
    EQUAL(list[1], 1);
    EQUAL(list[2], UNTOUCHED);
    /* another rank acknowledges for itself alone */
    EQUAL(ulfm_failure_get_acked(&ranks[2], 0, list, 4, &count), ULFM_SUCCESS);
    EQUAL(count, 0);
    closed(4);
}

/* Who is missing in a round, as one after the other comes into it. */
static void missing_are_told(void)
{
    uint16_t list[4] = {UNTOUCHED, UNTOUCHED, UNTOUCHED, UNTOUCHED};
    uint32_t steps = 0;
    size_t count = UNTOUCHED;
    ulfm_reply reply;
    opened(4, 2, 3);
    EQUAL(ulfm_missing(&ranks[0], 0, list, 4, &count), ULFM_ERR_IDLE);
    EQUAL(ulfm_missing(&ranks[0], 1, list, 4, &count), ULFM_ERR_COMM);
    EQUAL(count + list[0], 2 * UNTOUCHED);
    EQUAL(ulfm_iagree(&ranks[0], 0, 1), ULFM_SUCCESS);
    EQUAL(ulfm_missing(&ranks[0], 0, list, 2, &count), ULFM_SUCCESS);
    EQUAL(count, 3);
    EQUAL(list[0] * 10 + list[1], 12);
    EQUAL(list[2], UNTOUCHED);
    EQUAL(ulfm_missing(&ranks[1], 0, list, 4, &count), ULFM_ERR_IDLE);
    EQUAL(ulfm_iagree(&ranks[2], 0, 1), ULFM_SUCCESS);
    EQUAL(ulfm_missing(&ranks[0], 0, list, 4, &count), ULFM_SUCCESS);
    EQUAL(count, 2);
    EQUAL(list[0] * 10 + list[1], 13);
    EQUAL(list[2], UNTOUCHED);
    EQUAL(ulfm_last_steps(&ranks[0], &steps), ULFM_SUCCESS);
    EQUAL(steps, 3); /* those of its start */
    /* who is declared is left out by a poll, and then isn't missing */
    declared(3);
    EQUAL(ulfm_missing(&ranks[2], 0, list, 0, &count), ULFM_SUCCESS);
    EQUAL(count, 2);
    EQUAL(polled(&ranks[2], &reply), ULFM_PENDING);
    EQUAL(ulfm_missing(&ranks[0], 0, list, 4, &count), ULFM_SUCCESS);
    EQUAL(count, 1);
    EQUAL(list[0], 1);
    /* also a rank that is declared is answered, and the last to come leaves nobody */
    EQUAL(ulfm_iagree(&ranks[1], 0, 1), ULFM_SUCCESS);
    declared(0);
    EQUAL(ulfm_missing(&ranks[0], 0, list, 4, &count), ULFM_SUCCESS);
    EQUAL(count, 0);
    EQUAL(list[0], 1);
    EQUAL(polled(&ranks[1], &reply), ULFM_AGREED);
    EQUAL(ulfm_ibarrier(&ranks[1], 0), ULFM_SUCCESS);
    EQUAL(ulfm_missing(&ranks[1], 0, list, 4, &count), ULFM_SUCCESS);
    EQUAL(count, 3);
    EQUAL(list[0] * 100 + list[1] * 10 + list[2], 23);
    EQUAL(ulfm_ishrink(&ranks[2], 0), ULFM_ERR_BUSY);
    EQUAL(ulfm_poll(&ranks[2], 0, &reply), ULFM_SUCCESS);
    EQUAL(ulfm_ishrink(&ranks[2], 0), ULFM_SUCCESS);
    EQUAL(ulfm_missing(&ranks[2], 0, list, 4, &count), ULFM_SUCCESS);
    EQUAL(count, 3);
    EQUAL(list[0] * 100 + list[1] * 10 + list[2], 13);
    closed(4);
}

/* What a rank knows of itself, also where it is declared. */
static void ranks_know_themselves(void)
{
    uint16_t list[4] = {UNTOUCHED, UNTOUCHED, UNTOUCHED, UNTOUCHED}, number = 9, made = 9;
    uint32_t steps = 9;
    size_t count = 9;
    bool is;
    opened(4, 2, 2);
    for (uint16_t rank = 0; rank < 4; rank++) {
        EQUAL(ulfm_rank(&ranks[rank], &number), ULFM_SUCCESS);
        EQUAL(number, rank);
    }
    EQUAL(ulfm_last_steps(&ranks[0], &steps), ULFM_SUCCESS);
    EQUAL(steps, 0);
    EQUAL(ulfm_context(&ranks[0], 0, &number), ULFM_SUCCESS);
    EQUAL(number, 0);
    EQUAL(ulfm_members(&ranks[0], 0, list, 2, &count), ULFM_SUCCESS);
    EQUAL(count, 4);
    EQUAL(list[1], 1);
    EQUAL(list[2], UNTOUCHED);
    declared(2);
    declared(0);
    /* it hasn't looked yet */
    EQUAL(ulfm_failures(&ranks[1], list, 4, &count), ULFM_SUCCESS);
    EQUAL(count, 0);
    EQUAL(ulfm_is_revoked(&ranks[1], 0, &is), ULFM_SUCCESS);
    EQUAL(ulfm_last_steps(&ranks[1], &steps), ULFM_SUCCESS);
    EQUAL(steps, 4); /* two failures, the end of their list, and whether it is revoked */
    EQUAL(ulfm_failures(&ranks[1], list, 1, &count), ULFM_SUCCESS);
    EQUAL(count, 2);
    EQUAL(list[0], 2);
    EQUAL(list[1], 1);
    EQUAL(ulfm_is_revoked(&ranks[2], 0, &is), ULFM_ERR_SELF_FAILED);
    EQUAL(ulfm_rank(&ranks[2], &number), ULFM_SUCCESS);
    EQUAL(ulfm_failures(&ranks[2], list, 4, &count), ULFM_SUCCESS);
    EQUAL(count, 2);
    EQUAL(ulfm_is_revoked(&ranks[2], 0, &is), ULFM_ERR_SELF_FAILED);
    EQUAL(ulfm_last_steps(&ranks[2], &steps), ULFM_SUCCESS);
    EQUAL(steps, 0);
    EQUAL(ulfm_ishrink(&ranks[3], 0), ULFM_SUCCESS);
    EQUAL(ulfm_shrink(&ranks[1], 0, &made), ULFM_SUCCESS);
    EQUAL(made, 1);
    EQUAL(ulfm_context(&ranks[1], 1, &number), ULFM_SUCCESS);
    EQUAL(number, 1);
    EQUAL(ulfm_members(&ranks[1], 1, list, 4, &count), ULFM_SUCCESS);
    EQUAL(count, 2);
    EQUAL(list[0] * 10 + list[1], 13);
    EQUAL(ulfm_members(&ranks[3], 1, list, 4, &count), ULFM_ERR_COMM);
    closed(4);
}

/* Each code has a text of its own, and no other has one. */
static void codes_have_texts(void)
{
    for (int code = -2; code < 80; code++)
        for (int other = -2; other < code; other++)
            if (code <= ULFM_ERR_COUNT || code == ULFM_ERR_PENDING)
                EQUAL(code >= 0 && strcmp(ulfm_strerror(code), ulfm_strerror(other)) == 0, false);
    EQUAL(strcmp(ulfm_strerror(-1), ulfm_strerror(79)), 0);
}

int main(void)
{
    handles_are_checked();
    limits_are_checked();
    refusals_of_ranks();
    requests_are_checked();
    contexts_are_used_up();
    lists_are_cut();
    acknowledged_are_listed();
    missing_are_told();
    ranks_know_themselves();
    codes_have_texts();
    return checks_end();
}
