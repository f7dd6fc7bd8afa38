/* The calls of replicas: their codes, and that a call which is refused writes nothing. Three replicas of one world are fed by hand. */
#include "check.h"
#include "ulfm.h"

#include <string.h>

enum { RANKS = 3 };

static ulfm_handle ranks[RANKS];
static uint64_t length;

static uint32_t fed_to(int rank, const ulfm_entry *entry)
{
    uint32_t fed = 99;
    EQUAL(ulfm_feed(&ranks[rank], length, entry, &fed), ULFM_SUCCESS);
    return fed;
}

/* The entry that a rank's call wants. */
static ulfm_entry wanted_by(int rank)
{
    ulfm_entry entry = {{0}};
    ulfm_reply reply;
    int code;
    uint32_t ran = 99;
    EQUAL(ulfm_run(&ranks[rank], &entry, &reply, &code, &ran), ULFM_SUCCESS);
    EQUAL(ran, ULFM_WANTS);
    return entry;
}

/* The answer of a rank's call. */
static int answer_of(int rank, ulfm_reply *reply)
{
    ulfm_entry entry;
    int code = 99;
    uint32_t ran = 99;
    EQUAL(ulfm_run(&ranks[rank], &entry, reply, &code, &ran), ULFM_SUCCESS);
    EQUAL(ran, ULFM_ANSWERED);
    return code;
}

static void opens(void)
{
    ulfm_handle none = ULFM_HANDLE_NULL;
    EQUAL(ulfm_open_replica(&none, 0, 0, 1, 1), ULFM_ERR_OUT_OF_RANGE);
    EQUAL(ulfm_open_replica(&none, 0, 1024, 256, 4096), ULFM_ERR_TOO_LARGE);
    EQUAL(ulfm_open_replica(&none, 3, 3, 1, 1), ULFM_ERR_RANK);
    EQUAL(none.at == NULL, true);
    for (uint16_t rank = 0; rank < RANKS; rank++)
        EQUAL(ulfm_open_replica(&ranks[rank], rank, RANKS, 2, 4), ULFM_SUCCESS);
}

/* Of a handle that holds nothing each call answers 18, and writes nothing. */
static void holds_nothing(void)
{
    ulfm_handle none = ULFM_HANDLE_NULL;
    ulfm_entry entry = {{0}};
    ulfm_reply reply;
    int code = 99;
    uint32_t word = 99;
    uint64_t count = 99;
    uint16_t group[RANKS];
    size_t size = 99;
    EQUAL(ulfm_begin_agree(&none, 0, 1), ULFM_ERR_HANDLE);
    EQUAL(ulfm_begin_shrink(&none, 0), ULFM_ERR_HANDLE);
    EQUAL(ulfm_begin_barrier(&none, 0), ULFM_ERR_HANDLE);
    EQUAL(ulfm_begin_poll(&none, 0), ULFM_ERR_HANDLE);
    EQUAL(ulfm_begin_revoke(&none, 0), ULFM_ERR_HANDLE);
    EQUAL(ulfm_begin_is_revoked(&none, 0), ULFM_ERR_HANDLE);
    EQUAL(ulfm_begin_get_failed(&none, 0), ULFM_ERR_HANDLE);
    EQUAL(ulfm_begin_ack_failed(&none, 0, 1), ULFM_ERR_HANDLE);
    EQUAL(ulfm_begin_failure_ack(&none, 0), ULFM_ERR_HANDLE);
    EQUAL(ulfm_begin_failure_get_acked(&none, 0), ULFM_ERR_HANDLE);
    EQUAL(ulfm_begin_free(&none, 0), ULFM_ERR_HANDLE);
    EQUAL(ulfm_run(&none, &entry, &reply, &code, &word), ULFM_ERR_HANDLE);
    EQUAL(ulfm_feed(&none, 0, &entry, &word), ULFM_ERR_HANDLE);
    EQUAL(ulfm_fed(&none, &count), ULFM_ERR_HANDLE);
    EQUAL(ulfm_replica_group(&none, 0, group, RANKS, &size), ULFM_ERR_HANDLE);
    EQUAL(code == 99 && word == 99 && count == 99 && size == 99, true);
}

/* A rank of threads and the outside are no replicas, and a replica is no rank of threads. */
static void are_told_apart(void)
{
    ulfm_handle outside = ULFM_HANDLE_NULL, thread = ULFM_HANDLE_NULL;
    ulfm_entry entry = {{0}};
    ulfm_reply reply;
    uint16_t group[RANKS], number = 99;
    size_t size = 99;
    uint64_t count = 99;
    uint32_t word = 99;
    int code = 99;
    bool is = false;
    EQUAL(ulfm_open(1, 1, 2, &outside, &thread, 1), ULFM_SUCCESS);
    for (int at = 0; at < 2; at++) {
        ulfm_handle *other = at == 0 ? &outside : &thread;
        EQUAL(ulfm_begin_agree(other, 0, 1), ULFM_ERR_NOT_A_RANK);
        EQUAL(ulfm_begin_poll(other, 0), ULFM_ERR_NOT_A_RANK);
        EQUAL(ulfm_run(other, &entry, &reply, &code, &word), ULFM_ERR_NOT_A_RANK);
        EQUAL(ulfm_feed(other, 0, &entry, &word), ULFM_ERR_NOT_A_RANK);
        EQUAL(ulfm_fed(other, &count), ULFM_ERR_NOT_A_RANK);
        EQUAL(ulfm_replica_group(other, 0, group, RANKS, &size), ULFM_ERR_NOT_A_RANK);
    }
    EQUAL(ulfm_iagree(&ranks[0], 0, 1), ULFM_ERR_NOT_A_RANK);
    EQUAL(ulfm_ishrink(&ranks[0], 0), ULFM_ERR_NOT_A_RANK);
    EQUAL(ulfm_ibarrier(&ranks[0], 0), ULFM_ERR_NOT_A_RANK);
    EQUAL(ulfm_poll(&ranks[0], 0, &reply), ULFM_ERR_NOT_A_RANK);
    EQUAL(ulfm_revoke(&ranks[0], 0, &is), ULFM_ERR_NOT_A_RANK);
    EQUAL(ulfm_get_failed(&ranks[0], 0, group, RANKS, &size), ULFM_ERR_NOT_A_RANK);
    EQUAL(ulfm_missing(&ranks[0], 0, group, RANKS, &size), ULFM_ERR_NOT_A_RANK);
    EQUAL(ulfm_rank(&ranks[2], &number), ULFM_SUCCESS);
    EQUAL(number, 2);
    EQUAL(ulfm_close(&thread), ULFM_SUCCESS);
    EQUAL(ulfm_close(&outside), ULFM_SUCCESS);
}

/* Entries in their order and out of it; what is no entry; one's own, and another's. */
static void feeds(void)
{
    ulfm_entry none = {{0}}, contribution[RANKS], entry;
    ulfm_reply reply;
    int code = 99;
    uint32_t word = 99;
    uint64_t count = 99;
    EQUAL(ulfm_run(&ranks[0], &entry, &reply, &code, &word), ULFM_SUCCESS);
    EQUAL(word, ULFM_IDLE);
    EQUAL(code, 99);
    word = 99;
    EQUAL(ulfm_feed(&ranks[0], 1, &none, &word), ULFM_ERR_GAP);
    EQUAL(word, 99);
    for (int rank = 0; rank < RANKS; rank++) {
        EQUAL(fed_to(rank, &none), ULFM_LEFT_OUT);
        EQUAL(ulfm_begin_agree(&ranks[rank], 0, 8u | (unsigned)rank), ULFM_SUCCESS);
        EQUAL(ulfm_begin_poll(&ranks[rank], 0), ULFM_ERR_CALL);
        contribution[rank] = wanted_by(rank);
        EQUAL(memcmp(&contribution[rank], &(ulfm_entry){{2, 1, (unsigned char)rank, 0, 0, 0, 0, 0, (unsigned char)rank, 0, 0, 0, 0, 0, 0, 0,
                                                         (unsigned char)(8 | rank)}}, sizeof entry), 0);
    }
    EQUAL(ulfm_feed(&ranks[0], 0, &none, &word), ULFM_ERR_GAP);
    for (int by = 0; by < RANKS; by++)
        for (int again = 0; again < 2; again++) {
            length++;
            for (int rank = 0; rank < RANKS; rank++)
                EQUAL(fed_to(rank, &contribution[by]), again ? ULFM_LEFT_OUT : rank == by ? ULFM_OWN : ULFM_TAKEN);
        }
    EQUAL(ulfm_fed(&ranks[0], &count), ULFM_SUCCESS);
    EQUAL(count, 1 + 2 * RANKS);
    for (int rank = 0; rank < RANKS; rank++) {
        EQUAL(answer_of(rank, &reply), ULFM_SUCCESS);
        EQUAL(ulfm_begin_poll(&ranks[rank], 0), ULFM_SUCCESS);
        EQUAL(answer_of(rank, &reply), ULFM_SUCCESS);
        EQUAL(reply.kind, ULFM_AGREED);
        EQUAL(reply.flag, 8);
        EQUAL(ulfm_begin_poll(&ranks[rank], 0), ULFM_SUCCESS);
        EQUAL(answer_of(rank, &reply), ULFM_ERR_IDLE);
    }
    length++;
}

/* A failure, what is told of it, and two whose contributions came by others: refused, or twice. */
static void fails(void)
{
    ulfm_entry failure, entry;
    ulfm_reply reply;
    uint16_t group[RANKS] = {99, 99, 99};
    size_t size = 99;
    EQUAL(ulfm_failure_entry(ULFM_MAX_RANKS, &failure), ULFM_ERR_RANK);
    EQUAL(ulfm_failure_entry(2, &failure), ULFM_SUCCESS);
    for (int rank = 0; rank < RANKS; rank++)
        EQUAL(fed_to(rank, &failure), ULFM_TAKEN);
    length++;
    for (int rank = 0; rank < RANKS; rank++)
        EQUAL(fed_to(rank, &failure), ULFM_LEFT_OUT);
    length++;
    EQUAL(ulfm_begin_get_failed(&ranks[0], 0), ULFM_SUCCESS);
    EQUAL(answer_of(0, &reply), ULFM_SUCCESS);
    EQUAL(reply.failed, 1);
    EQUAL(ulfm_replica_group(&ranks[0], 0, group, RANKS, &size), ULFM_SUCCESS);
    EQUAL(size == 1 && group[0] == 2 && group[1] == 99, true);
    EQUAL(ulfm_begin_failure_get_acked(&ranks[0], 0), ULFM_SUCCESS);
    EQUAL(answer_of(0, &reply), ULFM_SUCCESS);
    EQUAL(reply.failed, 0);
    EQUAL(ulfm_replica_group(&ranks[0], 1, group, RANKS, &size), ULFM_ERR_COMM);
    EQUAL(ulfm_begin_ack_failed(&ranks[0], 0, 9), ULFM_SUCCESS);
    EQUAL(answer_of(0, &reply), ULFM_SUCCESS);
    EQUAL(reply.failed, 1);
    EQUAL(ulfm_begin_agree(&ranks[2], 0, 1), ULFM_SUCCESS);
    EQUAL(answer_of(2, &reply), ULFM_ERR_SELF_FAILED);
    /* another's entry in the name of rank 1, while its own call waits for its own */
    EQUAL(ulfm_begin_agree(&ranks[1], 0, 7), ULFM_SUCCESS);
    entry = wanted_by(1);
    entry.bytes[16] = 3;
    for (int rank = 0; rank < RANKS; rank++)
        EQUAL(fed_to(rank, &entry), ULFM_TAKEN);
    length++;
    EQUAL(answer_of(1, &reply), ULFM_ERR_TWICE);
}

int main(void)
{
    opens();
    holds_nothing();
    are_told_apart();
    feeds();
    fails();
    for (int rank = 0; rank < RANKS; rank++) {
        EQUAL(ulfm_close(&ranks[rank]), ULFM_SUCCESS);
        EQUAL(ulfm_close(&ranks[rank]), ULFM_ERR_HANDLE);
    }
    return checks_end();
}
