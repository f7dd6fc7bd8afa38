/* The calls of ranks of threads, made of replicas and one log in memory: so that test/script.c, which is compiled behind this, runs its scripts
 * through replicas. Each entry that a call wants is appended and fed to all replicas at once. */
#ifndef OVER_REPLICAS_H
#define OVER_REPLICAS_H

#include "ulfm.h"

#include <stdlib.h>

static ulfm_handle *replicas;
static size_t replica_count;
static uint64_t log_length;

/* Appends an entry: what the first replica made of it that doesn't take it as its own. */
static int append_to_all(const ulfm_entry *entry, uint32_t *fed)
{
    for (size_t at = 0; at < replica_count; at++) {
        uint32_t here;
        int code = ulfm_feed(&replicas[at], log_length, entry, &here);
        if (code != ULFM_SUCCESS)
            return code;
        /* all of them leave it out, or none does */
        if (at > 0 && (here == ULFM_LEFT_OUT) != (*fed == ULFM_LEFT_OUT))
            abort();
        *fed = here;
    }
    log_length++;
    return ULFM_SUCCESS;
}

/* A call whose beginning was answered so, to its answer. */
static int whole(ulfm_handle *rank, int begun, ulfm_reply *reply)
{
    for (int code = begun, answer = 0;;) {
        ulfm_entry entry;
        uint32_t ran, fed;
        if (code == ULFM_SUCCESS)
            code = ulfm_run(rank, &entry, reply, &answer, &ran);
        if (code != ULFM_SUCCESS || ran != ULFM_WANTS)
            return code != ULFM_SUCCESS ? code : answer;
        code = append_to_all(&entry, &fed);
        if (code == ULFM_SUCCESS && fed == ULFM_LEFT_OUT)
            abort(); /* what a replica wants is legal where nothing came in between */
    }
}

static int over_open(uint16_t ranks, uint16_t comms, uint16_t rounds, ulfm_handle *outside, ulfm_handle *handles, size_t count)
{
    (void)outside;
    replicas = handles;
    for (size_t at = 0; at < (count > 0 ? count : 1); at++) {
        int code = ulfm_open_replica(&handles[at], (uint16_t)at, ranks, comms, rounds);
        if (code != ULFM_SUCCESS)
            return code;
        replica_count = at + 1;
    }
    return ULFM_SUCCESS;
}

static int over_fail(ulfm_handle *outside, uint16_t rank, bool *first)
{
    ulfm_entry entry;
    uint32_t fed = ULFM_LEFT_OUT;
    (void)outside;
    int code = ulfm_failure_entry(rank, &entry);
    if (code == ULFM_SUCCESS)
        code = append_to_all(&entry, &fed);
    *first = fed != ULFM_LEFT_OUT;
    return code;
}

static int over_start(ulfm_handle *rank, int begun)
{
    ulfm_reply reply;
    return whole(rank, begun, &reply);
}

static int over_bool(ulfm_handle *rank, int begun, bool *answer)
{
    ulfm_reply reply;
    int code = whole(rank, begun, &reply);
    if (code == ULFM_SUCCESS)
        *answer = reply.failed != 0;
    return code;
}

static int over_count(ulfm_handle *rank, int begun, uint16_t *count)
{
    ulfm_reply reply;
    int code = whole(rank, begun, &reply);
    if (code == ULFM_SUCCESS)
        *count = reply.failed;
    return code;
}

static int over_group(ulfm_handle *rank, int begun, uint16_t comm, bool acked, uint16_t *ranks, size_t room, size_t *count)
{
    ulfm_reply reply;
    int code = whole(rank, begun, &reply);
    if (code == ULFM_SUCCESS)
        code = ulfm_replica_group(rank, comm, ranks, room, count);
    /* of the group the first so many are acknowledged */
    if (code == ULFM_SUCCESS && (acked ? *count < reply.failed : *count != reply.failed))
        abort();
    if (code == ULFM_SUCCESS)
        *count = reply.failed;
    return code;
}

static int over_last_steps(ulfm_handle *rank, uint32_t *steps)
{
    (void)rank;
    *steps = 0; /* a replica's aren't told */
    return ULFM_SUCCESS;
}

#define ulfm_open over_open
#define ulfm_fail over_fail
#define ulfm_iagree(rank, comm, flag) over_start(rank, ulfm_begin_agree(rank, comm, flag))
#define ulfm_ishrink(rank, comm) over_start(rank, ulfm_begin_shrink(rank, comm))
#define ulfm_ibarrier(rank, comm) over_start(rank, ulfm_begin_barrier(rank, comm))
#define ulfm_poll(rank, comm, reply) whole(rank, ulfm_begin_poll(rank, comm), reply)
#define ulfm_revoke(rank, comm, first) over_bool(rank, ulfm_begin_revoke(rank, comm), first)
#define ulfm_is_revoked(rank, comm, answer) over_bool(rank, ulfm_begin_is_revoked(rank, comm), answer)
#define ulfm_ack_failed(rank, comm, count, acknowledged) over_count(rank, ulfm_begin_ack_failed(rank, comm, count), acknowledged)
#define ulfm_failure_ack(rank, comm, acknowledged) over_count(rank, ulfm_begin_failure_ack(rank, comm), acknowledged)
#define ulfm_get_failed(rank, comm, ranks, room, count) over_group(rank, ulfm_begin_get_failed(rank, comm), comm, false, ranks, room, count)
#define ulfm_failure_get_acked(rank, comm, ranks, room, count) \
    over_group(rank, ulfm_begin_failure_get_acked(rank, comm), comm, true, ranks, room, count)
#define ulfm_free(rank, comm) over_start(rank, ulfm_begin_free(rank, comm))
#define ulfm_last_steps over_last_steps

#endif
