/* Replicas: opened and fed; calls of theirs that wait, over their loop; and the comparing of logs. */
#include "replica.h"

#include <string.h>

/* Kinds of entries. */
enum { AN_AGREE = 2, A_SHRINK = 3, A_MARK = 4 };

static const uint64_t NO_DIGEST = 14695981039346656037u, PRIME = 1099511628211u;

int replica_open(struct replica *replica, struct log *log, uint16_t number, struct log_world world)
{
    *replica = (struct replica){.rank = ULFM_HANDLE_NULL, .log = log, .number = number, .digest = NO_DIGEST, .marks = {NO_DIGEST}};
    return ulfm_open_replica(&replica->rank, number, world.ranks, world.comms, world.rounds);
}

void replica_close(struct replica *replica)
{
    ulfm_close(&replica->rank);
}

static void count_event(struct replica *replica, const unsigned char *bytes)
{
    bool is_contribution = bytes[0] == AN_AGREE || bytes[0] == A_SHRINK;
    if (is_contribution || bytes[0] == A_MARK)
        replica->settled[(bytes[4] | bytes[5] << 8) % ULFM_MAX_COMMS]++;
    replica->events += !is_contribution;
}

int replica_feed(struct replica *replica, const ulfm_entry *entry, uint32_t *fed)
{
    int code = ulfm_feed(&replica->rank, replica->fed, entry, fed);
    if (code != ULFM_SUCCESS)
        return code;
    if (*fed != ULFM_LEFT_OUT)
        count_event(replica, entry->bytes);
    for (size_t at = 0; at < sizeof entry->bytes; at++)
        replica->digest = (replica->digest ^ entry->bytes[at]) * PRIME;
    replica->marks[++replica->fed % REPLICA_MARKS] = replica->digest;
    if (replica->sought != NULL && memcmp(replica->sought, entry, sizeof *entry) == 0)
        replica->sought = NULL;
    return ULFM_SUCCESS;
}

/* ---- calls ---- */

/* A request whose start was begun so, to its reply. */
static int request(struct replica *replica, int begun, uint16_t comm, ulfm_reply *reply)
{
    return begun == ULFM_SUCCESS ? replica_wait(replica, comm, reply) : begun;
}

int replica_agree(struct replica *replica, uint16_t comm, ulfm_flag *flag)
{
    ulfm_reply reply;
    int code = request(replica, ulfm_begin_agree(&replica->rank, comm, *flag), comm, &reply);
    return code == ULFM_SUCCESS ? ulfm_agreed(&reply, flag) : code;
}

int replica_shrink(struct replica *replica, uint16_t comm, uint16_t *newcomm)
{
    ulfm_reply reply;
    int code = request(replica, ulfm_begin_shrink(&replica->rank, comm), comm, &reply);
    if (code == ULFM_SUCCESS)
        *newcomm = reply.comm;
    return code;
}

int replica_barrier(struct replica *replica, uint16_t comm)
{
    ulfm_reply reply;
    return request(replica, ulfm_begin_barrier(&replica->rank, comm), comm, &reply);
}

int replica_revoke(struct replica *replica, uint16_t comm, bool *first)
{
    ulfm_reply reply = ULFM_REPLY_INIT;
    int code = ulfm_begin_revoke(&replica->rank, comm);
    if (code == ULFM_SUCCESS)
        code = replica_run(replica, &reply);
    if (code == ULFM_SUCCESS)
        *first = reply.failed != 0;
    return code;
}

int replica_get_failed(struct replica *replica, uint16_t comm, uint16_t *ranks, size_t room, size_t *count)
{
    ulfm_reply reply = ULFM_REPLY_INIT;
    int code = ulfm_begin_get_failed(&replica->rank, comm);
    if (code == ULFM_SUCCESS)
        code = replica_run(replica, &reply);
    return code == ULFM_SUCCESS ? ulfm_replica_group(&replica->rank, comm, ranks, room, count) : code;
}

int replica_ack_failed(struct replica *replica, uint16_t comm, uint16_t count, uint16_t *acknowledged)
{
    ulfm_reply reply = ULFM_REPLY_INIT;
    int code = ulfm_begin_ack_failed(&replica->rank, comm, count);
    if (code == ULFM_SUCCESS)
        code = replica_run(replica, &reply);
    if (code == ULFM_SUCCESS)
        *acknowledged = reply.failed;
    return code;
}

int replica_fail(struct replica *replica, uint16_t rank)
{
    ulfm_entry entry;
    int code = ulfm_failure_entry(rank, &entry);
    return code == ULFM_SUCCESS ? replica_append(replica, &entry) : code;
}

/* ---- digests ---- */

struct replica_mark replica_mark(const struct replica *replica)
{
    return (struct replica_mark){replica->fed, replica->digest};
}

enum replica_compared replica_compare(const struct replica *replica, struct replica_mark other)
{
    if (other.fed > replica->fed || replica->fed - other.fed >= REPLICA_MARKS)
        return REPLICA_UNKNOWN;
    return replica->marks[other.fed % REPLICA_MARKS] == other.digest ? REPLICA_SAME : REPLICA_FORKED;
}
