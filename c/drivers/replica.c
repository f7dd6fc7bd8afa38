/* The loop over ulfm_run and ulfm_feed. */
#include "replica.h"

#include <string.h>
#include <time.h>

/* Milliseconds: after which an entry is appended again that the log doesn't show; between two tries while the store is away; how long each
 * rank leaves it to those before it to append what all would append; after which a poll comes anyway; the longest wait within a delivery. */
enum { AGAIN = 1000, AWAY = 50, TURN = 20, ANYWAY = 100, PART = 500 };
/* Nanoseconds of rest, times the square of how many members are missing, of so many at most. */
enum { REST = 400, RESTS = 64 };
/* How many entries are delivered at once, and how often without a poll in between. */
enum { ROOM = 256, PARTS = 64 };

/* Kinds of entries. */
enum { A_MARK = 4, A_COMMUNICATOR = 7 };

/* ---- entries ---- */

/* Feeds what the log has behind what was fed, and waits so long for it. `came` is how many. A store that is away is left alone a little. */
static int feed(struct replica *replica, int64_t milliseconds, size_t *came)
{
    ulfm_entry entries[ROOM];
    int code = LOG_OK, wait = milliseconds < 0 ? 0 : milliseconds > PART ? PART : (int)milliseconds;
    size_t count = ROOM;
    uint32_t fed;
    *came = 0;
    for (int left = PARTS; code == LOG_OK && count == ROOM && left > 0; left--) {
        replica->deliveries++;
        code = replica->log->deliver(replica->log, replica->fed, entries, ROOM, &count, *came == 0 ? wait : 0);
        if (code == LOG_AWAY)
            log_sleep(wait < AWAY ? wait : AWAY);
        for (size_t at = 0; code == LOG_OK && at < count; at++, ++*came)
            code = replica_feed(replica, &entries[at], &fed);
    }
    return code;
}

/* How long a rank leaves an entry to others. All survivors would append the same marks, and the same new communicator: the first that lives
 * does so at once, and the others only where it is late. Any other order were as right; this one saves appends. */
static int64_t turn(struct replica *replica, const ulfm_entry *entry)
{
    uint16_t failed[ULFM_MAX_RANKS];
    size_t count = 0;
    if (entry->bytes[0] != A_MARK && entry->bytes[0] != A_COMMUNICATOR)
        return 0;
    int before = replica->number;
    if (ulfm_failures(&replica->rank, failed, ULFM_MAX_RANKS, &count) == ULFM_SUCCESS)
        for (size_t at = 0; at < count; at++)
            before -= failed[at] < replica->number;
    return (int64_t)before * TURN;
}

/* ---- calls ---- */

/* When a call that begins now has to be answered. */
static int64_t end_of(const struct replica *replica)
{
    return replica->limit > 0 ? log_now() + replica->limit : INT64_MAX;
}

/* Appends an entry where its time has come, and feeds what the log has. */
static int append_and_feed(struct replica *replica, const ulfm_entry *entry, int64_t *again, int64_t end)
{
    int64_t now = log_now();
    int code = LOG_OK;
    size_t came;
    if (now >= end)
        return ULFM_ERR_PENDING;
    if (now >= *again) {
        replica->appends++;
        code = replica->log->append(replica->log, entry);
        *again = now + (code == LOG_AWAY ? AWAY : AGAIN);
    }
    if (code == LOG_OK || code == LOG_AWAY)
        code = feed(replica, (*again < end ? *again : end) - log_now(), &came);
    return code == LOG_AWAY ? LOG_OK : code;
}

int replica_append(struct replica *replica, const ulfm_entry *entry)
{
    int64_t end = end_of(replica), again = 0;
    int code = LOG_OK;
    replica->sought = entry;
    while (code == LOG_OK && replica->sought != NULL)
        code = append_and_feed(replica, entry, &again, end);
    replica->sought = NULL;
    return code;
}

static int run_until(struct replica *replica, ulfm_reply *reply, int64_t end)
{
    ulfm_entry entry, last = {{0}};
    for (int64_t again = 0;;) {
        uint32_t ran;
        int answer, code = ulfm_run(&replica->rank, &entry, reply, &answer, &ran);
        if (code != ULFM_SUCCESS || ran != ULFM_WANTS)
            return code != ULFM_SUCCESS ? code : ran == ULFM_IDLE ? ULFM_ERR_IDLE : answer;
        if (memcmp(&entry, &last, sizeof entry) != 0)
            again = log_now() + turn(replica, &entry);
        last = entry;
        code = append_and_feed(replica, &entry, &again, end);
        if (code != LOG_OK)
            return code;
    }
}

int replica_run(struct replica *replica, ulfm_reply *reply)
{
    return run_until(replica, reply, end_of(replica));
}

/* How many members a communicator has. */
static size_t size_of(struct replica *replica, uint16_t comm)
{
    uint16_t none[1];
    size_t size = 0;
    return ulfm_members(&replica->rank, comm, none, 0, &size) == ULFM_SUCCESS && size > 0 ? size : 1;
}

/* What has to change before a poll that was pending may be answered: a round of the communicator is complete, or something else than a
 * contribution was taken, as a declaration, which a poll doesn't see that began before it. */
static uint64_t seen_of(const struct replica *replica, uint16_t comm, size_t size)
{
    return replica->settled[comm % ULFM_MAX_COMMS] / size + replica->events;
}

/* Lets contributions gather while many are missing: to fetch them one by one costs more than all else. */
static void rest(const struct replica *replica, uint16_t comm, size_t size)
{
    size_t missing = size - replica->settled[comm % ULFM_MAX_COMMS] % size;
    long counted = (long)(missing < RESTS ? missing : RESTS);
    nanosleep(&(struct timespec){0, REST * counted * counted}, NULL);
}

/* Goes on with what is under way, a start or a poll, and polls until it is answered: again once there is a reason for it, and now and then whenever
 * anything was fed, since forged contributions that are out of order make rounds be counted wrongly. */
static int wait_until(struct replica *replica, uint16_t comm, ulfm_reply *reply, int64_t end)
{
    for (size_t size = size_of(replica, comm);;) {
        uint64_t looked = replica->fed, seen = seen_of(replica, comm, size);
        int64_t anyway = log_now() + ANYWAY;
        int begun = ulfm_begin_poll(&replica->rank, comm);
        int code = begun == ULFM_SUCCESS || begun == ULFM_ERR_CALL ? run_until(replica, reply, end) : begun;
        if (code != ULFM_SUCCESS || reply->kind != ULFM_PENDING)
            return code;
        /* behind a start that is answered the first poll comes at once */
        bool is_due = begun == ULFM_ERR_CALL;
        while (!is_due && seen_of(replica, comm, size) == seen) {
            int64_t now = log_now(), until = replica->fed != looked && anyway < end ? anyway : end;
            size_t came;
            if (now >= end)
                return ULFM_ERR_PENDING;
            is_due = now >= until;
            rest(replica, comm, size);
            code = feed(replica, until - now, &came);
            if (code != LOG_OK && code != LOG_AWAY)
                return code;
        }
    }
}

int replica_wait(struct replica *replica, uint16_t comm, ulfm_reply *reply)
{
    *reply = (ulfm_reply)ULFM_REPLY_INIT;
    return wait_until(replica, comm, reply, end_of(replica));
}

int replica_catch_up(struct replica *replica)
{
    ulfm_entry entry;
    log_nothing(&entry);
    return replica_append(replica, &entry);
}
