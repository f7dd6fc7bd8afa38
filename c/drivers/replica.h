/* A rank on a machine of its own: a replica of the library beside a log of its world, and calls that wait.
 *
 * Each call begins the rank's call, appends what that wants, and feeds what the log has, until it is answered. The codes are those of the
 * calls that ulfm.h has for ranks of threads, and those of log.h. None of this is proved; what the answers mean rests on ulfm_run and
 * ulfm_feed, and on the premise of docs/STORE.md. */
#ifndef REPLICA_H
#define REPLICA_H

#include "log.h"

enum { REPLICA_MARKS = 1024 };

struct replica {
    ulfm_handle rank;
    struct log *log; /* the caller's, who closes it behind replica_close */
    uint16_t number;
    int limit;                    /* how long a call waits, in milliseconds; 0 is as long as it takes */
    uint64_t fed, digest;         /* how many entries were fed, and their digest: FNV-1a of 64 bits over their bytes */
    uint64_t marks[REPLICA_MARKS]; /* the digest behind each of the last entries, by their number */
    uint64_t appends, deliveries; /* what the store was asked */
    const ulfm_entry *sought;     /* an entry that is waited for, until it was fed */
    uint64_t settled[ULFM_MAX_COMMS], events; /* of what was taken, a communicator's contributions and marks, and all but contributions */
};

/* Opens rank `number`. Nothing of the log is fed; the first call feeds all that it has. */
int replica_open(struct replica *replica, struct log *log, uint16_t number, struct log_world world);
void replica_close(struct replica *replica);

/* As ulfm_agree, ulfm_shrink, ulfm_barrier and ulfm_revoke. Where the limit passes they answer ULFM_ERR_PENDING, and the call is still under
 * way: go on by replica_wait, or of a revoke by replica_run. */
int replica_agree(struct replica *replica, uint16_t comm, ulfm_flag *flag);
int replica_shrink(struct replica *replica, uint16_t comm, uint16_t *newcomm);
int replica_barrier(struct replica *replica, uint16_t comm);
int replica_revoke(struct replica *replica, uint16_t comm, bool *first);

/* As ulfm_get_failed and ulfm_ack_failed. They ask the store nothing. */
int replica_get_failed(struct replica *replica, uint16_t comm, uint16_t *ranks, size_t room, size_t *count);
int replica_ack_failed(struct replica *replica, uint16_t comm, uint16_t count, uint16_t *acknowledged);

/* Declares a rank failed, for good, and waits until the log has it. */
int replica_fail(struct replica *replica, uint16_t rank);

/* Polls the request that is open on the communicator until it is answered: as ulfm_wait. */
int replica_wait(struct replica *replica, uint16_t comm, ulfm_reply *reply);

/* Goes on with the call that is under way until it is answered. */
int replica_run(struct replica *replica, ulfm_reply *reply);

/* Feeds the log's next entry, as ulfm_feed, and counts it into the digest: for those who read the log themselves. */
int replica_feed(struct replica *replica, const ulfm_entry *entry, uint32_t *fed);

/* Appends an entry, again and again, until it was fed. */
int replica_append(struct replica *replica, const ulfm_entry *entry);

/* Feeds all that the log has now: up to an entry of no kind, which it appends for that. A call behind it sees what others were answered before
 * it. No call does so by itself. */
int replica_catch_up(struct replica *replica);

/* How far a replica has come, in 16 bytes, to be sent along with what ranks tell one another anyway. */
struct replica_mark {
    uint64_t fed, digest;
};
struct replica_mark replica_mark(const struct replica *replica);

/* Compares another's mark with one's own log: whether both were fed the same entries, as far as the other had come. It is a test that finds
 * a forked log, and no promise. UNKNOWN where this replica hasn't come as far, or is over REPLICA_MARKS entries ahead. */
enum replica_compared { REPLICA_SAME, REPLICA_FORKED, REPLICA_UNKNOWN };
enum replica_compared replica_compare(const struct replica *replica, struct replica_mark other);

#endif
