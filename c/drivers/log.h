/* A world's log in a store: entries of 24 bytes in one order that only grows, and of which everybody reads the same. Each driver is one file
 * behind this interface, and stands outside of the library.
 *
 * What a driver owes, and nothing checks: whatever two machines are delivered as entry number i of a world's log is the same entry. It may lose
 * an append, or make it twice. A log is used by one thread at a time, and by the process that opened it. */
#ifndef LOG_H
#define LOG_H

#include "ulfm.h"

/* What calls of a log answer; calls of replica.h answer these beside the library's codes. */
enum log_code {
    LOG_OK = 0,
    LOG_AWAY = -1,  /* the store doesn't answer now. Of an append nothing is known: the log alone tells. Call again */
    LOG_GONE = -2,  /* the store lacks entries that it had, or has others: this replica can't go on. Close it */
    LOG_UNFIT = -3, /* the store is set so that it keeps no such log, or this program was built without its driver */
    LOG_OTHER = -4, /* what stands there is the log of a world with other limits, or no log */
    LOG_WHERE = -5  /* no log can be opened there, or the text that says where isn't understood */
};

/* The limits of a log's world, as ulfm_open_replica is given them. */
struct log_world {
    uint16_t ranks, comms, rounds;
};

/* A log that is open. Its driver's own fields stand behind these. */
struct log {
    /* Asks the store to put an entry behind all others. LOG_OK says that it was told so, and no more. */
    int (*append)(struct log *log, const ulfm_entry *entry);
    /* Writes the entries from number `index` on, as many as there are, at most `room`; `count` is how many. Where there is none yet it waits
     * for one, at most so many milliseconds. */
    int (*deliver)(struct log *log, uint64_t index, ulfm_entry *entries, size_t room, size_t *count, int milliseconds);
    void (*close)(struct log *log);
};

/* Opens the log of a world, which begins with the first that opens it. `where` is one of
 *     file:PATH
 *     postgres:WORLD@CONNECTION      CONNECTION as libpq reads it: host=db.example dbname=work user=ranks
 *     etcd:WORLD@HOST:PORT,..        any members of one cluster */
int log_open(const char *where, struct log_world world, struct log **log);
int log_open_file(const char *path, struct log_world world, struct log **log);
int log_open_postgres(const char *world_name, const char *connection, struct log_world world, struct log **log);
int log_open_etcd(const char *world_name, const char *members, struct log_world world, struct log **log);

/* What a log begins with, in 24 bytes: as docs/FORMATS.md has it. */
enum { LOG_HEAD = 24 };
void log_head(struct log_world world, unsigned char head[LOG_HEAD]);

/* An entry of no kind, which all leave out, and of which no other has the same bytes. Where it stands in the log all that was appended before
 * stands before it: so it marks the log's end. */
void log_nothing(ulfm_entry *entry);

/* Appends an entry until the log has it at or behind number `next`, which is left behind it. For those who have no replica: a detector. */
int log_put(struct log *log, const ulfm_entry *entry, uint64_t *next);

/* What a code of a log or of the library means. */
const char *log_strerror(int code);

/* Milliseconds of a clock that only goes on. */
int64_t log_now(void);
void log_sleep(int milliseconds);

#endif
