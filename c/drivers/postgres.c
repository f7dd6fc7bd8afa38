/* A world's log in a table of PostgreSQL, by libpq.
 *
 * Whoever appends takes a lock of the world in its transaction, and then the number behind the greatest. The lock is held until the entry can
 * be seen, so nobody sees a number before those below it. (A sequence's numbers become visible out of order.) The table's key keeps a number
 * from being given twice, whatever else is done. A server that forgets what it has confirmed is refused: fsync and synchronous_commit are
 * looked at, and a standby isn't read. */
#include "log.h"

#include <libpq-fe.h>
#include <poll.h>
#include <stdio.h>
#include <stdlib.h>
#include <string.h>

enum { HEX = 2 * sizeof(ulfm_entry) + 1 };

struct postgres_log {
    struct log log;
    char *connection, *name;
    unsigned char head[LOG_HEAD];
    PGconn *server;   /* null while it is away */
    bool may_be_more; /* whether there may be entries from `next` on: an append was told of, or it is long since one was */
    uint64_t next;
};

static void to_hex(const unsigned char *bytes, char text[HEX])
{
    for (size_t at = 0; at < sizeof(ulfm_entry); at++)
        sprintf(text + 2 * at, "%02x", bytes[at]);
}

/* Whether it is what was wanted; else the server is away until it is connected anew. */
static int done(struct postgres_log *own, PGresult *result, ExecStatusType wanted)
{
    int code = PQresultStatus(result) == wanted ? LOG_OK : LOG_AWAY;
    PQclear(result);
    if (code == LOG_AWAY && (PQstatus(own->server) != CONNECTION_OK || PQtransactionStatus(own->server) != PQTRANS_IDLE)) {
        PQfinish(own->server);
        own->server = NULL;
    }
    return code;
}

/* The tables, the world's head where it has none, and what else has to be so. */
static int prepared(struct postgres_log *own)
{
    char hex[HEX];
    const char *values[2] = {own->name, hex};
    to_hex(own->head, hex);
    int code = done(own, PQexec(own->server,
                                "BEGIN; SELECT pg_advisory_xact_lock(hashtextextended('ulfm_log', 0));"
                                "DO $$ BEGIN IF to_regclass('ulfm_log') IS NULL THEN"
                                " CREATE TABLE ulfm_world (world text PRIMARY KEY, head bytea NOT NULL);"
                                " CREATE TABLE ulfm_log (world text, number bigint, entry bytea NOT NULL CHECK (length(entry) = 24),"
                                " PRIMARY KEY (world, number)); END IF; END $$; COMMIT; LISTEN ulfm_log"), PGRES_COMMAND_OK);
    if (code == LOG_OK)
        code = done(own, PQexecParams(own->server, "INSERT INTO ulfm_world VALUES ($1, decode($2, 'hex')) ON CONFLICT DO NOTHING", 2, NULL,
                                      values, NULL, NULL, 0), PGRES_COMMAND_OK);
    if (code != LOG_OK)
        return code;
    PGresult *found = PQexecParams(own->server,
                                   "SELECT encode(head, 'hex') = $2, current_setting('fsync') = 'on'"
                                   " AND current_setting('synchronous_commit') <> 'off' AND NOT pg_is_in_recovery()"
                                   " FROM ulfm_world WHERE world = $1", 2, NULL, values, NULL, NULL, 0);
    bool is_there = PQntuples(found) == 1;
    bool is_own = is_there && *PQgetvalue(found, 0, 0) == 't', is_fit = is_there && *PQgetvalue(found, 0, 1) == 't';
    code = done(own, found, PGRES_TUPLES_OK);
    return code != LOG_OK ? code : !is_fit ? LOG_UNFIT : is_own ? LOG_OK : LOG_OTHER;
}

static void say_nothing(void *context, const char *text)
{
    (void)context, (void)text;
}

/* Connects where it is away. A server that doesn't answer is given up after some seconds. */
static int connected(struct postgres_log *own)
{
    const char *names[] = {"connect_timeout", "tcp_user_timeout", "keepalives_idle", "keepalives_interval", "keepalives_count", "dbname", NULL};
    const char *values[] = {"5", "5000", "5", "1", "3", own->connection, NULL};
    if (own->server != NULL)
        return LOG_OK;
    own->server = PQconnectdbParams(names, values, 1);
    int code = own->server == NULL ? ULFM_ERR_NO_MEM : PQstatus(own->server) == CONNECTION_OK ? LOG_OK : LOG_AWAY;
    if (code == LOG_OK) {
        PQsetNoticeProcessor(own->server, say_nothing, NULL);
        code = prepared(own);
        own->may_be_more = true;
    }
    if (code != LOG_OK) {
        PQfinish(own->server);
        own->server = NULL;
    }
    return code;
}

static int append(struct log *log, const ulfm_entry *entry)
{
    struct postgres_log *own = (struct postgres_log *)log;
    char hex[HEX], text[1024];
    int code = connected(own);
    if (code != LOG_OK)
        return code;
    char *name = PQescapeLiteral(own->server, own->name, strlen(own->name));
    if (name == NULL)
        return ULFM_ERR_NO_MEM;
    to_hex(entry->bytes, hex);
    /* each statement sees what was there when it began: the second one whatever the lock's last holder left */
    int length = snprintf(text, sizeof text,
                          "BEGIN ISOLATION LEVEL READ COMMITTED; SELECT pg_advisory_xact_lock(hashtextextended(%s, 1));"
                          "INSERT INTO ulfm_log SELECT %s, coalesce(max(number), -1) + 1, decode('%s', 'hex') FROM ulfm_log WHERE world = %s;"
                          "SELECT pg_notify('ulfm_log', %s); COMMIT", name, name, hex, name, name);
    PQfreemem(name);
    if (length < 0 || (size_t)length >= sizeof text)
        return LOG_WHERE;
    return done(own, PQexec(own->server, text), PGRES_COMMAND_OK);
}

/* What there is now. */
static int read_from(struct postgres_log *own, uint64_t index, ulfm_entry *entries, size_t room, size_t *count)
{
    char from[24], most[24];
    const char *values[3] = {own->name, from, most};
    snprintf(from, sizeof from, "%llu", (unsigned long long)index);
    snprintf(most, sizeof most, "%zu", room);
    PGresult *found = PQexecParams(own->server,
                                   "SELECT entry, number = $2 - 1 + row_number() OVER (ORDER BY number) FROM (SELECT entry, number FROM ulfm_log"
                                   " WHERE world = $1 AND number >= $2 ORDER BY number LIMIT $3) AS part ORDER BY number",
                                   3, (const Oid[]){25, 20, 20}, values, NULL, NULL, 1);
    bool is_gone = false;
    size_t rows = (size_t)PQntuples(found);
    for (size_t at = 0; at < rows && !is_gone; at++) {
        is_gone = *PQgetvalue(found, (int)at, 1) != 1 || PQgetlength(found, (int)at, 0) != sizeof entries->bytes;
        memcpy(entries[at].bytes, PQgetvalue(found, (int)at, 0), is_gone ? 0 : sizeof entries->bytes);
    }
    int code = done(own, found, PGRES_TUPLES_OK);
    if (code == LOG_OK && !is_gone)
        *count = rows;
    own->may_be_more = rows == room;
    own->next = index + rows;
    return code == LOG_OK && is_gone ? LOG_GONE : code;
}

/* Takes in what the server has told: appends, to whatever world. */
static int listen_to(struct postgres_log *own)
{
    if (!PQconsumeInput(own->server))
        return done(own, NULL, PGRES_COMMAND_OK);
    for (PGnotify *told; (told = PQnotifies(own->server)) != NULL; own->may_be_more = true)
        PQfreemem(told);
    return LOG_OK;
}

static int deliver(struct log *log, uint64_t index, ulfm_entry *entries, size_t room, size_t *count, int milliseconds)
{
    struct postgres_log *own = (struct postgres_log *)log;
    int64_t end = log_now() + milliseconds;
    int code = LOG_OK;
    own->may_be_more |= index != own->next;
    for (*count = 0; code == LOG_OK && *count == 0;) {
        code = connected(own);
        if (code == LOG_OK)
            code = listen_to(own);
        if (code == LOG_OK && own->may_be_more)
            code = read_from(own, index, entries, room, count);
        int64_t now = log_now();
        if (code != LOG_OK || *count > 0)
            break;
        /* what a lost word would keep from being asked for is asked for the next time */
        if (now >= end)
            return own->may_be_more = milliseconds > 0, LOG_OK;
        struct pollfd ready = {PQsocket(own->server), POLLIN, 0};
        poll(&ready, 1, (int)(end - now));
    }
    return code;
}

static void close_postgres(struct log *log)
{
    struct postgres_log *own = (struct postgres_log *)log;
    PQfinish(own->server);
    free(own->connection);
    free(own->name);
    free(own);
}

int log_open_postgres(const char *world_name, const char *connection, struct log_world world, struct log **log)
{
    struct postgres_log *own = malloc(sizeof *own);
    if (own == NULL)
        return ULFM_ERR_NO_MEM;
    *own = (struct postgres_log){.log = {append, deliver, close_postgres}, .connection = strdup(connection), .name = strdup(world_name)};
    log_head(world, own->head);
    int code = own->connection == NULL || own->name == NULL ? ULFM_ERR_NO_MEM : connected(own);
    if (code != LOG_OK)
        return close_postgres(&own->log), code;
    *log = &own->log;
    return LOG_OK;
}
