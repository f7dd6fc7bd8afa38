/* A world's log in etcd, by its JSON gateway: each entry is put under a key of its own, below the world's, and a watch from the world's first
 * revision on tells all of them in the order of revisions, which is the log's.
 *
 * Every put of 24 bytes below the world's keys is an entry, also one that overwrites; nothing else is. Where the revisions that are still to
 * be read were compacted, the watch says so, and this replica can't go on. HTTP by its own sockets, without TLS and without passwords. */
#include "log.h"
#include "etcd_http.h"

#include <stdio.h>
#include <stdlib.h>
#include <string.h>
#include <sys/random.h>

/* After so many milliseconds without a word another member is asked: this one may be cut off from the others. */
enum { SILENCE = 3000, NAME = 128, BODY = 1024 };

struct etcd_log {
    struct log log;
    struct http ask, watch;    /* what is asked and answered, and what a watch tells */
    char *members, prefix[NAME]; /* whom to ask, and with what the world's keys begin */
    uint64_t writer, written;  /* a number of this log's own, and how many entries it has put: they make its keys */
    uint64_t first, revision;  /* the revision behind the world's head, and the one from which on the watch is to tell */
    uint64_t next, skip;       /* the number of the first entry that waits below, and how many are told again before it */
    ulfm_entry *waiting;       /* entries that were told, the delivered ones among them */
    size_t count, room, begin; /* how many there are, for how many there is room, and which is the first that wasn't delivered */
    int64_t heard;             /* when the watch last told something, or began */
    unsigned char head[LOG_HEAD];
};

/* Makes the world's head where it has none, and compares it. */
static int prepared(struct etcd_log *own)
{
    char key[2 * NAME], value[2 * LOG_HEAD], name[NAME + 8], body[BODY], *said;
    unsigned char found[LOG_HEAD + 1];
    snprintf(name, sizeof name, "%shead", own->prefix);
    to_base64(name, strlen(name), key);
    to_base64(own->head, LOG_HEAD, value);
    snprintf(body, sizeof body,
             "{\"compare\":[{\"key\":\"%s\",\"target\":\"CREATE\",\"result\":\"EQUAL\",\"create_revision\":\"0\"}],"
             "\"success\":[{\"request_put\":{\"key\":\"%s\",\"value\":\"%s\"}}]}", key, key, value);
    int code = http_ask(&own->ask, "/v3/kv/txn", body, NULL);
    snprintf(body, sizeof body, "{\"key\":\"%s\"}", key);
    if (code == LOG_OK)
        code = http_ask(&own->ask, "/v3/kv/range", body, &said);
    if (code != LOG_OK)
        return code;
    uint64_t made = number_behind(said, "\"create_revision\":\""), changed = number_behind(said, "\"mod_revision\":\"");
    if (made == 0)
        return LOG_AWAY;
    if (value_in(said, found, sizeof found) != LOG_HEAD || memcmp(found, own->head, LOG_HEAD) != 0)
        return LOG_OTHER;
    if (made != changed || (own->first != 0 && own->first != made + 1))
        return LOG_GONE;
    own->first = made + 1;
    return LOG_OK;
}

static int append(struct log *log, const ulfm_entry *entry)
{
    struct etcd_log *own = (struct etcd_log *)log;
    char key[2 * NAME], value[2 * sizeof *entry], name[NAME + 64], body[BODY];
    snprintf(name, sizeof name, "%slog/%016llx-%llu", own->prefix, (unsigned long long)own->writer, (unsigned long long)own->written++);
    to_base64(name, strlen(name), key);
    to_base64(entry->bytes, sizeof entry->bytes, value);
    snprintf(body, sizeof body, "{\"key\":\"%s\",\"value\":\"%s\"}", key, value);
    return http_ask(&own->ask, "/v3/kv/put", body, NULL);
}

/* Begins to watch from the revision that is to be told next: at a member that was heard to have a majority behind it just now. */
static int watch(struct etcd_log *own)
{
    char key[2 * NAME], end[2 * NAME], name[NAME + 8], body[BODY];
    int code = prepared(own);
    if (code != LOG_OK)
        return code;
    if (own->revision < own->first)
        own->revision = own->first;
    snprintf(name, sizeof name, "%slog/", own->prefix);
    to_base64(name, strlen(name), key);
    name[strlen(name) - 1]++;
    to_base64(name, strlen(name), end);
    snprintf(body, sizeof body, "{\"create_request\":{\"key\":\"%s\",\"range_end\":\"%s\",\"start_revision\":\"%llu\"}}", key, end,
             (unsigned long long)own->revision);
    own->heard = log_now();
    own->watch.member = own->ask.member;
    return http_begin(&own->watch, "/v3/watch", body);
}

/* From now on the next entry is number `index`, and all before it are read again. */
static void restart(struct etcd_log *own, uint64_t index)
{
    http_end(&own->watch);
    own->revision = 0;
    own->next = own->skip = index;
    own->begin = own->count = 0;
}

static int keep(struct etcd_log *own, const ulfm_entry *entry)
{
    if (own->skip > 0)
        return own->skip--, LOG_OK;
    if (own->count == own->room) {
        size_t room = own->room == 0 ? 64 : 2 * own->room;
        ulfm_entry *more = realloc(own->waiting, room * sizeof *more);
        if (more == NULL)
            return ULFM_ERR_NO_MEM;
        own->waiting = more;
        own->room = room;
    }
    own->waiting[own->count++] = *entry;
    return LOG_OK;
}

/* Takes one line of a watch: events in the order of their revisions. Keys and values are in base64, so that no brace is meant otherwise. */
static int take(struct etcd_log *own, char *line)
{
    uint64_t last = own->revision - 1;
    own->heard = log_now();
    if (strstr(line, "\"canceled\":true") != NULL || strstr(line, "\"error\":") != NULL) {
        http_end(&own->watch);
        return number_behind(line, "\"compact_revision\":\"") != 0 ? LOG_GONE : LOG_AWAY;
    }
    for (char *at = strstr(line, "\"kv\":{"), *next; at != NULL; at = next) {
        ulfm_entry entry;
        next = strstr(at + 1, "\"kv\":{");
        if (next != NULL)
            next[-1] = 0;
        uint64_t revision = number_behind(at, "\"mod_revision\":\"");
        if (revision < own->revision || revision < last)
            return LOG_GONE;
        last = revision;
        /* one that was taken away has no value */
        if (value_in(at, entry.bytes, sizeof entry.bytes) == sizeof entry.bytes && keep(own, &entry) != LOG_OK)
            return restart(own, own->next), ULFM_ERR_NO_MEM;
    }
    own->revision = last + 1;
    return LOG_OK;
}

static int deliver(struct log *log, uint64_t index, ulfm_entry *entries, size_t room, size_t *count, int milliseconds)
{
    struct etcd_log *own = (struct etcd_log *)log;
    int64_t end = log_now() + milliseconds;
    if (index != own->next)
        restart(own, index);
    for (*count = 0; own->begin == own->count;) {
        own->begin = own->count = 0;
        int code = own->watch.file < 0 ? watch(own) : LOG_OK;
        if (code != LOG_OK)
            return code;
        int64_t now = log_now(), until = own->heard + SILENCE;
        char *line;
        code = http_line(&own->watch, now >= end ? 0 : (int)((end < until ? end : until) - now), &line);
        if (code == LOG_OK && line != NULL)
            code = take(own, line);
        else if (code == LOG_OK && log_now() >= until)
            http_end(&own->watch), code = http_away(&own->ask);
        if (code != LOG_OK)
            return code;
        if (line == NULL && now >= end)
            return LOG_OK;
    }
    *count = own->count - own->begin < room ? own->count - own->begin : room;
    memcpy(entries, own->waiting + own->begin, *count * sizeof *entries);
    own->begin += *count;
    own->next += *count;
    return LOG_OK;
}

static void close_etcd(struct log *log)
{
    struct etcd_log *own = (struct etcd_log *)log;
    http_end(&own->ask);
    http_end(&own->watch);
    free(own->ask.text);
    free(own->watch.text);
    free(own->members);
    free(own->waiting);
    free(own);
}

int log_open_etcd(const char *world_name, const char *members, struct log_world world, struct log **log)
{
    struct etcd_log *own = calloc(1, sizeof *own);
    if (own == NULL)
        return ULFM_ERR_NO_MEM;
    own->log = (struct log){append, deliver, close_etcd};
    own->members = strdup(members);
    own->ask = own->watch = (struct http){.members = own->members, .file = -1};
    log_head(world, own->head);
    int code = own->members == NULL ? ULFM_ERR_NO_MEM : LOG_WHERE;
    int length = snprintf(own->prefix, sizeof own->prefix, "ulfm/%s/", world_name);
    if (own->members != NULL && length > 0 && (size_t)length < sizeof own->prefix)
        code = getrandom(&own->writer, sizeof own->writer, 0) == sizeof own->writer ? prepared(own) : LOG_AWAY;
    if (code != LOG_OK)
        return close_etcd(&own->log), code;
    *log = &own->log;
    return LOG_OK;
}
