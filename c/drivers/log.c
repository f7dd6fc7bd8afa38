/* What all drivers share. */
#include "log.h"

#include <stdlib.h>
#include <string.h>
#include <time.h>
#include <unistd.h>

int64_t log_now(void)
{
    struct timespec time;
    clock_gettime(CLOCK_MONOTONIC, &time);
    return (int64_t)time.tv_sec * 1000 + time.tv_nsec / 1000000;
}

void log_sleep(int milliseconds)
{
    struct timespec time = {milliseconds / 1000, milliseconds % 1000 * 1000000L};
    nanosleep(&time, NULL);
}

static unsigned char *put_number(unsigned char *at, uint16_t number)
{
    at[0] = (unsigned char)(number % 256);
    at[1] = (unsigned char)(number / 256);
    return at + 2;
}

void log_head(struct log_world world, unsigned char head[LOG_HEAD])
{
    enum { VERSION = 1 };
    memset(head, 0, LOG_HEAD);
    memcpy(head, "ulfm log", 8);
    unsigned char *at = put_number(head + 8, VERSION);
    at = put_number(at, world.ranks);
    at = put_number(at, world.comms);
    put_number(at, world.rounds);
}

int log_open(const char *where, struct log_world world, struct log **log)
{
    if (strncmp(where, "file:", 5) == 0)
        return log_open_file(where + 5, world, log);
    const char *colon = strchr(where, ':'), *end = strchr(where, '@');
    if (colon == NULL || end == NULL || end <= colon + 1)
        return LOG_WHERE;
    char *name = strndup(colon + 1, (size_t)(end - colon - 1));
    if (name == NULL)
        return ULFM_ERR_NO_MEM;
    int code = LOG_WHERE;
    if (strncmp(where, "postgres:", 9) == 0)
        code = log_open_postgres(name, end + 1, world, log);
    else if (strncmp(where, "etcd:", 5) == 0)
        code = log_open_etcd(name, end + 1, world, log);
    free(name);
    return code;
}

void log_nothing(ulfm_entry *entry)
{
    static unsigned count;
    struct timespec now;
    clock_gettime(CLOCK_REALTIME, &now);
    uint64_t name[2] = {(uint64_t)getpid() << 32 | count++, (uint64_t)now.tv_sec * 1000000000u + (uint64_t)now.tv_nsec};
    memset(entry->bytes, 0, sizeof entry->bytes);
    memcpy(entry->bytes + sizeof entry->bytes - sizeof name, name, sizeof name);
}

int log_put(struct log *log, const ulfm_entry *entry, uint64_t *next)
{
    enum { ROOM = 64, AGAIN = 500, LATER = 50 };
    ulfm_entry came[ROOM];
    for (int64_t again = 0;;) {
        int64_t now = log_now();
        if (now >= again) {
            int code = log->append(log, entry);
            if (code != LOG_OK && code != LOG_AWAY)
                return code;
            again = now + AGAIN;
        }
        size_t count = 0;
        int code = log->deliver(log, *next, came, ROOM, &count, LATER);
        if (code == LOG_AWAY)
            log_sleep(LATER);
        else if (code != LOG_OK)
            return code;
        for (size_t at = 0; code == LOG_OK && at < count; at++, ++*next)
            if (memcmp(came[at].bytes, entry->bytes, sizeof entry->bytes) == 0)
                return ++*next, LOG_OK;
    }
}

const char *log_strerror(int code)
{
    switch (code) {
    case LOG_AWAY: return "the store does not answer";
    case LOG_GONE: return "the store lacks entries that it had, or has others";
    case LOG_UNFIT: return "the store is not set to keep such a log, or this program has no driver for it";
    case LOG_OTHER: return "it is the log of another world, or no log";
    case LOG_WHERE: return "no log can be opened there";
    default: return ulfm_strerror(code);
    }
}

#ifdef NO_POSTGRES
int log_open_postgres(const char *world_name, const char *connection, struct log_world world, struct log **log)
{
    (void)world_name, (void)connection, (void)world, (void)log;
    return LOG_UNFIT;
}
#endif
