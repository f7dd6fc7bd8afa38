/* A world's log in a file, for processes of one machine: a head of 24 bytes, and entries of 24 bytes behind it.
 *
 * Who appends holds the file's lock (flock), and lays the entry behind the last whole one. So a piece that was left of an append that was cut
 * off is written over. Who reads holds the lock with other readers, and only where there is something to read. A killed process holds no lock.
 * Nothing is forced to the disk: a machine that stops takes its ranks with it. */
#include "log.h"

#include <errno.h>
#include <fcntl.h>
#include <stdlib.h>
#include <string.h>
#include <sys/file.h>
#include <sys/stat.h>
#include <time.h>
#include <unistd.h>

enum { ENTRY = sizeof(ulfm_entry) };

struct file_log {
    struct log log;
    int file;
};

static int lock(int file, int how)
{
    int status;
    while ((status = flock(file, how)) != 0 && errno == EINTR)
        ;
    return status == 0 ? LOG_OK : LOG_AWAY;
}

/* How many bytes there are; -1 where it isn't told. */
static off_t size_of(int file)
{
    struct stat found;
    return fstat(file, &found) == 0 ? found.st_size : -1;
}

static int append(struct log *log, const ulfm_entry *entry)
{
    int file = ((struct file_log *)log)->file;
    if (lock(file, LOCK_EX) != LOG_OK)
        return LOG_AWAY;
    int code = LOG_AWAY;
    off_t size = size_of(file);
    if (size >= LOG_HEAD) {
        off_t end = size - (size - LOG_HEAD) % ENTRY;
        ssize_t written = pwrite(file, entry->bytes, ENTRY, end);
        if (written == ENTRY)
            code = LOG_OK;
        else if (written > 0 && ftruncate(file, end) != 0)
            code = LOG_AWAY; /* the piece stays: it is no entry, and the next append writes over it */
    }
    lock(file, LOCK_UN);
    return code;
}

static int read_from(int file, off_t begin, ulfm_entry *entries, size_t room, size_t *count)
{
    if (lock(file, LOCK_SH) != LOG_OK)
        return LOG_AWAY;
    ssize_t bytes = pread(file, entries, room * ENTRY, begin);
    lock(file, LOCK_UN);
    if (bytes < 0)
        return LOG_AWAY;
    *count = (size_t)bytes / ENTRY;
    return LOG_OK;
}

static int deliver(struct log *log, uint64_t index, ulfm_entry *entries, size_t room, size_t *count, int milliseconds)
{
    enum { SHORT = 50000, LONG = 1000000 }; /* nanoseconds */
    int file = ((struct file_log *)log)->file;
    off_t begin = LOG_HEAD + (off_t)index * ENTRY;
    int64_t end = log_now() + milliseconds;
    *count = 0;
    for (long pause = SHORT;; pause = pause < LONG ? 2 * pause : LONG) {
        off_t size = size_of(file);
        if (size < 0)
            return LOG_AWAY;
        if (size < begin)
            return LOG_GONE;
        if (size >= begin + ENTRY)
            return read_from(file, begin, entries, room, count);
        if (log_now() >= end)
            return LOG_OK;
        nanosleep(&(struct timespec){0, pause}, NULL);
    }
}

static void close_file(struct log *log)
{
    close(((struct file_log *)log)->file);
    free(log);
}

/* Writes the head where there is none, or compares it. */
static int begins_with(int file, const unsigned char *head)
{
    unsigned char found[LOG_HEAD];
    off_t size = size_of(file);
    if (size < 0)
        return LOG_AWAY;
    if (size < LOG_HEAD) {
        /* nothing, or a piece of a head whose writer was killed; anything else isn't touched */
        if (pread(file, found, LOG_HEAD, 0) != size || memcmp(found, head, (size_t)size) != 0)
            return LOG_OTHER;
        return pwrite(file, head, LOG_HEAD, 0) == LOG_HEAD ? LOG_OK : LOG_AWAY;
    }
    if (pread(file, found, LOG_HEAD, 0) != LOG_HEAD)
        return LOG_AWAY;
    return memcmp(found, head, LOG_HEAD) == 0 ? LOG_OK : LOG_OTHER;
}

int log_open_file(const char *path, struct log_world world, struct log **log)
{
    unsigned char head[LOG_HEAD];
    struct file_log *own = malloc(sizeof *own);
    if (own == NULL)
        return ULFM_ERR_NO_MEM;
    *own = (struct file_log){{append, deliver, close_file}, open(path, O_RDWR | O_CREAT | O_CLOEXEC, 0666)};
    int code = LOG_WHERE;
    if (own->file >= 0) {
        log_head(world, head);
        code = lock(own->file, LOCK_EX);
        if (code == LOG_OK)
            code = begins_with(own->file, head);
        lock(own->file, LOCK_UN);
    }
    if (code != LOG_OK) {
        if (own->file >= 0)
            close(own->file);
        free(own);
        return code;
    }
    *log = &own->log;
    return LOG_OK;
}
