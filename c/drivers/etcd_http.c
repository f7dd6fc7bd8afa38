/* What etcd's gateway speaks: HTTP, one request behind the other. */
#include "etcd_http.h"

#include <netdb.h>
#include <poll.h>
#include <stdio.h>
#include <stdlib.h>
#include <string.h>
#include <sys/socket.h>
#include <netinet/in.h>
#include <netinet/tcp.h>
#include <unistd.h>

enum { PATIENCE = 2, HOST = 256, HEADER = 512 }; /* seconds for a connection, and for each part of a reply */

void http_end(struct http *http)
{
    if (http->file >= 0)
        close(http->file);
    http->file = -1;
    http->begin = http->end = 0;
}

int http_away(struct http *http)
{
    http_end(http);
    http->member++;
    return LOG_AWAY;
}

/* The member whose turn it is, as host and port. */
static bool member_of(const struct http *http, char host[HOST], char **port)
{
    unsigned count = 1;
    for (const char *at = http->members; *at != 0; at++)
        count += *at == ',';
    const char *at = http->members;
    for (unsigned left = http->member % count; left > 0; left--)
        at = strchr(at, ',') + 1;
    size_t length = strcspn(at, ",");
    if (length >= HOST)
        return false;
    memcpy(host, at, length);
    host[length] = 0;
    *port = strrchr(host, ':');
    if (*port == NULL)
        return false;
    *(*port)++ = 0;
    return true;
}

static int connected(struct http *http)
{
    char host[HOST], *port;
    struct addrinfo *found = NULL, kind = {.ai_socktype = SOCK_STREAM};
    if (http->file >= 0)
        return LOG_OK;
    if (!member_of(http, host, &port))
        return LOG_WHERE;
    if (getaddrinfo(host, port, &kind, &found) != 0)
        return http_away(http);
    for (struct addrinfo *at = found; at != NULL && http->file < 0; at = at->ai_next) {
        struct timeval patience = {PATIENCE, 0};
        int one = 1, file = socket(at->ai_family, at->ai_socktype | SOCK_CLOEXEC, at->ai_protocol);
        if (file < 0)
            continue;
        setsockopt(file, SOL_SOCKET, SO_RCVTIMEO, &patience, sizeof patience);
        setsockopt(file, SOL_SOCKET, SO_SNDTIMEO, &patience, sizeof patience);
        setsockopt(file, IPPROTO_TCP, TCP_NODELAY, &one, sizeof one);
        if (connect(file, at->ai_addr, at->ai_addrlen) == 0)
            http->file = file;
        else
            close(file);
    }
    freeaddrinfo(found);
    return http->file >= 0 ? LOG_OK : http_away(http);
}

static int send_all(struct http *http, const char *text, size_t length)
{
    while (length > 0) {
        ssize_t sent = send(http->file, text, length, MSG_NOSIGNAL);
        if (sent <= 0)
            return http_away(http);
        text += sent;
        length -= (size_t)sent;
    }
    return LOG_OK;
}

static int post(struct http *http, const char *version, const char *path, const char *body)
{
    char text[4096];
    int length = snprintf(text, sizeof text,
                          "POST %s HTTP/%s\r\nHost: etcd\r\nContent-Type: application/json\r\nContent-Length: %zu\r\n\r\n%s", path, version,
                          strlen(body), body);
    if (length < 0 || (size_t)length >= sizeof text)
        return LOG_WHERE;
    int code = connected(http);
    return code == LOG_OK ? send_all(http, text, (size_t)length) : code;
}

/* Reads more behind what was read; there is a 0 behind it. */
static int read_more(struct http *http)
{
    if (http->begin > 0) {
        memmove(http->text, http->text + http->begin, http->end - http->begin);
        http->end -= http->begin;
        http->begin = 0;
    }
    if (http->room - http->end < 2) {
        size_t room = http->room == 0 ? 4096 : 2 * http->room;
        char *more = realloc(http->text, room);
        if (more == NULL)
            return http_end(http), ULFM_ERR_NO_MEM;
        http->text = more;
        http->room = room;
    }
    ssize_t got = recv(http->file, http->text + http->end, http->room - http->end - 1, 0);
    if (got <= 0)
        return http_away(http);
    http->end += (size_t)got;
    http->text[http->end] = 0;
    return LOG_OK;
}

/* Reads a reply's header, and goes behind it. `length` is that of the body, where the header has it. */
static int header(struct http *http, size_t *length)
{
    char *end = NULL;
    int code = LOG_OK;
    while (code == LOG_OK && (http->end == http->begin || (end = strstr(http->text + http->begin, "\r\n\r\n")) == NULL))
        code = read_more(http);
    if (code != LOG_OK)
        return code;
    char *text = http->text + http->begin, *named = strcasestr(text, "\r\nContent-Length:");
    bool is_good = strncmp(text, "HTTP/1.", 7) == 0 && strncmp(text + 8, " 200", 4) == 0;
    *length = named != NULL && named < end ? strtoull(named + 17, NULL, 10) : 0;
    http->begin += (size_t)(end + 4 - text);
    return is_good ? LOG_OK : http_away(http);
}

int http_ask(struct http *http, const char *path, const char *body, char **said)
{
    size_t length = 0;
    http->begin = http->end = 0;
    int code = post(http, "1.1", path, body);
    if (code == LOG_OK)
        code = header(http, &length);
    while (code == LOG_OK && http->end - http->begin < length)
        code = read_more(http);
    if (code == LOG_OK && length == 0)
        code = http_away(http);
    if (code == LOG_OK && said != NULL)
        *said = http->text + http->begin;
    return code;
}

/* As one of HTTP 1.0, so that what is told isn't cut into chunks. */
int http_begin(struct http *http, const char *path, const char *body)
{
    size_t length;
    http_end(http);
    int code = post(http, "1.0", path, body);
    return code == LOG_OK ? header(http, &length) : code;
}

int http_line(struct http *http, int milliseconds, char **line)
{
    for (*line = NULL;;) {
        char *text = http->text + http->begin, *end = http->begin < http->end ? memchr(text, '\n', http->end - http->begin) : NULL;
        if (end != NULL) {
            *end = 0;
            *line = text;
            http->begin += (size_t)(end + 1 - text);
            return LOG_OK;
        }
        struct pollfd ready = {http->file, POLLIN, 0};
        if (poll(&ready, 1, milliseconds) <= 0)
            return LOG_OK;
        int code = read_more(http);
        if (code != LOG_OK)
            return code;
    }
}
