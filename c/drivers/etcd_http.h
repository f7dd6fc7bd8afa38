/* What etcd's gateway speaks: HTTP and JSON. etcd_http.c has the one, etcd_text.c the other. */
#ifndef ETCD_HTTP_H
#define ETCD_HTTP_H

#include "log.h"

/* A connection to one of several members. `members` is HOST:PORT,HOST:PORT and so on. */
struct http {
    const char *members;
    unsigned member;         /* which of them is asked, modulo how many there are */
    int file;                /* -1 while there is no connection */
    char *text;              /* what was read */
    size_t begin, end, room; /* how much of it was given out, how much was read, for how much there is room */
};

/* Posts a body, and waits for the whole reply. `said` (where it isn't null) is the reply's body until the next call. LOG_AWAY where there is
 * no reply, or another than 200: then the next member is asked next. */
int http_ask(struct http *http, const char *path, const char *body, char **said);

/* Posts a body, to be told lines by http_line. */
int http_begin(struct http *http, const char *path, const char *body);

/* The next line, without its end; null where none came within so many milliseconds. LOG_AWAY where the connection has ended. */
int http_line(struct http *http, int milliseconds, char **line);

void http_end(struct http *http);

/* Ends the connection, and turns to the next member. It answers LOG_AWAY. */
int http_away(struct http *http);

/* `text` has room for 4 characters for each 3 bytes that are begun, and a 0. */
void to_base64(const void *bytes, size_t count, char *text);

/* How many bytes a text has up to its first character of no base64; more than room where there is no room for them. */
size_t from_base64(const char *text, unsigned char *bytes, size_t room);

/* The number behind `name`, which has the quote that begins it, as in "revision":" of a text; 0 where there is none. */
uint64_t number_behind(const char *text, const char *name);

/* The bytes of the first value in a text: how many, as from_base64; 0 where there is none. */
size_t value_in(const char *text, unsigned char *bytes, size_t room);

#endif
