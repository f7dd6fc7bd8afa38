/* How etcd's gateway writes what it is told: JSON, with numbers in quotes and keys and values in base64. */
#include "etcd_http.h"

#include <stdlib.h>
#include <string.h>

static const char LETTERS[] = "ABCDEFGHIJKLMNOPQRSTUVWXYZabcdefghijklmnopqrstuvwxyz0123456789+/";

void to_base64(const void *bytes, size_t count, char *text)
{
    const unsigned char *from = bytes;
    for (size_t at = 0; at < count; at += 3) {
        unsigned group = from[at] << 16u | (at + 1 < count ? from[at + 1] << 8u : 0) | (at + 2 < count ? from[at + 2] : 0u);
        for (int letter = 0; letter < 4; letter++)
            *text++ = at + (size_t)letter <= count ? LETTERS[group >> (18 - 6 * letter) & 63] : '=';
    }
    *text = 0;
}

size_t from_base64(const char *text, unsigned char *bytes, size_t room)
{
    unsigned group = 0;
    size_t count = 0;
    for (int bits = 0;; text++) {
        const char *found = *text == 0 ? NULL : strchr(LETTERS, *text);
        if (found == NULL || count > room)
            return count;
        group = group << 6 | (unsigned)(found - LETTERS);
        bits += 6;
        if (bits >= 8) {
            bits -= 8;
            if (count < room)
                bytes[count] = (unsigned char)(group >> bits);
            count++;
        }
    }
}

uint64_t number_behind(const char *text, const char *name)
{
    const char *at = strstr(text, name);
    return at == NULL ? 0 : strtoull(at + strlen(name), NULL, 10);
}

size_t value_in(const char *text, unsigned char *bytes, size_t room)
{
    const char *at = strstr(text, "\"value\":\"");
    return at == NULL ? 0 : from_base64(at + 9, bytes, room);
}
