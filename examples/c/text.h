/* Text that is safe on a terminal and in a JSON string, whatever bytes it is made of. */
#ifndef TEXT_H
#define TEXT_H

#include <stdio.h>
#include <string.h>

#include "encodings.h"
#include "laddertick.h"

/* What stands first in a text: a character, or a byte that is none. */
typedef struct character {
    uint32_t c;
    size_t len; /* its bytes */
    int is;     /* 0: the byte c is no character in this encoding */
} character;

/* UTF-8, of which the library knows what is well formed: it decodes such bytes to themselves. */
static inline character utf_8(const uint8_t *at, size_t len)
{
    size_t n = at[0] < 0x80 ? 1 : at[0] < 0xe0 ? 2 : at[0] < 0xf0 ? 3 : 4;
    character first = {at[0], 1, n == 1};
    uint8_t same[LADDERTICK_DATA_ROOM(4)];
    if (n == 1 || n > len)
        return first;
    laddertick_written w = laddertick_data(at, n, 0, n, same, sizeof same);
    if (w.number != 0 || w.place != n || memcmp(at, same, n) != 0)
        return first;
    first = (character){at[0] & (0x7fu >> n), n, 1};
    for (size_t i = 1; i < n; i++)
        first.c = first.c << 6 | (at[i] & 0x3f);
    return first;
}

/* The character that stands first, by a code page; of NULL by UTF-8. */
static inline character character_at(const encoding *page, const uint8_t *at, size_t len)
{
    if (page == NULL)
        return utf_8(at, len);
    uint32_t c = at[0] < 0x80 ? at[0] : page->upper[at[0] - 0x80];
    return at[0] >= 0x80 && c == 0 ? (character){at[0], 1, 0} : (character){c, 1, 1};
}

/* Every byte of the text is a character, or part of one. */
static inline int is_text(const encoding *page, const uint8_t *at, size_t len)
{
    character c;
    for (size_t i = 0; i < len; i += c.len)
        if (!(c = character_at(page, at + i, len - i)).is)
            return 0;
    return 1;
}

/* What a terminal takes for a command, or that breaks the line or turns its direction: control characters (C0, DEL, C1), the marks and controls of direction,
   the separators of lines and paragraphs. */
static inline int is_control(uint32_t c)
{
    return c < 0x20 || (c >= 0x7f && c < 0xa0) || c == 0x61c || c == 0x200e || c == 0x200f || (c >= 0x2028 && c <= 0x202e) || (c >= 0x2066 && c <= 0x2069);
}

/* A character that is no control, in UTF-8. */
static inline void put_character(FILE *to, uint32_t c)
{
    size_t n = c < 0x80 ? 1 : c < 0x800 ? 2 : c < 0x10000 ? 3 : 4;
    if (n == 1) {
        fputc((int)c, to);
        return;
    }
    fputc((int)((0xf00 >> n & 0xff) | c >> 6 * (n - 1)), to);
    for (size_t i = n - 1; i-- > 0;)
        fputc((int)(0x80 | (c >> 6 * i & 0x3f)), to);
}

/* A text on one line, about `most` bytes of it and no half character. Controls, quotes and backslashes are escaped, and what is no character is the byte: \xfc. */
static inline void put_text(FILE *to, const encoding *page, const uint8_t *at, size_t len, size_t most)
{
    size_t i = 0;
    while (i < len && i < most) {
        character c = character_at(page, at + i, len - i);
        if (!c.is)
            fprintf(to, "\\x%02x", (unsigned)c.c);
        else if (c.c == '\\' || c.c == '"')
            fprintf(to, "\\%c", (int)c.c);
        else if (is_control(c.c))
            fprintf(to, c.c < 0x80 ? "\\x%02x" : "\\u%04x", (unsigned)c.c);
        else
            put_character(to, c.c);
        i += c.len;
    }
    if (i < len)
        fputs("...", to);
}

/* ---- JSON, on standard output ---- */

/* What is no character becomes U+FFFD; controls are escaped although most of them need not be. */
static inline void json_string(const encoding *page, const uint8_t *at, size_t len)
{
    character c;
    putchar('"');
    for (size_t i = 0; i < len; i += c.len) {
        c = character_at(page, at + i, len - i);
        if (!c.is)
            fputs("\\ufffd", stdout);
        else if (c.c == '\\' || c.c == '"')
            printf("\\%c", (int)c.c);
        else if (is_control(c.c))
            printf("\\u%04x", (unsigned)c.c);
        else
            put_character(stdout, c.c);
    }
    putchar('"');
}

static inline void json_hex(const char *key, const uint8_t *at, size_t len)
{
    printf(",\"%s_hex\":\"", key);
    for (size_t i = 0; i < len; i++) {
        putchar("0123456789abcdef"[at[i] >> 4]);
        putchar("0123456789abcdef"[at[i] & 15]);
    }
    putchar('"');
}

/* The text KEY, or KEY_hex in hexadecimal where a byte of it is no character. */
static inline void json_bytes(const char *key, const encoding *page, const uint8_t *at, size_t len)
{
    if (!is_text(page, at, len)) {
        json_hex(key, at, len);
        return;
    }
    printf(",\"%s\":", key);
    json_string(page, at, len);
}

static inline void json_words(const char *key, const char *words)
{
    printf(",\"%s\":", key);
    json_string(NULL, (const uint8_t *)words, strlen(words));
}

static inline void json_number(const char *key, long long number)
{
    printf(",\"%s\":%lld", key, number);
}

static inline void json_truth(const char *key, int truth)
{
    printf(",\"%s\":%s", key, truth ? "true" : "false");
}

/* An object of a file begins with the file and its type. A name that is no UTF-8 is said a second time, as it is. */
static inline void json_open(const char *name, const char *type)
{
    const uint8_t *at = (const uint8_t *)name;
    size_t len = strlen(name);
    fputs("{\"file\":", stdout);
    json_string(NULL, at, len);
    if (!is_text(NULL, at, len))
        json_hex("file", at, len);
    json_words("type", type);
}

static inline void json_close(void)
{
    puts("}");
}

#endif
