/* What the examples need: a file in memory, what was asked for at the shell, and a refusal in words or as JSON. Exit status: 1 a refused file, 2 anything else that goes
   wrong. */
#ifndef FILE_H
#define FILE_H

#include <errno.h>
#include <stdlib.h>

#include "text.h"

typedef struct bytes {
    uint8_t *at;
    size_t len;
} bytes;

/* What was asked for beside the files. */
static struct {
    int json;             /* objects on standard output in place of words */
    int keep_going;       /* a refused line is told, and what stands behind it is read */
    int several;          /* there is more than one file, so each line or block says of which it is */
    const encoding *page; /* of data and lines; NULL: UTF-8 */
} asked;

/* ---- words ---- */

/* The name of a file, which may have any bytes in it. */
static inline void put_name(FILE *to, const char *name)
{
    enum { LONGEST_NAME = 4096 };
    put_text(to, NULL, (const uint8_t *)name, strlen(name), LONGEST_NAME);
}

/* "laddertick: " and a name, behind all that was printed. Takes no memory: it tells of memory that is missing too. */
static inline void put_complaint(const char *name)
{
    fflush(stdout);
    fputs("laddertick: ", stderr);
    put_name(stderr, name);
    fputs(": ", stderr);
}

static inline void complain(const char *name, const char *why)
{
    put_complaint(name);
    fprintf(stderr, "%s\n", why);
}

static inline _Noreturn void give_up(const char *name, const char *why)
{
    complain(name, why);
    exit(2);
}

/* Bytes of a file, between quotes. */
static inline void put_quoted(FILE *to, bytes input, size_t start, size_t len, size_t most)
{
    fputc('"', to);
    put_text(to, asked.page, input.at + start, len, most);
    fputc('"', to);
}

/* The status to exit with: as given if all that was printed has gone out. That it has not is said once. */
static inline int flushed(int status)
{
    static int said;
    if (fflush(stdout) == 0 && !ferror(stdout))
        return status;
    if (!said++)
        complain("standard output", strerror(errno));
    return 2;
}

/* ---- files ---- */

/* n bytes, and never NULL. */
static inline uint8_t *room(const char *name, size_t n)
{
    uint8_t *at = malloc(n + 1);
    if (at == NULL)
        give_up(name, "not enough memory");
    return at;
}

/* The bytes of a file, or of standard input for "-"; no more than one past the limit, which is enough to be refused. The caller frees them. Of a file that cannot be read
   there are none (NULL), and errno says why. */
static inline bytes try_file(const char *name)
{
    FILE *file = strcmp(name, "-") == 0 ? stdin : fopen(name, "rb");
    bytes input = {NULL, 0};
    if (file == NULL)
        return input;
    input.at = room(name, LADDERTICK_LONGEST + 1);
    input.len = fread(input.at, 1, LADDERTICK_LONGEST + 1, file);
    int why = errno, failed = ferror(file);
    fclose(file);
    if (failed) {
        free(input.at);
        input.at = NULL;
        errno = why;
    }
    return input;
}

/* The same where there is nothing to do without it. */
static inline bytes read_file(const char *name)
{
    bytes input = try_file(name);
    if (input.at == NULL)
        give_up(name, strerror(errno));
    return input;
}

/* ---- lines ---- */

/* A place, and the LF before it: asked for places that rise, all answers together read the file once. */
typedef struct lines {
    size_t place, lf;
} lines;

/* The line that a place is in, counted by LF from 1. */
static inline size_t line_of(lines *l, bytes input, size_t place)
{
    if (place < l->place)
        *l = (lines){0, 0};
    while (l->place < place) {
        const uint8_t *lf = memchr(input.at + l->place, '\n', place - l->place);
        l->place = lf == NULL ? place : (size_t)(lf - input.at) + 1;
        l->lf += lf != NULL;
    }
    return l->lf + 1;
}

/* Where the line of a place ends: its LF, or the end. */
static inline size_t end_of_line(bytes input, size_t at)
{
    const uint8_t *lf = at < input.len ? memchr(input.at + at, '\n', input.len - at) : NULL;
    return lf == NULL ? input.len : (size_t)(lf - input.at);
}

/* ---- refusals ---- */

/* Where the reading goes on behind a line that was refused: at the next line; or behind the data of a graphic whose size is known, when something else is wrong with it. At the reference
   0,0 every position of a block is in range, so a step there tells where it ends. */
static inline size_t behind_refused(bytes input, size_t place)
{
    size_t end = end_of_line(input, place);
    laddertick_answer a = laddertick_step(input.at, input.len, (laddertick_walk){0, 0, 0, place});
    if (a.kind == LADDERTICK_GRAPHIC && a.element.data_start <= end)
        return a.next.place;
    return end + (end < input.len);
}

/* The line where it goes on, or 0 where nothing is left. */
static inline size_t line_behind(bytes input, size_t place, const lines *l)
{
    lines next = *l;
    size_t at = behind_refused(input, place);
    return at < input.len ? line_of(&next, input, at) : 0;
}

/* The object of a refusal, which the caller closes. */
static inline void json_refusal(const char *name, bytes input, unsigned number, size_t place, lines *l)
{
    json_open(name, "refusal");
    json_number("number", number);
    json_number("place", (long long)place);
    if (LADDERTICK_IS_OF_LINE(number))
        json_number("line", (long long)line_of(l, input, place));
    else
        fputs(",\"line\":null", stdout);
    json_words("meaning", laddertick_meaning(number));
    if (LADDERTICK_IS_OF_LINE(number))
        json_bytes("text", asked.page, input.at + place, end_of_line(input, place) - place);
    if (LADDERTICK_IS_OF_LINE(number) && asked.keep_going) {
        size_t next = line_behind(input, place, l);
        if (next != 0)
            json_number("next_line", (long long)next);
        else
            fputs(",\"next_line\":null", stdout);
    }
}

/* The line that begins at a place: its number, the place as the library gives it, and its text. */
static inline void put_line(bytes input, size_t place, lines *l)
{
    fprintf(stderr, "  line %zu, offset %zu (from 0): ", line_of(l, input, place), place);
    put_quoted(stderr, input, place, end_of_line(input, place) - place, 60);
    fputc('\n', stderr);
}

/* The refusal in words, with its line where it is that of one. */
static inline void put_refusal(const char *name, bytes input, unsigned number, size_t place, lines *l)
{
    put_complaint(name);
    fprintf(stderr, "refused (%u): %s\n", number, laddertick_meaning(number));
    if (LADDERTICK_IS_OF_LINE(number))
        put_line(input, place, l);
}

/* That the reading goes on, and where. */
static inline void put_going_on(bytes input, unsigned number, size_t place, const lines *l)
{
    if (!asked.keep_going || !LADDERTICK_IS_OF_LINE(number))
        return;
    size_t line = line_behind(input, place, l);
    if (line != 0)
        fprintf(stderr, "  reading on in line %zu\n", line);
    else
        fputs("  nothing stands behind it\n", stderr);
}

/* A refusal, told as was asked for. Gives the status to exit with. */
static inline int refuse_at(const char *name, bytes input, unsigned number, size_t place, lines *l)
{
    if (asked.json) {
        json_refusal(name, input, number, place, l);
        json_close();
    } else {
        put_refusal(name, input, number, place, l);
        put_going_on(input, number, place, l);
    }
    return 1;
}

static inline int refuse(const char *name, bytes input, unsigned number, size_t place)
{
    lines l = {0, 0};
    return refuse_at(name, input, number, place, &l);
}

#endif
