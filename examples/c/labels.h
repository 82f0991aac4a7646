/* The label index of a file, and labels by number. At the shell they count from 1, as `explain` prints them; in the library from 0. */
#ifndef LABELS_H
#define LABELS_H

#include "file.h"

/* The entries of a file's labels, and what the library answered. */
typedef struct labels {
    laddertick_entry *at;
    size_t len;
    laddertick_written said;
} labels;

/* The index of a file: the first call lends no entry and learns how many there are. The caller frees them. */
static inline labels index_file(const char *name, bytes input)
{
    laddertick_written w = laddertick_index(input.at, input.len, NULL, 0);
    size_t n = w.number == LADDERTICK_TOO_MANY_LABELS ? w.place : 0;
    labels l = {(laddertick_entry *)room(name, n * sizeof *l.at), n, w};
    if (n != 0)
        l.said = laddertick_index(input.at, input.len, l.at, n);
    return l;
}

/* A file that lacks its last print line may have been sent by halves. */
static inline void warn_of_pending(const char *name, size_t n)
{
    if (n == 0)
        return;
    put_complaint(name);
    fprintf(stderr, "%zu %s behind the last print line: no label\n", n, n == 1 ? "element" : "elements");
}

/* The walk from a label's entry, over the file cut at the entry's last place. */
static inline laddertick_walk walk_from(laddertick_entry entry)
{
    return (laddertick_walk){entry.x, entry.y, 0, entry.first};
}

/* The file up to the end of a label. */
static inline bytes cut_at(bytes input, laddertick_entry entry)
{
    return (bytes){input.at, entry.last};
}

/* Where a label's elements begin: behind the last clear in it. */
static inline laddertick_walk first_of(bytes input, laddertick_entry entry)
{
    laddertick_walk walk = walk_from(entry), first = walk;
    laddertick_answer a;
    do {
        a = laddertick_step(input.at, entry.last, walk);
        walk = a.next;
        if (a.kind == LADDERTICK_CLEAR)
            first = walk;
    } while (a.kind != LADDERTICK_PRINT && a.kind != LADDERTICK_END && a.kind != LADDERTICK_REFUSED);
    return first;
}

/* The last answer of a walk: the end, or a refusal. */
static inline laddertick_answer to_end(bytes input, laddertick_walk walk)
{
    laddertick_answer a;
    do {
        a = laddertick_step(input.at, input.len, walk);
        walk = a.next;
    } while (a.kind != LADDERTICK_END && a.kind != LADDERTICK_REFUSED);
    return a;
}

/* A label's number, from 1; nothing else is taken for one, and no file has labels enough for ten digits. */
static inline size_t label_number(const char *word)
{
    size_t digits = strspn(word, "0123456789"), n = digits > 0 && digits < 10 && word[digits] == '\0' ? strtoul(word, NULL, 10) : 0;
    if (n == 0)
        give_up(word, "no number of a label; they count from 1");
    return n;
}

/* There is no label of this number. Gives the status to exit with. */
static inline int refuse_number(const char *name, bytes input, size_t number, size_t count)
{
    lines l = {0, 0};
    if (asked.json) {
        json_refusal(name, input, LADDERTICK_NO_SUCH_LABEL, number - 1, &l);
        json_number("label", (long long)number);
        json_number("labels", (long long)count);
        json_close();
        return 1;
    }
    put_refusal(name, input, LADDERTICK_NO_SUCH_LABEL, number - 1, &l);
    fprintf(stderr, "  label %zu (from 1): the file has %zu\n", number, count);
    return 1;
}

#endif
