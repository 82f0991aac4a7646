/*
 * Writes every label of a file anew, from its elements alone, to standard output: N, a line or a block for each element, the print line.
 *
 *     rewrite FILE
 *     rewrite to300 FILE    each label set for 300 dots an inch in place of 203
 *
 * All labels are measured before the first is written, so a file of which one cannot be written gives nothing but the reason, on standard error. What is no part of a label is
 * not written: remarks, settings, reference lines, elements that an N dropped. Elements behind the last print line are no label either: a warning tells how many there are.
 */
#include "labels.h"

/* What one label needs in memory; of the two lists only the one that is asked for is there. */
typedef struct lists {
    laddertick_element *plain;
    laddertick_element_300 *at300;
    size_t len;
} lists;

static int is_last(laddertick_answer a)
{
    return a.kind == LADDERTICK_PRINT || a.kind == LADDERTICK_END || a.kind == LADDERTICK_REFUSED;
}

/* The elements of a label, and its print. What a clear drops is written over, and may be more than the label has. */
static laddertick_answer elements_of(bytes input, laddertick_entry entry, laddertick_element *list)
{
    laddertick_walk walk = walk_from(entry);
    laddertick_answer a;
    size_t n = 0;
    while (a = laddertick_step(input.at, entry.last, walk), !is_last(a)) {
        if (a.kind == LADDERTICK_CLEAR)
            n = 0;
        else if (n < entry.count)
            list[n++] = a.element;
        walk = a.next;
    }
    return a;
}

/* A label, as EPL, into len bytes; or the length that it needs, or why it cannot be written. */
static laddertick_written write_one(bytes input, labels l, size_t number, lists of, uint8_t *out, size_t len)
{
    if (of.at300 != NULL) {
        laddertick_label said = laddertick_to_300(input.at, input.len, l.at, l.len, number, of.at300, of.len);
        if (said.number != 0)
            return (laddertick_written){said.number, said.place};
        return laddertick_write_label_300(input.at, input.len, of.at300, said.place, said.sets, said.copies, out, len);
    }
    laddertick_answer print = elements_of(input, l.at[number], of.plain);
    return laddertick_write_label(input.at, input.len, of.plain, l.at[number].count, print.sets, print.copies, out, len);
}

/* The first byte of the line of an element of a label, by its number from 0: behind the last LF before the line's own, for a step passes lines that say nothing. */
static size_t line_of_element(bytes input, laddertick_entry entry, size_t number)
{
    laddertick_walk walk = walk_from(entry);
    laddertick_answer a;
    size_t n = 0, at = entry.first;
    while (a = laddertick_step(input.at, entry.last, walk), !is_last(a)) {
        if (a.kind == LADDERTICK_CLEAR)
            n = 0;
        else if (n++ == number)
            for (at = a.next.place - 1; at > walk.place && input.at[at - 1] != '\n';)
                at--;
        walk = a.next;
    }
    return at;
}

/* An element of a file that cannot be written: its own line cannot be, for the reference, or the new resolution, has moved its far corner. */
static int refuse_element(const char *name, bytes input, laddertick_entry entry, size_t label, size_t number)
{
    int status = refuse(name, input, LADDERTICK_NOT_READABLE, number);
    put_line(input, line_of_element(input, entry, number), &(lines){0, 0});
    fprintf(stderr, "  label %zu, element %zu: its far corner is outside 32 bits\n", label + 1, number + 1);
    return status;
}

/* How many bytes all labels have; status is set where one of them cannot be written, or all together could not be read. */
static size_t measure(const char *name, bytes input, labels l, lists of, int *status)
{
    size_t all = 0;
    for (size_t i = 0; i < l.len; i++) {
        laddertick_written w = write_one(input, l, i, of, NULL, 0);
        if (w.number == LADDERTICK_NOT_READABLE)
            *status = refuse_element(name, input, l.at[i], i, w.place);
        else if (w.number != LADDERTICK_OUTPUT_TOO_SHORT)
            *status = refuse(name, input, w.number, w.place);
        if (*status != 0)
            return 0;
        all += w.place;
    }
    if (all > LADDERTICK_LONGEST) {
        complain(name, "its labels, written anew, have more than 16,777,216 bytes, and could not be read again");
        *status = 1;
    }
    return all;
}

/* The elements that are pending at the end of an accepted file: from its last label on. */
static size_t pending_behind(bytes input, labels l)
{
    laddertick_walk walk = l.len == 0 ? laddertick_start() : walk_from(l.at[l.len - 1]);
    laddertick_answer a;
    do {
        a = laddertick_step(input.at, input.len, walk);
        walk = a.next;
    } while (a.kind != LADDERTICK_END && a.kind != LADDERTICK_REFUSED);
    return walk.pending;
}

/* All labels of an accepted file. Gives the status to exit with. */
static int write_all(const char *name, bytes input, labels l, lists of)
{
    int status = 0;
    size_t all = measure(name, input, l, of, &status), at = 0;
    if (status != 0)
        return status;
    uint8_t *out = room(name, all);
    for (size_t i = 0; i < l.len; i++)
        at += write_one(input, l, i, of, out + at, all - at).place;
    fwrite(out, 1, at, stdout);
    free(out);
    /* What goes to standard output is out before the warning. */
    status = flushed(0);
    if (l.len == 0)
        complain(name, "no labels: nothing is written");
    warn_of_pending(name, pending_behind(input, l));
    return status;
}

int main(int argc, char **argv)
{
    int to300 = argc == 3 && strcmp(argv[1], "to300") == 0;
    if (argc != 2 && !to300) {
        fputs("usage: rewrite FILE | rewrite to300 FILE\n", stderr);
        return 2;
    }
    const char *name = argv[argc - 1];
    bytes input = read_file(name);
    labels l = index_file(name, input);
    int status;
    if (l.said.number != 0) {
        status = refuse(name, input, l.said.number, l.said.place);
    } else {
        lists of = {NULL, NULL, 0};
        for (size_t i = 0; i < l.len; i++)
            of.len = l.at[i].count > of.len ? l.at[i].count : of.len;
        if (to300)
            of.at300 = (laddertick_element_300 *)room(name, of.len * sizeof *of.at300);
        else
            of.plain = (laddertick_element *)room(name, of.len * sizeof *of.plain);
        status = write_all(name, input, l, of);
        free(of.at300);
        free(of.plain);
    }
    free(l.at);
    free(input.at);
    return status;
}
