/*
 * What lies where on one label: the element nearest to a point, or those in a rectangle.
 *
 *     where at FILE N X,Y            the nearest element of label N, from 1, in words
 *     where in FILE N X1,Y1,X2,Y2    the elements whose position lies in the rectangle, and the boxes and diagonals that touch it
 *
 * Elements have the numbers that explain prints, from 1. A refused file is explained on standard error, and nothing else is printed.
 */
#include "labels.h"
#include "on.h"
#include "words.h"

/* So many numbers of 32 bits with commas between them; nothing else is taken for it. */
static void numbers(const char *word, int32_t *to, size_t n)
{
    const char *at = word;
    for (size_t i = 0; i < n; i++) {
        char *end;
        errno = 0;
        long long value = strtoll(at, &end, 10);
        int digits = *at == '-' ? at[1] >= '0' && at[1] <= '9' : *at >= '0' && *at <= '9';
        if (!digits || errno != 0 || value < INT32_MIN || value > INT32_MAX || *end != (i + 1 < n ? ',' : '\0'))
            give_up(word, n == 2 ? "no point; write X,Y in 32 bits" : "no rectangle; write X1,Y1,X2,Y2 in 32 bits");
        to[i] = (int32_t)value;
        at = end + 1;
    }
}

/* The lines of the elements with these numbers, which rise; what is said of them stands before each. The columns are those of the whole label, so that what is found in two ways stands alike. */
static void put_elements(bytes input, laddertick_entry entry, const size_t *list, size_t len, const char *said)
{
    columns wide = {0, 0, 0, 0};
    for (int out = 0; out <= 1; out++) {
        laddertick_walk walk = first_of(input, entry);
        lines l = {0, 0};
        for (size_t i = 0, n = 0; out ? i < len : n < entry.count; n++) {
            laddertick_answer a = laddertick_step(input.at, entry.last, walk);
            standing s = {n + 1, line_of(&l, input, place_of(a))};
            walk = a.next;
            if (!out) {
                wide = with_element(wide, a.element, s);
            } else if (n == list[i]) {
                fputs(said, stdout);
                explain(input, a.element, s, wide);
                i++;
            }
        }
    }
}

typedef laddertick_written found(const uint8_t *, size_t, const laddertick_entry *, size_t, size_t, laddertick_rectangle, size_t *, size_t);

/* What one of the two calls finds: the first lends no room and learns how many there are. Gives the refusal's number, or 0. */
static laddertick_written put_found(const char *name, bytes input, labels l, size_t i, laddertick_rectangle r, found *find, const char *said)
{
    laddertick_written w = find(input.at, input.len, l.at, l.len, i, r, NULL, 0);
    if (w.number != LADDERTICK_OUTPUT_TOO_SHORT)
        return w;
    size_t *list = (size_t *)room(name, w.place * sizeof *list);
    w = find(input.at, input.len, l.at, l.len, i, r, list, w.place);
    if (w.number == 0)
        put_elements(input, l.at[i], list, w.place, said);
    free(list);
    return w;
}

int main(int argc, char **argv)
{
    int at = argc == 5 && strcmp(argv[1], "at") == 0;
    if (!at && (argc != 5 || strcmp(argv[1], "in") != 0)) {
        fputs("usage: where at FILE N X,Y\n       where in FILE N X1,Y1,X2,Y2\n", stderr);
        return 2;
    }
    const char *name = argv[2];
    size_t number = label_number(argv[3]), i = number - 1;
    int32_t n[4] = {0, 0, 0, 0};
    numbers(argv[4], n, at ? 2 : 4);
    bytes input = read_file(name);
    labels l = index_file(name, input);
    laddertick_written w = l.said;
    if (w.number == 0 && at) {
        w = laddertick_nearest(input.at, input.len, l.at, l.len, i, n[0], n[1]);
        if (w.number == 0)
            put_elements(input, l.at[i], &w.place, 1, "nearest:");
    } else if (w.number == 0) {
        laddertick_rectangle r = {n[0], n[1], n[2], n[3]};
        w = put_found(name, input, l, i, r, laddertick_inside, "inside:  ");
        if (w.number == 0)
            w = put_found(name, input, l, i, r, laddertick_touching, "touching:");
    }
    int status = 0;
    if (l.said.number == 0 && w.number == LADDERTICK_NO_SUCH_LABEL)
        status = refuse_number(name, input, number, l.len);
    else if (w.number != 0)
        status = refuse(name, input, w.number, w.place);
    free(l.at);
    free(input.at);
    return flushed(status);
}
