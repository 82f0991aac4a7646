/*
 * Lists labels of files in words: a walk over a file, a step at a time.
 *
 *     explain [--json] [--keep-going] [--encoding PAGE] FILE..
 *     explain [..] FILE N     label N alone, from 1: walked from its entry in the index, over its own bytes
 *     explain to300 FILE N    label N set for 300 dots an inch in place of 203
 *
 * Each label is a line with its element count, sets and copies, then a line for each element, with the line of the file that it stands in. Elements behind the last print line are no label:
 * a warning on standard error tells how many there are. A refused file is explained on standard error, and nothing else is printed; with --keep-going the refused lines are, each where it
 * stands among the elements, and the labels go on without them.
 */
#include "labels.h"
#include "on.h"
#include "several.h"
#include "words.h"

/* What is said of a label before its elements; its line is that of its print line. */
typedef struct label {
    size_t number, count, refused, line;
    int32_t sets, copies;
} label;

/* The line of a label, or its object. */
static void put_label(const char *name, const char *how, label l)
{
    if (asked.json) {
        json_open(name, "label");
        json_number("label", (long long)l.number);
        json_number("line", (long long)l.line);
        json_number("elements", (long long)l.count);
        json_number("sets", l.sets);
        json_number("copies", l.copies);
        json_number("refused", (long long)l.refused);
        json_close();
        return;
    }
    printf("label %zu%s: %zu %s, %" PRId32 " %s, %" PRId32 " %s, printed by line %zu", l.number, how, l.count, l.count == 1 ? "element" : "elements", l.sets,
           l.sets == 1 ? "set" : "sets", l.copies, l.copies == 1 ? "copy" : "copies", l.line);
    if (l.refused != 0)
        printf(", %zu %s refused", l.refused, l.refused == 1 ? "line" : "lines");
    putchar('\n');
}

/* A walk over a file. What is told of a part of it, a label or what is no label, is walked again from `first`. */
typedef struct course {
    const char *name;
    bytes input;
    laddertick_walk walk, first; /* where it is; behind the last print line or clear */
    size_t labels, refused;      /* so far; refused lines since `first` */
    size_t all_refused;
    lines prints, told; /* the lines of print lines, and of what is told between them: two that rise */
} course;

static course course_from(const char *name, bytes input, laddertick_walk walk, size_t labels)
{
    return (course){.name = name, .input = input, .walk = walk, .first = walk, .labels = labels};
}

/* The columns of the elements from `first` on, up to where the walk is. */
static columns columns_of(const course *c)
{
    columns wide = {0, 0, 0, 0};
    lines l = c->told;
    size_t n = 0;
    for (laddertick_walk walk = c->first; walk.place < c->walk.place;) {
        laddertick_answer a = step_on(c->input, walk);
        walk = a.next;
        if (is_element(a))
            wide = with_element(wide, a.element, (standing){++n, line_of(&l, c->input, place_of(a))});
    }
    return wide;
}

/* What stands from `first` to where the walk is: its elements, where `label` is their label, and the refused lines among them. */
static void put_part(course *c, size_t label)
{
    columns wide = {0, 0, 0, 0};
    size_t n = 0;
    if (label != 0 && !asked.json)
        wide = columns_of(c);
    for (laddertick_walk walk = c->first; walk.place < c->walk.place;) {
        laddertick_answer a = step_on(c->input, walk);
        walk = a.next;
        if (a.kind == LADDERTICK_REFUSED)
            refuse_at(c->name, c->input, a.number, a.place, &c->told);
        if (label == 0 || !is_element(a))
            continue;
        standing s = {++n, line_of(&c->told, c->input, place_of(a))};
        if (asked.json)
            json_element(c->name, c->input, label, a.element, s);
        else
            explain(c->input, a.element, s, wide);
    }
}

/* Walks to the end, or to a refusal that is none of a line, and gives that last answer. Labels are told when their print is reached: all of them, or the one that is asked for;
   refused lines wherever they are. */
static laddertick_answer walk_file(course *c, size_t only)
{
    for (;;) {
        laddertick_answer a = step_on(c->input, c->walk);
        c->walk = a.next;
        if (is_last(a)) {
            put_part(c, 0);
            return a;
        }
        if (a.kind == LADDERTICK_REFUSED) {
            c->refused++;
            c->all_refused++;
        }
        if (a.kind != LADDERTICK_PRINT && a.kind != LADDERTICK_CLEAR)
            continue;
        c->labels += a.kind == LADDERTICK_PRINT;
        if (a.kind == LADDERTICK_PRINT && (only == 0 || only == c->labels)) {
            if (c->labels == 1)
                put_heading(c->name);
            put_label(c->name, "", (label){c->labels, a.count - c->refused, c->refused, line_of(&c->prints, c->input, place_of(a)), a.sets, a.copies});
            put_part(c, c->labels);
        } else {
            put_part(c, 0);
        }
        c->first = c->walk;
        c->refused = 0;
    }
}

/* The refusal of a file of which nothing is told. */
static int refuse_file(const char *name, bytes input, unsigned number, size_t place)
{
    int status = refuse(name, input, number, place);
    if (asked.json)
        json_file(name, 0, 0, 1);
    return status;
}

/* All labels, or label `only`, in a walk over the whole file. Gives the status to exit with. */
static int explain_all(const char *name, bytes input, size_t only)
{
    course c = course_from(name, input, laddertick_start(), 0);
    laddertick_answer last = walk_file(&c, only);
    if (last.kind == LADDERTICK_REFUSED)
        return refuse_file(name, input, last.number, last.place);
    size_t pending = last.next.pending - c.refused;
    if (only > c.labels) {
        refuse_number(name, input, only, c.labels);
        c.all_refused++;
    }
    if (asked.json) {
        json_file(name, c.labels, pending, c.all_refused);
    } else if (only == 0 && c.labels == 0) {
        put_heading(name);
        puts("no labels");
    }
    /* What goes to standard output is out before the warning. */
    int status = flushed(c.all_refused != 0);
    if (!asked.json && only == 0)
        warn_of_pending(name, pending);
    return status;
}

/* One label, by its number from 1. */
static int explain_one(const char *name, bytes input, size_t number)
{
    labels l = index_file(name, input);
    int status = 0;
    if (l.said.number != 0) {
        free(l.at);
        return flushed(refuse_file(name, input, l.said.number, l.said.place));
    }
    if (number > l.len) {
        status = refuse_number(name, input, number, l.len);
    } else {
        laddertick_entry entry = l.at[number - 1];
        course c = course_from(name, cut_at(input, entry), walk_from(entry), number - 1);
        walk_file(&c, number);
    }
    if (asked.json)
        json_file(name, l.len, to_end(input, laddertick_start()).next.pending, (size_t)status);
    free(l.at);
    return flushed(status);
}

/* A file, or one label of it. */
static int explain_file(const char *name, bytes input, const void *with)
{
    size_t number = *(const size_t *)with;
    if (asked.keep_going)
        return explain_all(name, input, number);
    if (number != 0)
        return explain_one(name, input, number);
    laddertick_answer last = to_end(input, laddertick_start());
    return last.kind == LADDERTICK_REFUSED ? refuse_file(name, input, last.number, last.place) : explain_all(name, input, 0);
}

/* The words of an element at 300 dots are those of one at 203: the fields are the same. */
static laddertick_element as_203(laddertick_element_300 at300)
{
    laddertick_element e;
    _Static_assert(sizeof e == sizeof at300, "the fields are the same");
    memcpy(&e, &at300, sizeof e);
    return e;
}

/* The elements of a label at 300 dots, each with the line where it stands at 203. */
static void explain_300(bytes input, laddertick_entry entry, const laddertick_element_300 *list, size_t len)
{
    columns wide = {0, 0, 0, 0};
    for (int out = 0; out <= 1; out++) {
        laddertick_walk walk = first_of(input, entry);
        lines l = {0, 0};
        for (size_t i = 0; i < len; i++) {
            laddertick_answer a = laddertick_step(input.at, entry.last, walk);
            standing s = {i + 1, line_of(&l, input, place_of(a))};
            walk = a.next;
            if (out)
                explain(input, as_203(list[i]), s, wide);
            else
                wide = with_element(wide, as_203(list[i]), s);
        }
    }
}

/* One label at 300 dots an inch: the first call lends no element and learns how many there are. */
static int convert_one(const char *name, bytes input, size_t number)
{
    labels l = index_file(name, input);
    if (l.said.number != 0 || number > l.len) {
        free(l.at);
        return l.said.number != 0 ? refuse(name, input, l.said.number, l.said.place) : refuse_number(name, input, number, l.len);
    }
    laddertick_label said = laddertick_to_300(input.at, input.len, l.at, l.len, number - 1, NULL, 0);
    size_t n = said.number == LADDERTICK_OUTPUT_TOO_SHORT ? said.place : 0;
    laddertick_element_300 *list = (laddertick_element_300 *)room(name, n * sizeof *list);
    if (n != 0)
        said = laddertick_to_300(input.at, input.len, l.at, l.len, number - 1, list, n);
    int status = 0;
    if (said.number != 0) {
        status = refuse(name, input, said.number, said.place);
    } else {
        lines print = {0, 0};
        put_label(name, " at 300 dots", (label){number, said.place, 0, line_of(&print, input, l.at[number - 1].last - 1), said.sets, said.copies});
        explain_300(input, l.at[number - 1], list, said.place);
    }
    free(list);
    free(l.at);
    return flushed(status);
}

int main(int argc, char **argv)
{
    static const char usage[] = "explain [--json] [--keep-going] [--encoding PAGE] FILE.. | explain [..] FILE N | explain to300 FILE N";
    if (argc == 4 && strcmp(argv[1], "to300") == 0) {
        size_t label = label_number(argv[3]);
        bytes file = read_file(argv[2]);
        int status = convert_one(argv[2], file, label);
        free(file.at);
        return status;
    }
    words w = read_options(argv + 1, "jke", usage);
    size_t number = has_number(w) ? label_number(w.at[1]) : 0;
    w.len -= number != 0;
    return on_files(w, explain_file, &number);
}
