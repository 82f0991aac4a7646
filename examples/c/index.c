/*
 * Lists where the labels of files stand: a table of the label index.
 *
 *     index [--json] [--encoding PAGE] FILE..
 *
 * A line for each label: its number, from 1; its bytes, from the first to the one behind its last, from 0; the line of the first; how many elements it has, label sets and copies; its first
 * text. The file is walked once for the index, and then each label by its own bytes alone. Elements behind the last print line are no label: a warning on standard error tells how many there
 * are. A refused file is explained on standard error, and nothing else is printed.
 */
#include <inttypes.h>

#include "labels.h"
#include "several.h"

/* How much of a text is shown. */
enum { SHOWN = 40 };

/* What the table says of a label: in the order of its columns, and the first text, of kind 0 where there is none. */
enum { LABEL, FROM, TO, LINE, ELEMENTS, SETS, COPIES, NUMBERS };

static const char *const HEADS[NUMBERS] = {"label", "from", "to", "line", "elements", "sets", "copies"};

typedef struct row {
    long long numbers[NUMBERS];
    laddertick_element text;
} row;

/* A label's row, walked from its entry; its line is left out. */
static row row_of(bytes input, size_t number, laddertick_entry entry)
{
    row r = {{(long long)number, (long long)entry.first, (long long)entry.last, 0, (long long)entry.count, 0, 0}, {.kind = 0}};
    laddertick_walk walk = walk_from(entry);
    laddertick_answer a;
    do {
        a = laddertick_step(input.at, entry.last, walk);
        if (a.kind == LADDERTICK_TEXT && r.text.kind == 0)
            r.text = a.element;
        else if (a.kind == LADDERTICK_CLEAR)
            r.text.kind = 0;
        walk = a.next;
    } while (a.kind != LADDERTICK_PRINT && a.kind != LADDERTICK_END && a.kind != LADDERTICK_REFUSED);
    r.numbers[SETS] = a.sets;
    r.numbers[COPIES] = a.copies;
    return r;
}

static void put_row(bytes input, row r, const int *wide)
{
    for (int k = 0; k < NUMBERS; k++)
        printf("  %*lld", wide[k], r.numbers[k]);
    fputs("  ", stdout);
    if (r.text.kind == 0)
        putchar('-');
    else
        put_quoted(stdout, input, r.text.data_start, r.text.data_len, SHOWN);
    putchar('\n');
}

static void put_heads(const int *wide)
{
    for (int k = 0; k < NUMBERS; k++)
        printf("  %*s", wide[k], HEADS[k]);
    puts("  first text");
}

/* The row as an object: all of the first text, and the line of the print line too. */
static void json_row(const char *name, bytes input, row r, size_t last_line)
{
    json_open(name, "label");
    for (int k = 0; k < NUMBERS; k++)
        json_number(HEADS[k], r.numbers[k]);
    json_number("last_line", (long long)last_line);
    if (r.text.kind == 0)
        fputs(",\"text\":null", stdout);
    else
        json_bytes("text", asked.page, input.at + r.text.data_start, r.text.data_len);
    json_close();
}

/* The rows of all labels: once to learn how wide the columns are, then to print them. */
static void put_table(const char *name, bytes input, labels l)
{
    int wide[NUMBERS];
    for (int k = 0; k < NUMBERS; k++)
        wide[k] = (int)strlen(HEADS[k]);
    for (int out = asked.json; out <= 1; out++) {
        lines first = {0, 0};
        if (out && !asked.json)
            put_heads(wide);
        for (size_t i = 0; i < l.len; i++) {
            row r = row_of(input, i + 1, l.at[i]);
            r.numbers[LINE] = (long long)line_of(&first, input, l.at[i].first);
            if (asked.json)
                json_row(name, input, r, line_of(&first, input, l.at[i].last - 1));
            else if (out)
                put_row(input, r, wide);
            for (int k = 0; !out && k < NUMBERS; k++) {
                int width = snprintf(NULL, 0, "%lld", r.numbers[k]);
                wide[k] = width > wide[k] ? width : wide[k];
            }
        }
    }
}

static int index_one(const char *name, bytes input, const void *with)
{
    (void)with;
    labels l = index_file(name, input);
    int status = 0;
    if (l.said.number != 0) {
        status = refuse(name, input, l.said.number, l.said.place);
        if (asked.json)
            json_file(name, 0, 0, 1);
    } else {
        size_t pending = to_end(input, laddertick_start()).next.pending;
        put_heading(name);
        if (l.len != 0)
            put_table(name, input, l);
        else if (!asked.json)
            puts("no labels");
        if (asked.json)
            json_file(name, l.len, pending, 0);
        /* What goes to standard output is out before the warning. */
        status = flushed(0);
        if (!asked.json)
            warn_of_pending(name, pending);
    }
    free(l.at);
    return status;
}

int main(int argc, char **argv)
{
    (void)argc;
    return on_files(read_options(argv + 1, "je", "index [--json] [--encoding PAGE] FILE.."), index_one, NULL);
}
