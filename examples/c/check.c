/*
 * Checks files typed by hand against the well-site profile.
 *
 *     check [--json] [--keep-going] [--encoding PAGE] FILE..
 *
 * An accepted file gives "ok" and the number of its labels; a refused one is told on standard error: the line, the field by its name and what it holds. With --keep-going all lines that are
 * refused are told. Notes, which refuse nothing, name what is passed over although it begins like a command, and what stands behind the last print line: so a label gets lost without a word.
 * What is passed over the library itself is asked, a line at a time.
 */
#include <inttypes.h>

#include "on.h"
#include "several.h"

enum { MOST_NOTES = 20 };

/* ---- fields by name ---- */

/* The letters of a command, the names of its fields up to the last that is looked at, and what the profile allows there where it is not any value. */
typedef struct command {
    const char *letters;
    const char *fields[7];
    const char *allowed[7];
} command;

static const command COMMANDS[] = {
    {"A",
     {"x", "y", "rotation", "font", "horizontal multiplier", "vertical multiplier"},
     {NULL, NULL, "0 to 3", "1 to 5", "1 to 6 or 8", "1 to 9"}},
    {"B", {"x", "y", "rotation", "type", "narrow bar", "wide bar", "height"}, {NULL, NULL, "0 to 3"}},
    {"b", {"x", "y"}, {NULL}},
    {"LO", {"x", "y", "width", "height"}, {NULL}},
    {"LW", {"x", "y", "width", "height"}, {NULL}},
    {"LE", {"x", "y", "width", "height"}, {NULL}},
    {"LS", {"x", "y", "thickness", "second x", "second y"}, {NULL}},
    {"X", {"x", "y", "thickness", "second x", "second y"}, {NULL}},
    {"GW", {"x", "y", "bytes a row", "rows"}, {NULL, NULL, "at least 1"}},
    {"R", {"x", "y"}, {NULL}},
};

/* A part of the input. */
typedef struct part {
    size_t at, end;
} part;

static int is_ascii_blank(uint8_t b)
{
    return b == ' ' || (b >= '\t' && b <= '\r');
}

/* The bytes of the blank that stands first (Unicode White_Space), or 0. */
static size_t blank(const uint8_t *at, size_t n)
{
    if (n >= 1 && is_ascii_blank(at[0]))
        return 1;
    if (n >= 2 && at[0] == 0xc2 && (at[1] == 0x85 || at[1] == 0xa0))
        return 2;
    if (n < 3)
        return 0;
    uint32_t c = (uint32_t)at[0] << 16 | (uint32_t)at[1] << 8 | at[2];
    return c == 0xe19a80 || (c >= 0xe28080 && c <= 0xe2808a) || c == 0xe280a8 || c == 0xe280a9 || c == 0xe280af || c == 0xe2819f || c == 0xe38080 ? 3 : 0;
}

/* A part without the blanks that it begins with, and the ASCII ones that it ends with. */
static part trimmed(bytes input, part p)
{
    size_t n;
    while (p.at < p.end && (n = blank(input.at + p.at, p.end - p.at)) > 0)
        p.at += n;
    while (p.at < p.end && is_ascii_blank(input.at[p.end - 1]))
        p.end--;
    return p;
}

static int begins(bytes input, part p, const char *letters)
{
    size_t n = strlen(letters);
    return p.end - p.at >= n && memcmp(input.at + p.at, letters, n) == 0;
}

/* The line that begins at a place, without its LF. */
static part line_at(bytes input, size_t at)
{
    return (part){at, end_of_line(input, at)};
}

/* The place of the first b in p, or its end. */
static size_t up_to(bytes input, part p, uint8_t b)
{
    const uint8_t *found = memchr(input.at + p.at, b, p.end - p.at);
    return found == NULL ? p.end : (size_t)(found - input.at);
}

/* The field, from 1, of the parameters p; of R everything behind the first comma is one field. */
static part field_of(bytes input, part p, unsigned field, char letter)
{
    /* A, B and b have their data behind the parameters. */
    if (letter == 'A' || letter == 'B' || letter == 'b')
        p.end = up_to(input, p, '"');
    for (unsigned k = 1; k < field; k++) {
        p.at = up_to(input, p, ',');
        p.at += p.at < p.end;
    }
    if (letter != 'R' || field == 1)
        p.end = up_to(input, p, ',');
    return trimmed(input, p);
}

/* What a field held that was objected to: 1 to 4 as laddertick.h has them. */
static const char *const HELD[] = {"", "empty", "no number", "beyond 32 bits", "outside the profile"};

/* A refusal, and the field that was objected to, by its name, with what it holds. */
static void put_objection(const char *name, bytes input, laddertick_checked c, lines *l)
{
    part p = trimmed(input, line_at(input, c.place));
    const command *of = COMMANDS;
    part f = {0, 0};
    if (c.field != 0) {
        while (!begins(input, p, of->letters))
            of++;
        p.at += strlen(of->letters);
        f = field_of(input, p, c.field, of->letters[0]);
    }
    if (asked.json) {
        json_refusal(name, input, c.number, c.place, l);
        if (c.field != 0) {
            json_number("field", c.field);
            json_words("field_name", of->fields[c.field - 1]);
            json_words("held", HELD[c.held]);
            json_bytes("value", asked.page, input.at + f.at, f.end - f.at);
            if (c.held == LADDERTICK_HELD_OUTSIDE)
                json_words("allowed", of->allowed[c.field - 1]);
        }
        json_close();
        return;
    }
    put_refusal(name, input, c.number, c.place, l);
    if (c.field != 0) {
        fprintf(stderr, "  line %zu, field %u (%s): ", line_of(l, input, c.place), (unsigned)c.field, of->fields[c.field - 1]);
        if (c.held == LADDERTICK_HELD_EMPTY)
            fputs("it", stderr);
        else
            put_quoted(stderr, input, f.at, f.end - f.at, 60);
        fprintf(stderr, " is %s%s%s\n", HELD[c.held], c.held == LADDERTICK_HELD_OUTSIDE ? ": " : "", c.held == LADDERTICK_HELD_OUTSIDE ? of->allowed[c.field - 1] : "");
    }
    put_going_on(input, c.number, c.place, l);
}

/* ---- notes ---- */

/* A file whose notes are written; how many of them are on lines that are passed over. */
typedef struct noting {
    const char *name;
    bytes input;
    const uint8_t *lead; /* the input, with an LF before it */
    size_t passed;
    lines lines;
} noting;

/* The object of a note, on a line or, where that is 0, on the file. */
static void json_note(const noting *n, size_t line, part p, const char *words)
{
    json_open(n->name, "note");
    if (line != 0) {
        json_number("line", (long long)line);
        json_bytes("text", asked.page, n->input.at + p.at, p.end - p.at);
    } else {
        fputs(",\"line\":null", stdout);
    }
    json_words("note", words);
    json_close();
}

/* A note on the file as a whole. */
static void note_whole(const noting *n, const char *words)
{
    if (asked.json) {
        json_note(n, 0, (part){0, 0}, words);
        return;
    }
    put_prefix(n->name);
    printf("note: %s\n", words);
}

/* A note on a line that is passed over, of which the first bytes are shown; in words no more than MOST_NOTES of them. */
static void note_passed(noting *n, part p, const char *words)
{
    n->passed++;
    if (!asked.json && n->passed > MOST_NOTES)
        return;
    size_t line = line_of(&n->lines, n->input, p.at);
    p = trimmed(n->input, p);
    if (asked.json) {
        json_note(n, line, p, words);
        return;
    }
    put_prefix(n->name);
    printf("note: line %zu: ", line);
    put_quoted(stdout, n->input, p.at, p.end - p.at, 60);
    printf(" %s\n", words);
}

/* The line p says nothing to the library: it neither draws, clears, prints nor sets the reference. An element is pending, for a print line to show; and the reference is
   tried with two values, of which a line that sets it leaves neither. */
static int is_passed(const uint8_t *lead, part p)
{
    for (int32_t x = 1; x <= 2; x++) {
        /* lead is the input with one byte more before it: that byte stands for the pending element. */
        laddertick_answer a = laddertick_step(lead + p.at, p.end - p.at + 1, (laddertick_walk){x, x, 1, 1});
        if (a.kind != LADDERTICK_END || a.next.x != x || a.next.y != x || a.next.pending != 1)
            return 0;
    }
    return 1;
}

/* What may follow a command's letters. */
static int is_parameter(bytes input, part p, size_t n)
{
    uint8_t b = p.end - p.at > n ? input.at[p.at + n] : ',';
    return (b >= '0' && b <= '9') || b == ',' || b == '-' || b == '+' || b == '.' || b == '"' || is_ascii_blank(b);
}

/* Why a line that begins like a command is passed over, or NULL where it does not begin like one. */
static const char *why_passed(bytes input, part p)
{
    static const char *const SMALL[] = {"a", "gw", "le", "lo", "ls", "lw", "n", "p", "r", "x"};
    p = trimmed(input, p);
    if (p.at == p.end)
        return NULL;
    switch (input.at[p.at]) {
    case 'P':
        return is_parameter(input, p, 1) || begins(input, p, "PA") ? "is no print line, and nothing is printed for it" : NULL;
    case 'R':
        return is_parameter(input, p, 1) ? "sets no reference: no digit follows R" : NULL;
    case 'N':
        return is_parameter(input, p, 1) ? "clears nothing: N stands alone on its line" : NULL;
    case 'A':
    case 'B':
    case 'b':
        return is_parameter(input, p, 1) ? "is not drawn: it has no data between two quotes" : NULL;
    case 'L':
        return is_parameter(input, p, 1) ? "is not drawn: a line is LO, LW, LE or LS" : NULL;
    }
    for (size_t k = 0; k < sizeof SMALL / sizeof SMALL[0]; k++)
        if (begins(input, p, SMALL[k]) && is_parameter(input, p, strlen(SMALL[k])))
            return "is no command: its letters are capitals";
    return NULL;
}

/* The lines up to `end`, in the order of the file. A graphic block is passed by a step of the library: it may hold anything. */
static void note_lines(noting *n, size_t end)
{
    bytes input = n->input;
    for (size_t at = 0; at < end;) {
        part p = line_at(input, at);
        if (begins(input, trimmed(input, p), "GW")) {
            laddertick_answer a = laddertick_step(input.at, input.len, (laddertick_walk){0, 0, 0, at});
            if (a.kind == LADDERTICK_GRAPHIC && a.element.data_start <= p.end) {
                at = a.next.place;
                continue;
            }
        }
        const char *why = why_passed(input, p);
        if (why != NULL && is_passed(n->lead, p))
            note_passed(n, p, why);
        at = p.end + 1;
    }
    if (n->passed > MOST_NOTES && !asked.json) {
        put_prefix(n->name);
        printf("note: %zu more lines are passed over although they begin like a command\n", n->passed - MOST_NOTES);
    }
}

/* A byte order mark before a first line that would say something without it. */
static void note_mark(const noting *n)
{
    static const char words[] = "a byte order mark stands before the first line, which is passed over for it";
    part p = line_at(n->input, 0);
    if (!begins(n->input, p, "\xef\xbb\xbf"))
        return;
    p.at += 3;
    if (!begins(n->input, p, "GW") && is_passed(n->lead, p) && why_passed(n->input, p) == NULL)
        return;
    p.end = trimmed(n->input, p).end;
    if (asked.json) {
        json_note(n, 1, p, words);
        return;
    }
    put_prefix(n->name);
    printf("note: %s: ", words);
    put_quoted(stdout, n->input, p.at, p.end - p.at, 60);
    putchar('\n');
}

/* The file has text of two bytes a character: it begins with that byte order mark, or every second byte of its first ones is 0. */
static int is_utf_16(bytes input)
{
    size_t zeros[2] = {0, 0}, n = input.len < 64 ? input.len : 64;
    if (n >= 2 && ((input.at[0] == 0xff && input.at[1] == 0xfe) || (input.at[0] == 0xfe && input.at[1] == 0xff)))
        return 1;
    for (size_t i = 0; i < n; i++)
        zeros[i % 2] += input.at[i] == 0;
    return n >= 4 && (zeros[0] >= n / 2 || zeros[1] >= n / 2) && zeros[0] + zeros[1] < n;
}

/* No LF, and a carriage return with more behind it. */
static int is_all_returns(bytes input)
{
    part all = trimmed(input, (part){0, input.len});
    return memchr(input.at, '\n', input.len) == NULL && memchr(input.at + all.at, '\r', all.end - all.at) != NULL;
}

/* The language of another printer that a file begins in, or NULL. */
static const char *other_language(bytes input)
{
    static const struct {
        const char *begins, *language;
    } LANGUAGES[] = {
        {"^XA", "ZPL"},  {"~", "ZPL"},         {"! 0", "CPCL"},         {"! U", "CPCL"},     {"SIZE ", "TSPL"},
        {"\x02", "DPL"}, {"%!", "PostScript"}, {"%PDF", "a PDF file"}, {"\x1b", "a language of escape sequences"}, {"<", "XML"},
    };
    part p = trimmed(input, (part){0, input.len});
    for (size_t k = 0; k < sizeof LANGUAGES / sizeof LANGUAGES[0]; k++)
        if (begins(input, p, LANGUAGES[k].begins))
            return LANGUAGES[k].language;
    return NULL;
}

/* What is wrong with the file as a whole, where nothing was read from it. */
static void note_file(const noting *n)
{
    const char *language = other_language(n->input);
    char words[128];
    snprintf(words, sizeof words, "the file looks like %s and not like EPL: nothing is read from it", language == NULL ? "" : language);
    if (is_utf_16(n->input))
        note_whole(n, "the file is UTF-16, and nothing is read from it: save it as ASCII or UTF-8");
    else if (language != NULL)
        note_whole(n, words);
}

static void note_pending(const noting *n, size_t pending)
{
    char words[128];
    snprintf(words, sizeof words, "%zu element%s behind the last print line %s on no label", pending, pending == 1 ? "" : "s", pending == 1 ? "is" : "are");
    if (pending != 0)
        note_whole(n, words);
}

/* ---- the file ---- */

typedef struct tally {
    size_t labels, elements, pending;
} tally;

/* A walk over a file that the plain reading accepts; of any other, what it has without its refused lines. */
static tally walk_file(bytes input)
{
    tally t = {0, 0, 0};
    size_t refused = 0;
    laddertick_walk walk = laddertick_start();
    for (;;) {
        laddertick_answer a = step_on(input, walk);
        if (is_last(a)) {
            t.pending = a.next.pending - refused;
            return t;
        }
        refused += a.kind == LADDERTICK_REFUSED;
        if (a.kind == LADDERTICK_PRINT || a.kind == LADDERTICK_CLEAR)
            refused = 0;
        t.labels += a.kind == LADDERTICK_PRINT;
        t.elements += is_element(a);
        walk = a.next;
    }
}

/* The longest reference line, and the LF before a file whose notes are written. */
enum { LEAD = 32 };

/* The verdict on a file from a place on, where a unit begins and the reference is that of the walk. `copy` is the file with LEAD bytes before it, of which what stands before the place is
   overwritten: the reference is said there by a line, which the profile accepts. It is no longer than the line that set the reference, so that the whole is within the limit
   if the file is; and no reference has an x below 0, since only a digit follows R. */
static laddertick_checked check_from(uint8_t *copy, size_t len, laddertick_walk walk)
{
    char line[LEAD] = "";
    if (walk.y != 0)
        snprintf(line, sizeof line, "R%" PRId32 ",%" PRId32 "\n", walk.x, walk.y);
    else if (walk.x != 0)
        snprintf(line, sizeof line, "R%" PRId32 "\n", walk.x);
    size_t before = strlen(line);
    uint8_t *at = copy + LEAD + walk.place - before;
    memcpy(at, line, before);
    laddertick_checked c = laddertick_check(at, before + len - walk.place);
    if (LADDERTICK_IS_OF_LINE(c.number))
        c.place = c.place + walk.place - before;
    return c;
}

/* The plain reading from a walk on up to a place where a unit begins. What the profile alone refuses it reads. */
static laddertick_walk walk_to(bytes input, laddertick_walk walk, size_t place)
{
    laddertick_answer a;
    do {
        a = step_on((bytes){input.at, place}, walk);
        walk = a.next;
    } while (!is_last(a));
    return walk;
}

/* Tells all refusals of a file whose first one is c, and gives their number. */
static size_t object(const char *name, bytes input, laddertick_checked c, uint8_t *copy)
{
    laddertick_walk walk = laddertick_start();
    lines l = {0, 0};
    size_t count = 0;
    while (c.number != 0) {
        put_objection(name, input, c, &l);
        count++;
        if (!asked.keep_going || !LADDERTICK_IS_OF_LINE(c.number))
            break;
        walk = walk_to(input, walk, behind_refused(input, c.place));
        c = check_from(copy, input.len, walk);
    }
    return count;
}

/* The verdict of an accepted file. */
static void put_ok(const char *name, size_t labels)
{
    put_prefix(name);
    if (labels == 0)
        puts("ok, no labels");
    else
        printf("ok, %zu label%s\n", labels, labels == 1 ? "" : "s");
}

static int check_file(const char *name, bytes input, const void *with)
{
    (void)with;
    laddertick_checked c = laddertick_check(input.at, input.len);
    tally t = {0, 0, 0};
    size_t refused = 0;
    uint8_t *copy = NULL;
    if (c.number == 0 || (asked.keep_going && LADDERTICK_IS_OF_LINE(c.number)))
        t = walk_file(input);
    if (c.number == 0 && !asked.json)
        put_ok(name, t.labels);
    if (c.number != LADDERTICK_INPUT_TOO_LONG) {
        copy = room(name, LEAD + input.len);
        memset(copy, '\n', LEAD);
        memcpy(copy + LEAD, input.at, input.len);
        noting n = {name, input, copy + LEAD - 1, 0, {0, 0}};
        if (t.elements == 0)
            note_file(&n);
        if (is_all_returns(input))
            note_whole(&n, "the lines end in carriage returns alone: all of the file is one line");
        note_mark(&n);
        note_lines(&n, c.number == 0 || asked.keep_going ? input.len : c.place);
        note_pending(&n, t.pending);
    }
    /* What goes to standard output is out before the words of a refusal. */
    int status = flushed(0);
    if (status == 0) {
        refused = object(name, input, c, copy);
        status = refused != 0;
    }
    if (asked.json)
        json_file(name, t.labels, t.pending, refused);
    free(copy);
    return status;
}

int main(int argc, char **argv)
{
    (void)argc;
    return on_files(read_options(argv + 1, "jke", "check [--json] [--keep-going] [--encoding PAGE] FILE.."), check_file, NULL);
}
