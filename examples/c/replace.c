/*
 * Replaces one command line of a file and tells what that changes.
 *
 *     replace FILE LINE TEXT
 *
 * LINE is counted from 1 as an editor counts, by LF; TEXT takes the place of all that stands on the line before its LF or the end of input, but for a carriage
 * return there, which stays. The changed file goes to standard output, and standard error says which label and which element changed. That all else keeps its
 * frames is proved of any two accepted files that are alike but for one command line, which is no N, reference or print line in either (docs/SCOPE.md, "One line
 * changed"). What this does not cover is refused with status 1, and nothing is written: a line of a graphic block, an N, reference or print line, a text that is
 * one of these, a file that is refused before or after.
 */
#include "file.h"

/* ---- where the line stands ---- */

/* What begins here opens a graphic block: GW behind ASCII blanks other than LF. */
static int opens_graphic(bytes input, size_t at)
{
    while (at < input.len && (input.at[at] == ' ' || input.at[at] == '\t' || input.at[at] == '\f' || input.at[at] == '\r'))
        at++;
    return input.len - at >= 2 && input.at[at] == 'G' && input.at[at + 1] == 'W';
}

/* The place just past the unit of an accepted file that begins at a place. A unit that opens a graphic is a block there, since a GW line that is none is
   refused; the library then answers it at once, and the answer tells where it ends, whatever its data holds. The reference of the step does not matter to
   that: at 0,0 every position is in range. Any other unit is a command line, and ends with its LF. */
static size_t past_unit(bytes input, size_t at)
{
    if (opens_graphic(input, at))
        return laddertick_step(input.at, input.len, (laddertick_walk){0, 0, 0, at}).next.place;
    size_t end = end_of_line(input, at);
    return end + (end < input.len);
}

/* Where line k begins, from 1, or SIZE_MAX where the file has fewer: `lines` is then how many. */
static size_t place_of_line(bytes input, size_t k, size_t *lines)
{
    size_t at = 0;
    for (*lines = 0; at < input.len; at = end_of_line(input, at) + 1)
        if (++*lines == k)
            return at;
    return SIZE_MAX;
}

/* ---- what a line is ---- */

enum { PASSED, YIELDS, CLEARS, SETS_REFERENCE, PRINTS };

static const char *const CALLED[] = {[CLEARS] = "an N line", [SETS_REFERENCE] = "a reference line", [PRINTS] = "a print line"};

/* What a line without its ending does at the reference x,y. It has no LF and opens no graphic, so it is all of the input that the library is given: what
   stands first decides a step's answer, and behind the line there is the end. The byte before the line, which is not read, stands for one pending element, so
   that a print line has something to print and is answered. Neither an N nor a reference or print line is ever refused; so a line that is refused is one that
   would yield. */
static int at_reference(bytes lead, int32_t x, int32_t y)
{
    laddertick_answer a = laddertick_step(lead.at, lead.len, (laddertick_walk){x, y, 1, 1});
    if (a.kind == LADDERTICK_CLEAR)
        return CLEARS;
    if (a.kind == LADDERTICK_PRINT)
        return PRINTS;
    if (a.kind != LADDERTICK_END)
        return YIELDS;
    return a.next.x == x && a.next.y == y ? PASSED : SETS_REFERENCE;
}

/* The same without a reference: a reference line sets x to one number, which is not both 0 and 1. All else does the same at any reference. */
static int role_of(const char *name, const uint8_t *at, size_t len)
{
    bytes lead = {room(name, len + 1), len + 1};
    lead.at[0] = '\n';
    memcpy(lead.at + 1, at, len);
    int role = at_reference(lead, 0, 0);
    if (role == PASSED)
        role = at_reference(lead, 1, 0);
    free(lead.at);
    return role;
}

/* ---- the label at hand ---- */

/* What a file has up to a place where a unit begins: labels printed, and the walk's state there. */
typedef struct front {
    size_t labels;
    laddertick_walk there;
} front;

/* The part before the place walked by itself: it ends with a unit, so it divides as the file does. */
static front walk_front(bytes input, size_t place)
{
    front f = {0, laddertick_start()};
    for (;;) {
        laddertick_answer a = laddertick_step(input.at, place, f.there);
        f.there = a.next;
        if (a.kind == LADDERTICK_END || a.kind == LADDERTICK_REFUSED)
            return f;
        f.labels += a.kind == LADDERTICK_PRINT;
    }
}

/* What comes first behind the line: an N, a print line, or the end; and how many elements before it. One element is pending, so that a print line which
   printed nothing is answered too: it would print what the line yields. */
static uint8_t walk_back(bytes input, size_t place, laddertick_walk there, size_t *elements)
{
    laddertick_walk walk = {there.x, there.y, 1, place};
    for (*elements = 0;; ++*elements) {
        laddertick_answer a = laddertick_step(input.at, input.len, walk);
        if (a.kind < LADDERTICK_TEXT || a.kind > LADDERTICK_UPC_E)
            return a.kind;
        walk = a.next;
    }
}

/* What `list` writes of a line by itself, printed: its frame says all of its element but for the reference. The caller frees it. */
static bytes listed_alone(const char *name, const uint8_t *at, size_t len)
{
    bytes file = {room(name, len + 3), len + 3};
    memcpy(file.at, at, len);
    memcpy(file.at + len, "\nP\n", 3);
    /* The library says how many bytes it needs; so the first call lends none. */
    uint8_t none;
    laddertick_written w = laddertick_list(file.at, file.len, &none, 0);
    bytes out = {room(name, w.place), w.place};
    laddertick_list(file.at, file.len, out.at, out.len);
    free(file.at);
    return out;
}

static int same_frame(const char *name, bytes old, bytes new)
{
    bytes a = listed_alone(name, old.at, old.len), b = listed_alone(name, new.at, new.len);
    int same = a.len == b.len && memcmp(a.at, b.at, a.len) == 0;
    free(a.at);
    free(b.at);
    return same;
}

/* ---- words ---- */

static const char *elements(size_t n)
{
    return n == 1 ? "element" : "elements";
}

/* The label that the next print line prints, with n others before and behind the line's own element, which would be the k-th. */
static void tell_label(size_t label, size_t k, size_t n, int old, int new)
{
    if (old && new)
        fprintf(stderr, "label %zu: element %zu changed", label, k);
    else if (old && n != 0)
        fprintf(stderr, "label %zu: element %zu is gone, %zu %s left", label, k, n, n == 1 ? "is" : "are");
    else if (old)
        fprintf(stderr, "label %zu is gone with its only element", label);
    else if (n != 0)
        fprintf(stderr, "label %zu: element %zu is new, there are %zu now", label, k, n + 1);
    else
        fprintf(stderr, "label %zu is new, with one element", label);
    fputs("; all other labels keep their frames\n", stderr);
}

/* The same of what is pending at the end. */
static void tell_end(size_t n, int old, int new)
{
    if (old && new)
        fprintf(stderr, "one of the %zu %s pending at the end changed", n + 1, elements(n + 1));
    else
        fprintf(stderr, "%zu %s pending at the end, %zu before", n + (size_t)new, elements(n + (size_t)new), n + (size_t)old);
    fputs("; every label keeps its frames\n", stderr);
}

/* ---- the file ---- */

/* A refusal of what is not covered. */
static int decline(const char *name, const char *line, const char *why)
{
    put_complaint(name);
    fprintf(stderr, "line %s: %s\n", line, why);
    return 1;
}

/* The walk's refusal of a whole file, or an answer of another kind. */
static laddertick_answer walk_file(bytes input)
{
    laddertick_walk walk = laddertick_start();
    for (;;) {
        laddertick_answer a = laddertick_step(input.at, input.len, walk);
        if (a.kind == LADDERTICK_END || a.kind == LADDERTICK_REFUSED)
            return a;
        walk = a.next;
    }
}

/* Why the line at a place, or the text for it, is not covered, or NULL. */
static const char *why_not(const char *name, bytes input, size_t place, bytes text, char words[], size_t most)
{
    size_t at = 0, end = end_of_line(input, place);
    while (at < place)
        at = past_unit(input, at);
    if (at != place)
        return "it begins inside a graphic block and is no command line";
    if (opens_graphic(input, place))
        return "it is a graphic block and no command line";
    if (memchr(text.at, '\n', text.len) != NULL)
        return "the new text has an LF: one line is replaced by one line";
    if (opens_graphic(text, 0))
        return "the new text opens a graphic block and is no command line";
    if (text.len == 0 && end == input.len)
        return "the new text is empty, and no LF ends the line: no line would be left";
    if (end - place == LADDERTICK_LONGEST)
        return "it is as long as a file may be, and the library cannot be asked what it is";
    int role = role_of(name, input.at + place, end - place);
    if (role > YIELDS) {
        snprintf(words, most, "it is %s", CALLED[role]);
        return words;
    }
    role = role_of(name, text.at, text.len);
    if (role > YIELDS) {
        snprintf(words, most, "the new text is %s", CALLED[role]);
        return words;
    }
    return NULL;
}

/* The input with the text in place of its bytes from `place` up to `end`. */
static bytes replaced(const char *name, bytes input, size_t place, size_t end, bytes text)
{
    bytes out = {room(name, input.len - (end - place) + text.len), input.len - (end - place) + text.len};
    memcpy(out.at, input.at, place);
    memcpy(out.at + place, text.at, text.len);
    memcpy(out.at + place + text.len, input.at + end, input.len - end);
    return out;
}

/* What the change is, in words, of two accepted files. */
static void tell_change(const char *name, bytes input, size_t place, size_t end, bytes text)
{
    bytes line = {input.at + place, end - place};
    int old = role_of(name, line.at, line.len) == YIELDS, new = role_of(name, text.at, text.len) == YIELDS;
    front f = walk_front(input, place);
    size_t between;
    uint8_t next = walk_back(input, end + (end < input.len), f.there, &between);
    size_t others = f.there.pending + between;
    put_complaint(name);
    if (!old && !new)
        fputs("neither line yields an element; every frame stays\n", stderr);
    else if (next == LADDERTICK_CLEAR)
        fputs("an N behind the line drops what it yields; every frame stays\n", stderr);
    else if (old && new && same_frame(name, line, text))
        fputs("both lines yield the same element; every frame stays\n", stderr);
    else if (next == LADDERTICK_PRINT)
        tell_label(f.labels + 1, f.there.pending + 1, others, old, new);
    else
        tell_end(others, old, new);
}

/* The number of a line, from 1, or 0. */
static size_t number_of(const char *word)
{
    size_t n = 0;
    for (; *word >= '0' && *word <= '9' && n < SIZE_MAX / 10 - 1; word++)
        n = 10 * n + (size_t)(*word - '0');
    return *word == 0 ? n : 0;
}

/* The text for a line that ends where the input's line at `end` does: with the carriage return that stands there. The caller frees it. */
static bytes with_return(const char *name, bytes input, size_t place, size_t end, const char *word)
{
    size_t n = strlen(word);
    bytes text = {room(name, n + 1), n};
    memcpy(text.at, word, n);
    if (end > place && input.at[end - 1] == '\r' && (n == 0 || word[n - 1] != '\r'))
        text.at[text.len++] = '\r';
    return text;
}

/* Writes the file with the text in its line at a place, and tells what changed; or refuses. */
static int replace_at(const char *name, bytes input, const char *number, size_t place, bytes text)
{
    char words[80];
    const char *why = why_not(name, input, place, text, words, sizeof words);
    if (why != NULL)
        return decline(name, number, why);
    size_t end = end_of_line(input, place);
    bytes out = replaced(name, input, place, end, text);
    laddertick_answer a = walk_file(out);
    int status;
    if (a.kind == LADDERTICK_REFUSED) {
        decline(name, number, "with the new text the file is refused");
        status = refuse(name, out, a.number, a.place);
    } else {
        fwrite(out.at, 1, out.len, stdout);
        /* The file is out before the words. */
        status = flushed(0);
        if (status == 0)
            tell_change(name, input, place, end, text);
    }
    free(out.at);
    return status;
}

static int replace(const char *name, bytes input, const char *number, const char *word)
{
    laddertick_answer a = walk_file(input);
    if (a.kind == LADDERTICK_REFUSED)
        return refuse(name, input, a.number, a.place);
    size_t lines, place = place_of_line(input, number_of(number), &lines);
    if (place == SIZE_MAX) {
        char words[80];
        snprintf(words, sizeof words, "the file has %zu %s", lines, lines == 1 ? "line" : "lines");
        return decline(name, number, words);
    }
    bytes text = with_return(name, input, place, end_of_line(input, place), word);
    int status = replace_at(name, input, number, place, text);
    free(text.at);
    return status;
}

int main(int argc, char **argv)
{
    if (argc != 4 || number_of(argv[2]) == 0) {
        fputs("usage: replace FILE LINE TEXT (lines are counted from 1)\n", stderr);
        return 2;
    }
    bytes input = read_file(argv[1]);
    int status = replace(argv[1], input, argv[2], argv[3]);
    free(input.at);
    return status;
}
