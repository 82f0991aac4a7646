/* An element in words, in columns, or as JSON. */
#ifndef WORDS_H
#define WORDS_H

#include <inttypes.h>
#include <stdarg.h>

#include "file.h"

static const char *const KINDS[] = {
    "",       "text",     "box",     "diagonal", "graphic", "Code 128",    "EAN-13", "EAN-8",    "UPC-A",
    "2 of 5", "Code 39",  "PDF417",  "Aztec",    "Data Matrix", "QR",      "MaxiCode", "UPC-E",
};

static const char *const MODES[] = {"", "UCC", "automatic", "EAN"};

static const char *const COLOURS[] = {"", "white", "exclusive-OR"};

/* Where an element stands: it is number n of its label and begins in this line. */
typedef struct standing {
    size_t n, line;
} standing;

/* ---- columns ---- */

/* How wide the columns are that stand before the words of an element: its number, line, kind and position. */
typedef struct columns {
    int n, line, kind, at;
} columns;

static inline int wider(int width, int other)
{
    return width > other ? width : other;
}

static inline int digits(size_t number)
{
    return snprintf(NULL, 0, "%zu", number);
}

/* The columns with room for one element more. */
static inline columns with_element(columns c, laddertick_element e, standing s)
{
    c.n = wider(wider(c.n, 2), digits(s.n));
    c.line = wider(c.line, digits(s.line));
    c.kind = wider(c.kind, (int)strlen(KINDS[e.kind]));
    c.at = wider(c.at, snprintf(NULL, 0, "%" PRId32 ",%" PRId32, e.x, e.y));
    return c;
}

/* ---- words ---- */

/* One more of the words of an element, behind a comma but for the first. */
static inline void put_item(int *items, const char *format, ...)
{
    va_list more;
    if ((*items)++)
        fputs(", ", stdout);
    va_start(more, format);
    vprintf(format, more);
    va_end(more);
}

/* The bars of a 1D bar code. */
static inline void put_bars(int *items, laddertick_element e)
{
    put_item(items, "narrow %" PRId32, e.width);
    put_item(items, "height %" PRId32, e.height);
    if (e.kind == LADDERTICK_CODE_128)
        put_item(items, "mode %s", MODES[e.mode]);
    if (e.kind == LADDERTICK_2_OF_5 || e.kind == LADDERTICK_CODE_39) {
        put_item(items, "wide %" PRId32, e.wide);
        put_item(items, "ratio %.17g", e.ratio);
        if (e.check)
            put_item(items, "check digit");
    }
    if (e.line)
        put_item(items, "with text below");
}

/* What its kind has beside position and data. */
static inline void put_items(laddertick_element e)
{
    int items = 0;
    if (e.rotation != 0)
        put_item(&items, "turned %d", 90 * e.rotation);
    switch (e.kind) {
    case LADDERTICK_TEXT:
        put_item(&items, "font %" PRId32 ", %" PRId32 " by %" PRId32, e.font, e.horizontal, e.vertical);
        put_item(&items, "height %.17g, width %.17g", e.text_height, e.text_width);
        if (e.reverse)
            put_item(&items, "white on black");
        break;
    case LADDERTICK_BOX:
    case LADDERTICK_DIAGONAL:
        put_item(&items, "%" PRId32 " by %" PRId32 ", thickness %" PRId32, e.width, e.height, e.thickness);
        if (e.colour != 0)
            put_item(&items, "%s", COLOURS[e.colour]);
        if (e.kind == LADDERTICK_DIAGONAL && e.width != 0 && e.height != 0)
            put_item(&items, e.direction ? "falling" : "rising");
        break;
    case LADDERTICK_GRAPHIC:
        put_item(&items, "%" PRId32 " bytes a row, %zu bytes", e.row_bytes, e.data_len);
        break;
    case LADDERTICK_PDF417:
        put_item(&items, "row height %" PRId32 ", security %" PRId32, e.height, e.security);
        put_item(&items, "columns %" PRId32 ", rows %" PRId32 ", module %" PRId32, e.columns, e.rows, e.width);
        if (e.truncate)
            put_item(&items, "truncated");
        break;
    case LADDERTICK_AZTEC:
        put_item(&items, "magnification %" PRId32 ", size %" PRId32, e.magnification, e.size);
        break;
    case LADDERTICK_DATA_MATRIX:
        put_item(&items, "module %" PRId32 ", columns %" PRId32 ", rows %" PRId32, e.height, e.columns, e.rows);
        break;
    case LADDERTICK_QR:
        put_item(&items, "magnification %" PRId32 ", level %c", e.magnification, e.level);
        break;
    case LADDERTICK_MAXICODE:
        put_item(&items, "mode %" PRId32, e.mode);
        break;
    default:
        put_bars(&items, e);
    }
}

/* One line for an element. */
static inline void explain(bytes input, laddertick_element e, standing s, columns c)
{
    int at = printf("  %*zu. line %*zu  %-*s  at ", c.n, s.n, c.line, s.line, c.kind, KINDS[e.kind]);
    at = at < 0 ? 0 : printf("%" PRId32 ",%" PRId32, e.x, e.y);
    printf("%*s  ", wider(c.at - at, 0), "");
    put_items(e);
    if (e.kind != LADDERTICK_GRAPHIC && e.data_len != 0) {
        fputs(": ", stdout);
        put_quoted(stdout, input, e.data_start, e.data_len, SIZE_MAX);
    }
    putchar('\n');
}

/* ---- JSON ---- */

/* A number that need not be whole; what is no number in JSON is null. */
static inline void json_double(const char *key, double number)
{
    if (number - number == 0)
        printf(",\"%s\":%.17g", key, number);
    else
        printf(",\"%s\":null", key);
}

/* The fields that its kind has, by their names in laddertick.h; but for the `line` of bar codes, which is text_below, since `line` is where the element stands. */
static inline void json_fields(laddertick_element e)
{
    switch (e.kind) {
    case LADDERTICK_TEXT:
        json_number("rotation", e.rotation);
        json_number("font", e.font);
        json_number("horizontal", e.horizontal);
        json_number("vertical", e.vertical);
        json_double("text_height", e.text_height);
        json_double("text_width", e.text_width);
        json_truth("reverse", e.reverse);
        break;
    case LADDERTICK_BOX:
    case LADDERTICK_DIAGONAL:
        json_number("width", e.width);
        json_number("height", e.height);
        json_number("thickness", e.thickness);
        if (e.kind == LADDERTICK_BOX)
            json_number("colour", e.colour);
        else
            json_number("direction", e.direction);
        break;
    case LADDERTICK_GRAPHIC:
        json_number("row_bytes", e.row_bytes);
        break;
    case LADDERTICK_PDF417:
        json_number("rotation", e.rotation);
        json_number("height", e.height);
        json_number("security", e.security);
        json_number("columns", e.columns);
        json_number("rows", e.rows);
        json_number("width", e.width);
        json_truth("truncate", e.truncate);
        break;
    case LADDERTICK_AZTEC:
        json_number("magnification", e.magnification);
        json_number("size", e.size);
        break;
    case LADDERTICK_DATA_MATRIX:
        json_number("height", e.height);
        json_number("columns", e.columns);
        json_number("rows", e.rows);
        break;
    case LADDERTICK_QR:
        json_number("magnification", e.magnification);
        printf(",\"level\":\"%c\"", e.level);
        break;
    case LADDERTICK_MAXICODE:
        json_number("mode", e.mode);
        break;
    default:
        json_number("rotation", e.rotation);
        json_number("width", e.width);
        json_number("height", e.height);
        if (e.kind == LADDERTICK_CODE_128)
            json_number("mode", e.mode);
        if (e.kind == LADDERTICK_2_OF_5 || e.kind == LADDERTICK_CODE_39) {
            json_number("wide", e.wide);
            json_double("ratio", e.ratio);
            json_truth("check", e.check);
        }
        json_truth("text_below", e.line);
    }
}

/* An object for an element. The dots of a graphic are no text, whatever they are. */
static inline void json_element(const char *name, bytes input, size_t label, laddertick_element e, standing s)
{
    json_open(name, "element");
    json_number("label", (long long)label);
    json_number("element", (long long)s.n);
    json_number("line", (long long)s.line);
    json_words("kind", KINDS[e.kind]);
    json_number("x", e.x);
    json_number("y", e.y);
    json_fields(e);
    if (e.kind == LADDERTICK_GRAPHIC)
        json_hex("data", input.at + e.data_start, e.data_len);
    else if (e.kind != LADDERTICK_BOX && e.kind != LADDERTICK_DIAGONAL)
        json_bytes("data", asked.page, input.at + e.data_start, e.data_len);
    json_close();
}

#endif
