/*
 * Laddertick: reads, normalises and writes EPL label files.
 *
 * Link libladdertick, static or shared: `make install` puts it in place, and `pkg-config --cflags --libs laddertick` says how. It is for x86-64 (README.md says why). It needs no
 * other library, keeps no state, takes no heap and calls nothing: every function may be called from any thread at any time, also on the same input at once. A call
 * needs less than LADDERTICK_STACK bytes of stack.
 *
 * All functions are proved but laddertick_version and laddertick_meaning. These two are a small file of C, a member of its own in the static library, which is linked only where
 * one of them is called; what `./laddertick build` makes of the proved crates (target/staticlib/libladdertick_c.a) has all others.
 *
 * What you lend stays yours. A function reads `input` and `elements` and writes `out`, `entries` and `list` only between their ends and only until it returns; it keeps no pointer. What
 * is lent to one call must not overlap, and nobody may write the input during a call or while a walk over it lasts. Where a length is 0 any pointer will do, NULL too.
 *
 * Nothing else is asked of you. Any bytes, any lengths, any walk state, any entry and any element, however made, are answered or refused; a refused call leaves what it writes as it came.
 * For what is proved of each function, and what is assumed, see docs/CONTRACTS.md.
 *
 * A file is at most LADDERTICK_LONGEST bytes.
 */
#ifndef LADDERTICK_H
#define LADDERTICK_H

#include <stddef.h>
#include <stdint.h>

#ifdef __cplusplus
extern "C" {
#endif

/* The version of this header; LADDERTICK_VERSION_NUMBER is for #if, 10203 for 1.2.3. Within one major version a program that was linked with the shared object works with every
   later one: functions and numbers of refusals are added, and none is changed or taken away.
   VERSION writes these lines by tools/tables/run: version: begin */
#define LADDERTICK_VERSION "1.0.0"
#define LADDERTICK_VERSION_MAJOR 1
#define LADDERTICK_VERSION_MINOR 0
#define LADDERTICK_VERSION_PATCH 0
#define LADDERTICK_VERSION_NUMBER 10000
/* version: end */

/* The version of the library that is linked, as LADDERTICK_VERSION has it: of a shared object it may be a later one. */
const char *laddertick_version(void);

/* "inputs up to 16,777,216 bytes": a longer one is refused 14. */
#define LADDERTICK_LONGEST 16777216

/* The stack that a call may take, with all that it calls. */
#define LADDERTICK_STACK 4096

/* Numbers of refusals, and their place. refusals.txt writes these lines by tools/tables/run: refusals: begin */
enum {
    /* The author of the label; the place is the first byte of the refused line, its blanks included: */
    LADDERTICK_TEXT_FIELDS = 1,        /* A with fewer than 7 fields before its data; empty fields right before the data are not counted */
    LADDERTICK_BARCODE_FIELDS = 2,     /* B with fewer than 8, counted alike */
    LADDERTICK_BARCODE_2D_FIELDS = 3,  /* b with fewer than 3, counted alike */
    LADDERTICK_LINE_FIELDS = 4,        /* LO, LW or LE with fewer than 4 fields */
    LADDERTICK_DIAGONAL_FIELDS = 5,    /* LS with fewer than 5 */
    LADDERTICK_BOX_FIELDS = 6,         /* X with fewer than 5 */
    LADDERTICK_BARCODE_TYPE = 7,       /* B with a type that is not listed */
    LADDERTICK_BARCODE_2D_TYPE = 8,    /* b with a type that is not listed */
    LADDERTICK_QR_DATA = 9,            /* QR data of more than 9,999 bytes, counted after decoding */
    /* The sender of the graphic; the place is the first byte of the refused line, its blanks included: */
    LADDERTICK_GRAPHIC_FIELDS = 10,    /* GW with fewer than four commas on its line */
    LADDERTICK_GRAPHIC_NEGATIVE = 11,  /* GW with a negative width or number of lines */
    LADDERTICK_GRAPHIC_TRUNCATED = 12, /* GW whose data passes the end of the input */
    /* The author of the label; the place is the first byte of the refused line, its blanks included: */
    LADDERTICK_OUT_OF_RANGE = 13,      /* a position outside 32 bits, the reference point added, or converted to 300 dots an inch */
    /* The host; the place is 0: */
    LADDERTICK_INPUT_TOO_LONG = 14,    /* input of more than 16,777,216 bytes; in the programs list and normalise of more than 65,536 */
    /* The host; the place is the length that is needed: */
    LADDERTICK_OUTPUT_TOO_SHORT = 15,  /* output longer than its buffer */
    /* The host; the place is the walk's place, or the entry's last place, as given: */
    LADDERTICK_STATE_OUTSIDE = 16,     /* a walk whose place is past the end, or whose pending count is above its place; or an entry, when its label is opened, whose last place is past the end or before its first */
    /* The author of the label, by the well-site profile alone; the place is the first byte of the refused line, its blanks included: */
    LADDERTICK_NO_VALUE = 17,          /* a number field that holds no value: it is empty, no number, or a number beyond 32 bits */
    LADDERTICK_OUTSIDE_PROFILE = 18,   /* a value that the profile does not allow */
    /* The author of the label; the place is the first byte of the refused line, its blanks included: */
    LADDERTICK_SIZE_OUT_OF_RANGE = 19, /* a difference of two corners, its absolute value, a font product or a length converted to 300 dots an inch outside 32 bits; directly after 13 */
    /* The host; the place is the label count: */
    LADDERTICK_TOO_MANY_LABELS = 20,   /* more labels than entries are lent to the index */
    /* The host; the place is the number: */
    LADDERTICK_NO_SUCH_LABEL = 21,     /* a number past the list, or an entry that yields no label, when it is opened */
    /* The host; the place is 0: */
    LADDERTICK_RECTANGLE_TURNED = 22,  /* a rectangle whose far corner is below its near one on either axis */
    /* The host; the place is its number in the label, 0 if alone: */
    LADDERTICK_NOT_READABLE = 23,      /* an element that no single line or block, read at reference 0,0, yields, when it is written */
    /* The author of the label, in a conversion to 300 dots an inch alone; the place is the first byte of the refused line, its blanks included: */
    LADDERTICK_GRAPHIC_IN_LABEL = 24,  /* a label with a graphic; the line is that of its first block */
    /* The host; the place is the joined length: */
    LADDERTICK_JOINED_TOO_LONG = 25    /* two files whose joined text has more than 16,777,216 bytes */
};

/* Whether the place of a refusal is the first byte of a line. */
#define LADDERTICK_IS_OF_LINE(number) (((number) >= 1 && (number) <= 13) || ((number) >= 17 && (number) <= 19) || (number) == 24)
/* refusals: end */

/* What the number of a refusal means, in words that an operator can be told; of 0 "no refusal", of a number that there is not "unknown". The text is constant and stays.
   laddertick_messages.h has all of them as a list, for hosts that want them without a call. */
const char *laddertick_meaning(uint32_t number);

/* ---- how many bytes are always enough ---- */

/* To lend to laddertick_data for len bytes of text, to laddertick_list, laddertick_strict_list and laddertick_normalise for a file of n bytes, to laddertick_join for files
   of n and m: with so many no call is refused 15. For lengths up to LADDERTICK_LONGEST; constant where they are. */
#define LADDERTICK_DATA_ROOM(len) (3 * (len))
#define LADDERTICK_LIST_ROOM(n) (16 * (n))
#define LADDERTICK_NORMALISE_ROOM(n) ((n) + (n) / 6 + 1)
#define LADDERTICK_JOIN_ROOM(n, m) (LADDERTICK_NORMALISE_ROOM(n) + 2 + LADDERTICK_NORMALISE_ROOM(m))

/* ---- a file, a step at a time ---- */

/* Where a walk stands. Start with laddertick_start(), then hand on what each answer has as `next`. */
typedef struct laddertick_walk {
    int32_t x; /* the reference point, as the last R or N set it */
    int32_t y;
    size_t pending; /* elements since the last clear or print */
    size_t place;   /* the first byte that is not yet read */
} laddertick_walk;

/* What an answer is. 1 to 16 are elements: of the label that is being drawn, in file order. */
enum {
    LADDERTICK_PRINT = 0, /* the pending elements are a label: `count`, `sets`, `copies` */
    LADDERTICK_TEXT = 1,
    LADDERTICK_BOX = 2, /* lines are boxes */
    LADDERTICK_DIAGONAL = 3,
    LADDERTICK_GRAPHIC = 4,
    LADDERTICK_CODE_128 = 5,
    LADDERTICK_EAN_13 = 6,
    LADDERTICK_EAN_8 = 7,
    LADDERTICK_UPC_A = 8,
    LADDERTICK_2_OF_5 = 9,
    LADDERTICK_CODE_39 = 10,
    LADDERTICK_PDF417 = 11,
    LADDERTICK_AZTEC = 12,
    LADDERTICK_DATA_MATRIX = 13,
    LADDERTICK_QR = 14,
    LADDERTICK_MAXICODE = 15,
    LADDERTICK_UPC_E = 16,
    LADDERTICK_CLEAR = 17,   /* the pending elements are dropped */
    LADDERTICK_END = 18,     /* no bytes are left; it is answered again and again. `next.pending` elements are behind the last print line or clear: no label */
    LADDERTICK_REFUSED = 255 /* `number` and `place`; `next` is the walk as you gave it */
};

/* What a command draws. A field that its kind does not name is 0. Positions and sizes are in dots. */
typedef struct laddertick_element {
    uint8_t kind;      /* 1 to 16; 0 where an answer has no element */
    uint8_t rotation;  /* text, 1D bar codes, PDF417: quarter turns as the file says them, 0 to 3 */
    uint8_t reverse;   /* text: 1 white on black */
    uint8_t colour;    /* box: 0 black, 1 white, 2 exclusive-OR */
    uint8_t direction; /* diagonal: 1 from top left to bottom right, or a point; 0 from bottom left to top right, or horizontal, or vertical */
    uint8_t line;      /* 1D bar codes: 1 with the line of text below */
    uint8_t check;     /* 2 of 5, Code 39: 1 with a check digit */
    uint8_t truncate;  /* PDF417: 1 truncated */
    uint8_t level;     /* QR: the letter of its error correction, 'H', 'Q', 'M' or 'L' */
    int32_t x;         /* every element: the position, the reference added */
    int32_t y;
    int32_t width;         /* box, diagonal: width; 1D bar codes: of the narrow bar; PDF417: of a module */
    int32_t height;        /* box, diagonal, 1D bar codes: height; PDF417: of a row; Data Matrix: of a module */
    int32_t thickness;     /* box, diagonal */
    int32_t row_bytes;     /* graphic: bytes a row. It may be 0, and data_len then is 0: test it before you divide by it for the rows */
    int32_t security;      /* PDF417: its level, 1 to 8, or -1 where the encoder chooses */
    int32_t columns;       /* PDF417, Data Matrix: as the file says, any number; 0 where the encoder chooses */
    int32_t rows;          /* PDF417, Data Matrix: the same */
    int32_t magnification; /* Aztec 1 to 55, QR 1 to 100 */
    int32_t size;          /* Aztec: the file's number, which says error correction or layers; 0 where the encoder chooses */
    int32_t mode;          /* Code 128: 1 UCC, 2 automatic, 3 EAN; MaxiCode: 2, 3, 4 or 6 */
    int32_t font;          /* text: the font's number as the file says, any number, 1 where it says none; all but 2 to 5 have the cell of font 1 */
    int32_t horizontal;    /* text: the multipliers, at least 1 */
    int32_t vertical;
    int32_t wide;       /* 2 of 5, Code 39: the wide bar as the file says, any number, 2 where it says none */
    double text_height; /* text: the cell's height and width, which are those of its font and multipliers */
    double text_width;
    double ratio;      /* 2 of 5, Code 39: wide bar to narrow bar, at least 2 */
    size_t data_start; /* text, graphic, bar codes: where the data stands in the input, always inside it, and its bytes there. A graphic's are its dots, row by row, as the */
    size_t data_len;   /* file has them (the Rust that this is a port of draws a 1 bit black); all others are text that laddertick_data decodes */
} laddertick_element;

/* An answer. A field that its kind does not name is 0. */
typedef struct laddertick_answer {
    uint8_t kind;
    uint8_t number;             /* refusal: its number */
    size_t place;               /* refusal: its place */
    size_t count;               /* print: how many elements */
    int32_t sets;               /* print: label sets and copies of each label, as the print line says them, 0 or more; each 1 where the line has none or it is */
    int32_t copies;             /* beyond 32 bits */
    laddertick_walk next;       /* for the next step */
    laddertick_element element; /* an element, of the same kind; of any other answer every field of it is 0 */
} laddertick_answer;

/* The walk before the first byte: place 0, reference 0,0, nothing pending. */
laddertick_walk laddertick_start(void);

/* The next element, clear, print, end or refusal. Lines that say none of these are passed. The end prints nothing: where `next.pending` is not 0 then, the file
   lacks the print line of its last elements, as one that was sent by halves does, and an operator should learn of it.
   Refusals: 1 to 14, 16 and 19. A loop stops at LADDERTICK_END and at LADDERTICK_REFUSED: the next step from there answers the same again. */
laddertick_answer laddertick_step(const uint8_t *input, size_t input_len, laddertick_walk walk);

/* ---- functions that write ---- */

/* number 0: `place` bytes are written, from the start of out; bytes past them keep their values. Else a refusal, and out is as it came. To learn the length
   that is needed lend 0 bytes: 15 gives it (or 0 bytes are written, where none are needed). */
typedef struct laddertick_written {
    uint32_t number;
    size_t place;
} laddertick_written;

/* The text of len bytes at start of the input (as far as it goes), decoded: UTF-8 as it stands, ef bf bd for what is none. LADDERTICK_DATA_ROOM(len) bytes are always enough.
   Refusals: 14, 15. */
laddertick_written laddertick_data(const uint8_t *input, size_t input_len, size_t start, size_t len, uint8_t *out, size_t out_len);

/* The labels of a file as frames, one a line in hexadecimal (docs/FRAMES.md); behind them frame fe, if elements are pending at the end. The whole file is read
   before anything is written. LADDERTICK_LIST_ROOM(n) bytes are always enough for n. Refusals: 1 to 15 and 19. */
laddertick_written laddertick_list(const uint8_t *input, size_t input_len, uint8_t *out, size_t out_len);

/* The file with blanks and empty lines taken away and graphics copied whole. LADDERTICK_NORMALISE_ROOM(n) bytes are always enough for n.
   Refusals: 14, 15. */
laddertick_written laddertick_normalise(const uint8_t *input, size_t input_len, uint8_t *out, size_t out_len);

/* ---- the well-site profile: a strict reading, for files typed by hand ---- */

/* Every number field that has a default must hold a value: of A x, y, rotation, font and both multipliers; of B x, y, rotation, narrow, wide and height; of b x
   and y; all of LO, LW, LE, LS, X and GW; of R x, and y where there is a comma. Rotation is 0 to 3, font 1 to 5, horizontal multiplier 1 to 6 or 8, vertical 1 to 9,
   the width of GW at least 1, as the file says them. What nothing is read from is not looked at. Within a line 17 and 18 come after the field count (of GW after 12)
   and before all else, first field first.

   A file that the profile accepts is accepted by laddertick_step with the same labels and as many elements pending at the end, and a refusal other than 17 and 18 is
   laddertick_step's own, number and place. So a host that wants steps checks the file first and then walks it plainly: that walk is the strict reading, and no step
   of it is slower for the check. */
typedef struct laddertick_checked {
    uint32_t number; /* 0: accepted, and every other field is 0. Else the number of the refusal */
    uint32_t field;  /* of 17 and 18 the field, counted from 1 (of R everything behind the first comma is field 2); else 0 */
    uint32_t held;   /* of 17 and 18 what it held, as below; else 0 */
    size_t place;    /* of the refusal */
} laddertick_checked;

/* What a field held. */
enum {
    LADDERTICK_HELD_EMPTY = 1,     /* 17: nothing but blanks */
    LADDERTICK_HELD_NO_NUMBER = 2, /* 17: something else than an optional sign and digits */
    LADDERTICK_HELD_BEYOND = 3,    /* 17: a number outside 32 bits */
    LADDERTICK_HELD_OUTSIDE = 4    /* 18: a value outside the profile */
};

/* The profile's verdict on a whole file. Refusals: 1 to 14 and 17 to 19. */
laddertick_checked laddertick_check(const uint8_t *input, size_t input_len);

/* As laddertick_list, under the profile. Refusals: 1 to 15 and 17 to 19. */
laddertick_written laddertick_strict_list(const uint8_t *input, size_t input_len, uint8_t *out, size_t out_len);

/* ---- the label index: one label of a file at a time ---- */

/* Where a label stands. It starts just behind the print line before it, one that printed nothing included, or at 0; N and R start none. */
typedef struct laddertick_entry {
    size_t first; /* its first byte */
    size_t last;  /* just past its own print line */
    size_t count; /* how many elements it has */
    int32_t x;    /* the reference point at `first` */
    int32_t y;
} laddertick_entry;

/* An entry for each label of a file, in print order, from the start of the list. number 0: `place` is the label count, and entries past the last label keep their
   values. Else a refusal, and the list is as it came. To learn the label count lend 0 entries: 20 gives it (or number 0 does, where there are no labels). Elements
   behind the last print line are no label and have no entry. The whole file is read before anything is written.
   Refusals: 14, then that of the file (1 to 13, 19), then 20. */
laddertick_written laddertick_index(const uint8_t *input, size_t input_len, laddertick_entry *entries, size_t entries_len);

/* The lines of the listing for one label, frame 00 and those of its elements, from the start of out: what laddertick_list writes for it, read from its entry alone.
   `entries` is the filled part of the list and `number` counts from 0. Of `entries` only that entry is looked at, and its count is not; of the input only what
   stands from its first place to its print line. So a call costs the label's own bytes, however long the file is. An entry that laddertick_index did not make, or
   made of other bytes, is answered or refused like any other.
   Refusals, in this order: 14; 21 where number is past the list; 16; that of the lines read (1 to 13, 19); 21 where they print no label; 15. */
laddertick_written laddertick_open(const uint8_t *input, size_t input_len, const laddertick_entry *entries, size_t entries_len, size_t number, uint8_t *out,
                                   size_t out_len);

/* One label's elements are walked from its entry, the input cut at the entry's last place. An N inside drops what came before it:

       laddertick_walk walk = {entry.x, entry.y, 0, entry.first};
       laddertick_answer a;
       do {
           a = laddertick_step(input, entry.last, walk);
           if (a.kind >= LADDERTICK_TEXT && a.kind <= LADDERTICK_UPC_E)
               element(a.element);
           else if (a.kind == LADDERTICK_CLEAR)
               drop_elements();
           walk = a.next;
       } while (a.kind != LADDERTICK_PRINT && a.kind != LADDERTICK_END && a.kind != LADDERTICK_REFUSED);

   Of an entry that laddertick_index made of these bytes the last answer is the print, with count, sets and copies. Of any other it may be the end or a refusal, and a host that
   took it from elsewhere looks first whether `last` is within the input. */

/* ---- two files joined ---- */

typedef struct laddertick_joined {
    uint32_t number; /* 0: `place` bytes are written, from the start of out; bytes past them keep their values. Else the number of the refusal, and out is as it came */
    uint32_t file;   /* which file was refused, 1 or 2; 0 where neither was: 15, 25, and number 0 */
    size_t place;    /* of the refusal, in the file that was refused; of 15 and 25 the joined length */
} laddertick_joined;

/* The first file normalised, a line N, the second normalised. Its labels are those of the first followed by those of the second, every frame the same; elements
   pending at the end of the first are dropped by the line N, those of the second are pending at the end. The graphics of both stand in it in order. Both files are
   read whole before anything is written, and may be the same or overlap; neither may overlap out. LADDERTICK_JOIN_ROOM(n, m) bytes are always enough for n and m.
   Refusals: those of laddertick_step for the first file, then those for the second, 14 too; then 25; then 15. */
laddertick_joined laddertick_join(const uint8_t *first, size_t first_len, const uint8_t *second, size_t second_len, uint8_t *out, size_t out_len);

/* ---- what lies where on one label ---- */

/* A closed rectangle: its near corner and its far one. Its edges belong to it. */
typedef struct laddertick_rectangle {
    int32_t x1;
    int32_t y1;
    int32_t x2;
    int32_t y2;
} laddertick_rectangle;

/* The elements of one label whose position lies in a rectangle: their numbers, from 0 in the label and in file order, from the start of the list. Elements that an N
   dropped have none. The label is opened as laddertick_open does it, from `entries` and `number`. number 0: `place` is how many were found, and what stands behind
   them in the list keeps its values. Else a refusal, and the list is as it came; to learn how many there are lend 0 numbers, and 15 gives it.
   Refusals, in this order: 14; 22; those of laddertick_open (21, 16, 1 to 13 and 19, 21); 15, whose place is how many were found. */
laddertick_written laddertick_inside(const uint8_t *input, size_t input_len, const laddertick_entry *entries, size_t entries_len, size_t number, laddertick_rectangle r,
                                     size_t *list, size_t list_len);

/* As laddertick_inside, but the boxes and diagonals whose own closed rectangle, from position to position plus width and height, shares a point with r. Thickness has
   no part in it. A far edge may lie past 32 bits. */
laddertick_written laddertick_touching(const uint8_t *input, size_t input_len, const laddertick_entry *entries, size_t entries_len, size_t number,
                                       laddertick_rectangle r, size_t *list, size_t list_len);

/* The element of one label whose position is nearest to a point, by the larger of the distances along x and y; the earlier one if equal. number 0: `place` is its
   number, from 0. Refusals: those of laddertick_open but 15, in the same order. */
laddertick_written laddertick_nearest(const uint8_t *input, size_t input_len, const laddertick_entry *entries, size_t entries_len, size_t number, int32_t x, int32_t y);

/* ---- from 203 to 300 dots an inch ---- */

/* An element for a printer of 300 dots an inch: the fields of laddertick_element, in a type of its own, so that no element at 203 dots passes for one. */
typedef struct laddertick_element_300 {
    uint8_t kind;
    uint8_t rotation;
    uint8_t reverse;
    uint8_t colour;
    uint8_t direction;
    uint8_t line;
    uint8_t check;
    uint8_t truncate;
    uint8_t level;
    int32_t x;
    int32_t y;
    int32_t width;
    int32_t height;
    int32_t thickness;
    int32_t row_bytes;
    int32_t security;
    int32_t columns;
    int32_t rows;
    int32_t magnification;
    int32_t size;
    int32_t mode;
    int32_t font;
    int32_t horizontal;
    int32_t vertical;
    int32_t wide;
    double text_height;
    double text_width;
    double ratio;
    size_t data_start;
    size_t data_len;
} laddertick_element_300;

/* number 0: `place` elements are written, from the start of the list; elements past them keep their values; sets and copies are those of the label's print. Else
   a refusal, the list is as it came, and sets and copies are 0. To learn how many elements there are lend none: 15 gives it. */
typedef struct laddertick_label {
    uint32_t number;
    size_t place;
    int32_t sets;
    int32_t copies;
} laddertick_label;

/* The elements of one label, set for 203 dots an inch, for 300: x and y, width, height and thickness of boxes and diagonals and the height of 1D bar codes become the
   nearest whole number to 300/203 of the old, and all else stays as it is (fonts and text sizes, narrow and wide bars, modules, row heights, magnifications, data). So
   203 times the new number differs from 300 times the old by at most 101, also below zero, and positions keep their order along each axis. `entries` and `number` are those
   of laddertick_open.
   Refusals, in this order: those of laddertick_open but 15; 24 where the label has a graphic; 13 or 19 where a new number is outside 32 bits (13 of a position, 19 of
   another length), at the first line that has one; 15, the place is the element count. */
laddertick_label laddertick_to_300(const uint8_t *input, size_t input_len, const laddertick_entry *entries, size_t entries_len, size_t number,
                                   laddertick_element_300 *list, size_t list_len);

/* ---- writing EPL ---- */

/* One element as its command and an LF, from the start of out. `element` is one that a step answered, or one that a host made: any bytes may stand in any of its fields.
   Its data is written as it stands in input. number 0: `place` bytes are written, and bytes past them keep their values. Else a refusal, and out is as it came; to learn
   the length lend 0 bytes, and 15 gives it. Read again, what was written yields an equal element, its data compared by bytes, wherever it stands in the text.
   Each element has one spelling (docs/SCOPE.md, "Writing EPL"): a black box is LO where its thickness is the smaller side and both sides are at least 1, else X; Code 128 in mode
   Automatic has type 1.
   Refusals, in this order: 14; 23, place 0, an element that no single line or block, read at reference 0,0, yields, as a box for X whose far corner is outside 32 bits, a
   negative width, data that is empty or outside input, a flag other than 0 and 1, a kind that is none, a field that is none of its kind's and not 0, a size or ratio
   that is not its kind's own; 15. Neither input nor element may overlap out. */
laddertick_written laddertick_write(const uint8_t *input, size_t input_len, laddertick_element element, uint8_t *out, size_t out_len);

/* A label: N, its elements, each as laddertick_write has it, and its print line `Psets,copies`. Read again, the text is one label with equal elements and these counts.
   Refusals, in this order: 14; 23, the place is the number of the first element, from 0, that laddertick_write refuses so; 23, the place is elements_len, a label with no
   element, more than 16,777,216 elements or a negative count; 15. */
laddertick_written laddertick_write_label(const uint8_t *input, size_t input_len, const laddertick_element *elements, size_t elements_len, int32_t sets, int32_t copies,
                                          uint8_t *out, size_t out_len);

/* The same of a label for 300 dots an inch, as laddertick_to_300 makes it: the numbers written are the new printer's dots. */
laddertick_written laddertick_write_label_300(const uint8_t *input, size_t input_len, const laddertick_element_300 *elements, size_t elements_len, int32_t sets,
                                              int32_t copies, uint8_t *out, size_t out_len);

#ifdef __cplusplus
}
#endif

#endif
