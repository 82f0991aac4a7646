/*
 * The numbers of refusals (laddertick.h) in words, as a list; laddertick_meaning gives one of them. In C:
 *
 *     #define ENTRY(number, words) [number] = words,
 *     static const char *const MESSAGES[] = {LADDERTICK_MESSAGES(ENTRY)};
 *
 * Hosts in other languages read the lines that begin with X( as they stand: one line an entry, and neither quotes nor backslashes inside the words.
 */
#ifndef LADDERTICK_MESSAGES_H
#define LADDERTICK_MESSAGES_H

/* clang-format off */
/* refusals.txt writes these lines by tools/tables/run: refusals: begin */
#define LADDERTICK_MESSAGES(X) \
    X(1, "a text (A) needs 7 fields before its data, the last not empty: x, y, rotation, font, two multipliers, reverse") \
    X(2, "a bar code (B) needs 8 fields before its data, the last not empty: x, y, rotation, type, narrow, wide, height, line") \
    X(3, "a 2D bar code (b) needs 3 fields before its data, the last not empty: x, y, type") \
    X(4, "a line (LO, LW, LE) needs 4 fields: x, y, width, height") \
    X(5, "a diagonal (LS) needs 5 fields: x, y, thickness, x, y") \
    X(6, "a box (X) needs 5 fields: x, y, thickness, x, y") \
    X(7, "no such type of bar code (B)") \
    X(8, "no such type of 2D bar code (b)") \
    X(9, "more than 9,999 bytes of QR data") \
    X(10, "a graphic (GW) needs four fields, each closed by a comma: x, y, bytes a row, rows") \
    X(11, "a graphic (GW) of negative size") \
    X(12, "the graphic's data passes the end of the file") \
    X(13, "a position outside 32 bits, the reference point added") \
    X(14, "more than 16,777,216 bytes") \
    X(15, "the buffer is too short") \
    X(16, "a walk whose place is past the end or whose pending count is above its place, or an entry whose last place is past the end or before its first") \
    X(17, "a field holds no value, which the well-site profile asks for") \
    X(18, "a value outside the well-site profile") \
    X(19, "a size outside 32 bits: of a diagonal, a box or a text") \
    X(20, "more labels than the list has entries") \
    X(21, "no such label") \
    X(22, "the far corner is below the near one") \
    X(23, "an element that no line or block says by itself") \
    X(24, "a label with a graphic, which cannot be set for another resolution") \
    X(25, "a joined text of more than 16,777,216 bytes")
/* refusals: end */
/* clang-format on */

#endif
