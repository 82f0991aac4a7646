/* A host of the installed library, in C: what tools/install/run compiles and runs below a prefix, beside host.cpp and host.rs, which print the same. */
#include <laddertick.h>
#include <stdio.h>
#include <string.h>

#if LADDERTICK_VERSION_NUMBER != 10000 * LADDERTICK_VERSION_MAJOR + 100 * LADDERTICK_VERSION_MINOR + LADDERTICK_VERSION_PATCH
#error "the number of the version is not that of its parts"
#endif

#define FILE_TEXT "R10,20\nLO5,6,30,4\nA5,40,0,2,1,1,N,\"Bag 7\"\nP2,3\n"
static const char file[] = FILE_TEXT, refused[] = "N\nB0,0,0,1D,2,2,9,B,\"x\"\n";

enum { LEN = sizeof file - 1 };

/* The file's label with another text: its elements are walked, one is changed, and what is written is read again. For 300 dots an inch it is converted first. */
static int write_again(const uint8_t *input)
{
    static const char text[] = FILE_TEXT "Bag 8";
    const uint8_t *both = (const uint8_t *)text;
    laddertick_element elements[2], wide;
    laddertick_element_300 at_300[2];
    laddertick_entry entry;
    uint8_t out[96];
    laddertick_answer a = laddertick_step(input, LEN, laddertick_start());
    laddertick_written w;
    laddertick_label l;
    wide = elements[0] = a.element;
    elements[1] = laddertick_step(input, LEN, a.next).element;
    elements[1].data_start = LEN;
    w = laddertick_write(both, LEN + 5, elements[1], out, sizeof out);
    printf("write %.*s", (int)w.place, (char *)out);
    w = laddertick_write_label(both, LEN + 5, elements, 2, 2, 3, out, sizeof out);
    printf("write_label %d bytes, read again %d\n", (int)w.place, (int)laddertick_list(out, w.place, NULL, 0).place);
    laddertick_index(input, LEN, &entry, 1);
    l = laddertick_to_300(input, LEN, &entry, 1, 0, at_300, 2);
    w = laddertick_write_label_300(input, LEN, at_300, l.place, l.sets, l.copies, out, sizeof out);
    printf("write_label_300 %.*s", (int)w.place, (char *)out);
    wide.width = -1;
    w = laddertick_write(input, LEN, wide, out, sizeof out);
    printf("refused %d at %d: %s\n", (int)w.number, (int)w.place, laddertick_meaning(w.number));
    return w.number != LADDERTICK_NOT_READABLE;
}

int main(void)
{
    static uint8_t out[LADDERTICK_LIST_ROOM(LEN)], text[LADDERTICK_NORMALISE_ROOM(LEN)], joined[LADDERTICK_JOIN_ROOM(LEN, LEN)];
    const uint8_t *input = (const uint8_t *)file;
    laddertick_walk walk = laddertick_start();
    laddertick_answer a;
    if (strcmp(laddertick_version(), LADDERTICK_VERSION) != 0)
        return 1;
    printf("version %s\n", laddertick_version());
    do {
        a = laddertick_step(input, LEN, walk);
        if (a.kind == LADDERTICK_TEXT)
            printf("text at %d,%d: %.*s\n", (int)a.element.x, (int)a.element.y, (int)a.element.data_len, file + a.element.data_start);
        else if (a.kind == LADDERTICK_PRINT)
            printf("label: %d elements, %d sets, %d copies\n", (int)a.count, (int)a.sets, (int)a.copies);
        walk = a.next;
    } while (a.kind != LADDERTICK_END && a.kind != LADDERTICK_REFUSED);
    printf("list %d, normalise %d, join %d bytes\n", (int)laddertick_list(input, LEN, out, sizeof out).place,
           (int)laddertick_normalise(input, LEN, text, sizeof text).place, (int)laddertick_join(input, LEN, input, LEN, joined, sizeof joined).place);
    a = laddertick_step((const uint8_t *)refused, sizeof refused - 1, (laddertick_walk){0, 0, 0, 2});
    printf("refused %d at %d: %s\n", (int)a.number, (int)a.place, laddertick_meaning(a.number));
    return write_again(input) || strcmp(laddertick_meaning(0), "no refusal") != 0 || strcmp(laddertick_meaning(256), "unknown") != 0 || !LADDERTICK_IS_OF_LINE(a.number) ||
           LADDERTICK_IS_OF_LINE(LADDERTICK_OUTPUT_TOO_SHORT);
}
