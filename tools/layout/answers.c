/*
 * One step over each kind of answer, with values that are all different, and every field of the answer by its name: a number that came back in another's
 * place would be seen. The values are 01's for the line (docs/FRAMES.md); a field that is not named here must be 0. Then the calls that write, the same elements lent
 * to be written, with each of their fields changed, and what a host may lend at its barest.
 */
#include <stdio.h>
#include <string.h>

#include "laddertick.h"
#include "layout.h" /* made by tools/layout/run: the assertions on the structs, and their fields' names */

/* Two elements are pending at place 29, reference 100,200. */
#define BEFORE "R100,200\nLO1,1,1,1\nLO1,1,1,1\n"
static const laddertick_walk THERE = {100, 200, 2, 29};
/* The answer of an element of kind k that ends n bytes further on, with these fields. */
#define ELEMENT(k, n, ...) {.kind = k, .next = {100, 200, 3, 29 + (n)}, .element = {.kind = k, __VA_ARGS__}}

typedef struct one {
    const char *line;
    laddertick_answer answer;
} one;

static const one CASES[] = {
    {"A1,2,3,4,5,6,R,\"seven77\"\n",
     ELEMENT(1, 25, .rotation = 3, .reverse = 1, .x = 101, .y = 202, .font = 4, .horizontal = 5, .vertical = 6, .text_height = 144, .text_width = 70, .data_start = 29 + 16,
             .data_len = 7)},
    {"LW1,2,4,3\n", ELEMENT(2, 10, .colour = 1, .x = 101, .y = 202, .width = 4, .height = 3, .thickness = 3)},
    {"LE1,2,4,3\n", ELEMENT(2, 10, .colour = 2, .x = 101, .y = 202, .width = 4, .height = 3, .thickness = 3)},
    {"X1,2,7,31,42\n", ELEMENT(2, 13, .x = 101, .y = 202, .width = 30, .height = 40, .thickness = 7)},
    {"LS1,2,7,31,42\n", ELEMENT(3, 14, .direction = 1, .x = 101, .y = 202, .width = 30, .height = 40, .thickness = 7)},
    {"GW5,6,3,2,abcdef\n", ELEMENT(4, 16, .x = 105, .y = 206, .row_bytes = 3, .data_start = 29 + 10, .data_len = 6)},
    {"B1,2,2,1E,4,5,6,B,\"hello\"\n",
     ELEMENT(5, 26, .rotation = 2, .line = 1, .x = 101, .y = 202, .width = 4, .height = 6, .mode = 3, .data_start = 29 + 19, .data_len = 5)},
    {"B1,2,3,E30,4,5,6,B,\"hello\"\n",
     ELEMENT(6, 27, .rotation = 3, .line = 1, .x = 101, .y = 202, .width = 4, .height = 6, .data_start = 29 + 20, .data_len = 5)},
    {"B1,2,3,E80,4,5,6,B,\"hello\"\n",
     ELEMENT(7, 27, .rotation = 3, .line = 1, .x = 101, .y = 202, .width = 4, .height = 6, .data_start = 29 + 20, .data_len = 5)},
    {"B1,2,3,UA0,4,5,6,B,\"hello\"\n",
     ELEMENT(8, 27, .rotation = 3, .line = 1, .x = 101, .y = 202, .width = 4, .height = 6, .data_start = 29 + 20, .data_len = 5)},
    {"B1,2,3,2C,4,10,6,N,\"hello\"\n",
     ELEMENT(9, 27, .rotation = 3, .check = 1, .x = 101, .y = 202, .width = 4, .height = 6, .wide = 10, .ratio = 2.5, .data_start = 29 + 20, .data_len = 5)},
    {"B1,2,3,3,4,14,6,B,\"hello\"\n",
     ELEMENT(10, 26, .rotation = 3, .line = 1, .x = 101, .y = 202, .width = 4, .height = 6, .wide = 14, .ratio = 3.5, .data_start = 29 + 19, .data_len = 5)},
    {"b1,2,P,o3,y17,s4,l5,r6,t1,x8\"seven77\"\n",
     ELEMENT(11, 38, .rotation = 3, .truncate = 1, .x = 101, .y = 202, .width = 8, .height = 17, .security = 4, .columns = 5, .rows = 6, .data_start = 29 + 29, .data_len = 7)},
    {"b1,2,A,d44,e99\"hello\"\n", ELEMENT(12, 22, .x = 101, .y = 202, .magnification = 44, .size = 99, .data_start = 29 + 15, .data_len = 5)},
    {"b1,2,D,c4,r7,h6\"hello\"\n",
     ELEMENT(13, 23, .x = 101, .y = 202, .height = 6, .columns = 4, .rows = 7, .data_start = 29 + 16, .data_len = 5)},
    {"b1,2,Q,s44,eH\"hello\"\n", ELEMENT(14, 21, .level = 'H', .x = 101, .y = 202, .magnification = 44, .data_start = 29 + 14, .data_len = 5)},
    {"b1,2,M,m3\"hello\"\n", ELEMENT(15, 17, .x = 101, .y = 202, .mode = 3, .data_start = 29 + 10, .data_len = 5)},
    {"B1,2,3,UE0,4,5,6,B,\"hello\"\n",
     ELEMENT(16, 27, .rotation = 3, .line = 1, .x = 101, .y = 202, .width = 4, .height = 6, .data_start = 29 + 20, .data_len = 5)},
    {"P5,6\n", {.kind = 0, .count = 2, .sets = 5, .copies = 6, .next = {100, 200, 0, 34}}},
    {"", {.kind = 18, .next = {100, 200, 2, 29}}},
    {"N\n", {.kind = 17, .next = {0, 0, 0, 31}}},
    {"B1,2,3,1D,4,5,6,B,\"hello\"\n", {.kind = 255, .number = 7, .place = 29, .next = {100, 200, 2, 29}}},
};

static int wrong;
static size_t looked_at, changed_in;

/* A number of the answer and the one that is due. */
static void number(const char *what, const char *field, double got, double due)
{
    if (got != due) {
        printf("layout: %.*s: %s is %.17g and not %.17g\n", (int)strcspn(what, "\n"), what, field, got, due);
        wrong = 1;
    }
}

static void answer(const char *what, laddertick_answer got, laddertick_answer due)
{
#define F(field) number(what, #field, (double)got.field, (double)due.field);
    FIELDS_laddertick_answer(F)
#undef F
    looked_at++;
}

static void walk(const char *what, laddertick_walk got, laddertick_walk due)
{
#define F(field) number(what, #field, (double)got.field, (double)due.field);
    FIELDS_laddertick_walk(F)
#undef F
}

static void written(const char *what, laddertick_written got, laddertick_written due)
{
#define F(field) number(what, #field, (double)got.field, (double)due.field);
    FIELDS_laddertick_written(F)
#undef F
}

static void checked(const char *what, laddertick_checked got, laddertick_checked due)
{
#define F(field) number(what, #field, (double)got.field, (double)due.field);
    FIELDS_laddertick_checked(F)
#undef F
}

static void entry(const char *what, laddertick_entry got, laddertick_entry due)
{
#define F(field) number(what, #field, (double)got.field, (double)due.field);
    FIELDS_laddertick_entry(F)
#undef F
}

static void joined(const char *what, laddertick_joined got, laddertick_joined due)
{
#define F(field) number(what, #field, (double)got.field, (double)due.field);
    FIELDS_laddertick_joined(F)
#undef F
}

static void element_300(const char *what, laddertick_element_300 got, laddertick_element_300 due)
{
#define F(field) number(what, #field, (double)got.field, (double)due.field);
    FIELDS_laddertick_element_300(F)
#undef F
}

static void label(const char *what, laddertick_label got, laddertick_label due)
{
#define F(field) number(what, #field, (double)got.field, (double)due.field);
    FIELDS_laddertick_label(F)
#undef F
}

static void bytes(const char *what, const void *got, const void *due, size_t n)
{
    if (memcmp(got, due, n) != 0) {
        printf("layout: %s: other bytes are written\n", what);
        wrong = 1;
    }
}

static const uint8_t *input;
static size_t input_len;

static void steps(void)
{
    for (size_t i = 0; i < sizeof CASES / sizeof CASES[0]; i++) {
        char text[128];
        input_len = (size_t)snprintf(text, sizeof text, BEFORE "%s", CASES[i].line);
        input = (const uint8_t *)text;
        answer(CASES[i].line, laddertick_step(input, input_len, THERE), CASES[i].answer);
    }
    /* from the start over R, and at the end */
    input = (const uint8_t *)BEFORE;
    input_len = strlen(BEFORE);
    walk("the start", laddertick_start(), (laddertick_walk){0, 0, 0, 0});
    answer("the first step", laddertick_step(input, input_len, laddertick_start()),
           (laddertick_answer){.kind = 2, .next = {100, 200, 1, 19}, .element = {.kind = 2, .x = 101, .y = 201, .width = 1, .height = 1, .thickness = 1}});
    answer("the end", laddertick_step(input, input_len, (laddertick_walk){3, 4, 0, 29}), (laddertick_answer){.kind = 18, .next = {3, 4, 0, 29}});
    answer("a state outside", laddertick_step(input, input_len, (laddertick_walk){3, 4, 5, 30}),
           (laddertick_answer){.kind = 255, .number = 16, .place = 30, .next = {3, 4, 5, 30}});
}

static void writes(void)
{
    static const char LISTING[] = "00000000010000000100000001\n020000000f0000001a0000001e000000040000000400\n";
    uint8_t out[80];
    input = (const uint8_t *)"R10,20\nLO5,6,30,4\nP1\n";
    input_len = 21;
    written("list into 71 bytes", laddertick_list(input, input_len, out, 71), (laddertick_written){15, 72});
    written("list into 72 bytes", laddertick_list(input, input_len, out, 72), (laddertick_written){0, 72});
    bytes("list", out, LISTING, 72);
    written("strict_list into 71 bytes", laddertick_strict_list(input, input_len, out, 71), (laddertick_written){15, 72});
    written("strict_list into 72 bytes", laddertick_strict_list(input, input_len, out, 72), (laddertick_written){0, 72});
    bytes("strict_list", out, LISTING, 72);
    written("strict_list of no value", laddertick_strict_list((const uint8_t *)"N\nR1,\n", 6, out, 72), (laddertick_written){17, 2});
    written("strict_list outside", laddertick_strict_list((const uint8_t *)"N\nGW1,2,0,3,\n", 13, out, 72), (laddertick_written){18, 2});
    input = (const uint8_t *)" N \r\nab\377def";
    input_len = 11;
    written("normalise into 8 bytes", laddertick_normalise(input, input_len, out, 8), (laddertick_written){15, 9});
    written("normalise into 9 bytes", laddertick_normalise(input, input_len, out, 9), (laddertick_written){0, 9});
    bytes("normalise", out, "N\nab\377def\n", 9);
    written("data into 5 bytes", laddertick_data(input, input_len, 6, 4, out, 5), (laddertick_written){15, 6});
    written("data into 6 bytes", laddertick_data(input, input_len, 6, 4, out, 6), (laddertick_written){0, 6});
    bytes("data", out, "b\357\277\275de", 6);
}

/* The profile: a file of two lines, the second as given. */
static void checks(void)
{
    static const struct {
        const char *line;
        laddertick_checked due;
    } CHECKS[] = {
        {"A1,2,3,4,5,6,N,\"x\"\n", {.number = 0}},
        {"A1,2,3,4,,6,N,\"x\"\n", {.number = 17, .field = 5, .held = 1, .place = 10}},
        {"A1,2,3,4,5,6O,N,\"x\"\n", {.number = 17, .field = 6, .held = 2, .place = 10}},
        {"A1,99999999999,3,4,5,6,N,\"x\"\n", {.number = 17, .field = 2, .held = 3, .place = 10}},
        {"A1,2,4,4,5,6,N,\"x\"\n", {.number = 18, .field = 3, .held = 4, .place = 10}},
        {"B0,0,0,1D,2,2,9,B,\"x\"\n", {.number = 7, .place = 10}},
    };
    char text[128];
    for (size_t i = 0; i < sizeof CHECKS / sizeof CHECKS[0]; i++) {
        input_len = (size_t)snprintf(text, sizeof text, "LO1,1,1,1\n%s", CHECKS[i].line);
        checked(CHECKS[i].line, laddertick_check((const uint8_t *)text, input_len), CHECKS[i].due);
    }
}

/* The index of a file with two labels, behind print lines that print nothing and a reference that changes in the label; and one label opened. */
static void indexes(void)
{
    static const char LISTING[] = "00000000020000000200000003\n02000000650000006600000007000000080000000701\n02000000670000006700000003000000030000000300\n";
    static const laddertick_entry MARK = {91, 92, 93, 94, 95};
    laddertick_entry list[3] = {MARK, MARK, MARK}, made[2];
    uint8_t out[200];
    input = (const uint8_t *)"R5,6\nP\nR10,20\nLO1,2,4,3\nLE1,2,7,8\nLO3,3,3,3\nP1\nR100,100\nLW1,2,7,8\nLO3,3,3,3\nP2,3\nLO,,,\n";
    input_len = strlen((const char *)input);
    written("index into 0 entries", laddertick_index(input, input_len, NULL, 0), (laddertick_written){20, 2});
    written("index into 1 entry", laddertick_index(input, input_len, list, 1), (laddertick_written){20, 2});
    entry("an entry at 20", list[0], MARK);
    written("index of a refused file", laddertick_index((const uint8_t *)"LO,,,\nP\n X1", 11, list, 3), (laddertick_written){6, 8});
    entry("an entry of a refused file", list[0], MARK);
    written("index into 3 entries", laddertick_index(input, input_len, list, 3), (laddertick_written){0, 2});
    entry("the first entry", list[0], (laddertick_entry){7, 47, 3, 5, 6});
    entry("the second entry", list[1], (laddertick_entry){47, 81, 2, 10, 20});
    entry("the third entry", list[2], MARK);
    written("open into 116 bytes", laddertick_open(input, input_len, list, 2, 1, out, 116), (laddertick_written){15, 117});
    written("open into 117 bytes", laddertick_open(input, input_len, list, 2, 1, out, 117), (laddertick_written){0, 117});
    bytes("open", out, LISTING, 117);
    written("open past the list", laddertick_open(input, input_len, list, 2, 2, out, 117), (laddertick_written){21, 2});
    /* entries that no index made, with the numbers of their places all different */
    made[0] = (laddertick_entry){84, 83, 1, 0, 0};
    made[1] = (laddertick_entry){81, 87, 1, 0, 0};
    written("open an entry that ends before its start", laddertick_open(input, input_len, made, 2, 0, out, 117), (laddertick_written){16, 83});
    written("open an entry that yields no label", laddertick_open(input, input_len, made, 2, 1, out, 117), (laddertick_written){21, 1});
    made[1].last = 99;
    written("open an entry that ends past the end", laddertick_open(input, input_len, made, 2, 1, out, 117), (laddertick_written){16, 99});
}

/* Two files joined: each field of the answer, and what is written. */
static void joins(void)
{
    static const uint8_t FIRST[] = " LO1,2,3,4\r\nLO5", SECOND[] = "P1\n\nLO1";
    uint8_t out[32];
    memset(out, '.', sizeof out);
    joined("the first refused", laddertick_join(FIRST, 15, SECOND, 7, out, sizeof out), (laddertick_joined){4, 1, 12});
    joined("the second refused", laddertick_join(FIRST, 10, SECOND, 7, out, sizeof out), (laddertick_joined){4, 2, 4});
    joined("join into 14 bytes", laddertick_join(FIRST, 12, SECOND, 3, out, 14), (laddertick_joined){15, 0, 15});
    bytes("a refused join", out, "................................", sizeof out);
    joined("join into 15 bytes", laddertick_join(FIRST, 12, SECOND, 3, out, 15), (laddertick_joined){0, 0, 15});
    bytes("join", out, "LO1,2,3,4\nN\nP1\n.................", sizeof out);
}

static void numbers(const char *what, const size_t *is, size_t a, size_t b, size_t c)
{
    if (is[0] != a || is[1] != b || is[2] != c) {
        printf("%s: the list is %zu %zu %zu and not %zu %zu %zu\n", what, is[0], is[1], is[2], a, b, c);
        wrong = 1;
    }
}

/* What lies where on the second label of a file, whose N drops a box: all numbers different, so that no two fields can change places. */
static void spots(void)
{
    laddertick_entry list[2];
    size_t to[3] = {91, 92, 93};
    input = (const uint8_t *)"LO1,2,3,4\nP\nLO5,6,7,8\nN\nLO11,22,33,44\nA100,200,0,1,1,1,N,\"a\"\nLS300,410,5,350,470\nLO2147483000,9,2147483647,1\nP\n";
    input_len = strlen((const char *)input);
    written("index of two labels", laddertick_index(input, input_len, list, 2), (laddertick_written){0, 2});
    written("inside", laddertick_inside(input, input_len, list, 2, 1, (laddertick_rectangle){12, 22, 300, 410}, to, 3), (laddertick_written){0, 2});
    numbers("inside", to, 1, 2, 93);
    written("inside, no room", laddertick_inside(input, input_len, list, 2, 1, (laddertick_rectangle){11, 9, 300, 410}, to, 2), (laddertick_written){15, 3});
    written("inside, no list", laddertick_inside(input, input_len, list, 2, 1, (laddertick_rectangle){11, 9, 300, 410}, NULL, 0), (laddertick_written){15, 3});
    numbers("a list at 15", to, 1, 2, 93);
    written("touching", laddertick_touching(input, input_len, list, 2, 1, (laddertick_rectangle){44, 66, 300, 410}, to, 3), (laddertick_written){0, 2});
    numbers("touching", to, 0, 2, 93);
    written("touching past 32 bits", laddertick_touching(input, input_len, list, 2, 1, (laddertick_rectangle){INT32_MAX, 10, INT32_MAX, 10}, to, 1), (laddertick_written){0, 1});
    numbers("touching past 32 bits", to, 3, 2, 93);
    written("touching nothing", laddertick_touching(input, input_len, list, 2, 1, (laddertick_rectangle){45, 67, 46, 68}, to, 3), (laddertick_written){0, 0});
    written("turned across", laddertick_inside(input, input_len, list, 2, 7, (laddertick_rectangle){2, 1, 1, 3}, to, 3), (laddertick_written){22, 0});
    written("turned down", laddertick_touching(input, input_len, list, 2, 7, (laddertick_rectangle){1, 3, 2, 1}, to, 3), (laddertick_written){22, 0});
    written("inside past the list", laddertick_inside(input, input_len, list, 2, 7, (laddertick_rectangle){1, 1, 1, 1}, to, 3), (laddertick_written){21, 7});
    written("touching past the list", laddertick_touching(input, input_len, list, 2, 7, (laddertick_rectangle){1, 1, 1, 1}, to, 3), (laddertick_written){21, 7});
    numbers("a refused list", to, 3, 2, 93);
    written("nearest", laddertick_nearest(input, input_len, list, 2, 1, 290, 900), (laddertick_written){0, 2});
    written("nearest, the other way", laddertick_nearest(input, input_len, list, 2, 1, 900, 290), (laddertick_written){0, 2});
    written("nearest from below 0", laddertick_nearest(input, input_len, list, 2, 1, INT32_MIN, -7), (laddertick_written){0, 0});
    written("nearest to a text", laddertick_nearest(input, input_len, list, 2, 1, 101, 150), (laddertick_written){0, 1});
    written("nearest past the list", laddertick_nearest(input, input_len, list, 2, 2, 1, 1), (laddertick_written){21, 2});
}

/* A label at 300 dots: lengths are converted, and all other fields stay. 101 becomes 149, 202 299, 30 44, 40 59, 7 10, 6 9. */
static void converts(void)
{
    static const laddertick_element_300 MARK = {.kind = 91, .x = 92, .data_len = 93};
    static const laddertick_element_300 DUE[] = {
        {.kind = 1, .rotation = 3, .reverse = 1, .x = 149, .y = 299, .font = 4, .horizontal = 5, .vertical = 6, .text_height = 144, .text_width = 70, .data_start = 25, .data_len = 7},
        {.kind = 2, .x = 149, .y = 299, .width = 44, .height = 59, .thickness = 10},
        {.kind = 3, .direction = 1, .x = 149, .y = 299, .width = 44, .height = 59, .thickness = 10},
        {.kind = 9, .rotation = 3, .check = 1, .x = 149, .y = 299, .width = 4, .height = 9, .wide = 10, .ratio = 2.5, .data_start = 81, .data_len = 5},
        {.kind = 11, .rotation = 3, .truncate = 1, .x = 149, .y = 299, .width = 8, .height = 17, .security = 4, .columns = 5, .rows = 6, .data_start = 117, .data_len = 7},
        {.kind = 12, .x = 149, .y = 299, .magnification = 44, .size = 99, .data_start = 141, .data_len = 5},
        {.kind = 13, .x = 149, .y = 299, .height = 6, .columns = 4, .rows = 7, .data_start = 164, .data_len = 5},
        {.kind = 14, .level = 'H', .x = 149, .y = 299, .magnification = 44, .data_start = 185, .data_len = 5},
        {.kind = 15, .x = 149, .y = 299, .mode = 3, .data_start = 202, .data_len = 5},
    };
    enum { N = sizeof DUE / sizeof DUE[0] };
    laddertick_element_300 list[N + 1];
    laddertick_entry entry;
    for (size_t i = 0; i <= N; i++)
        list[i] = MARK;
    input = (const uint8_t *)"R100,200\nA1,2,3,4,5,6,R,\"seven77\"\nX1,2,7,31,42\nLS1,2,7,31,42\nB1,2,3,2C,4,10,6,N,\"hello\"\nb1,2,P,o3,y17,s4,l5,r6,t1,x8\"seven77\"\n"
                             "b1,2,A,d44,e99\"hello\"\nb1,2,D,c4,r7,h6\"hello\"\nb1,2,Q,s44,eH\"hello\"\nb1,2,M,m3\"hello\"\nP5,6\n";
    input_len = strlen((const char *)input);
    written("index of a label to convert", laddertick_index(input, input_len, &entry, 1), (laddertick_written){0, 1});
    label("to_300 into NULL", laddertick_to_300(input, input_len, &entry, 1, 0, NULL, 0), (laddertick_label){.number = 15, .place = N});
    label("to_300 into too few", laddertick_to_300(input, input_len, &entry, 1, 0, list, N - 1), (laddertick_label){.number = 15, .place = N});
    element_300("an element at 15", list[0], MARK);
    label("to_300 past the list", laddertick_to_300(input, input_len, &entry, 1, 7, list, N), (laddertick_label){.number = 21, .place = 7});
    label("to_300", laddertick_to_300(input, input_len, &entry, 1, 0, list, N + 1), (laddertick_label){.number = 0, .place = N, .sets = 5, .copies = 6});
    for (size_t i = 0; i < N; i++)
        element_300("an element at 300 dots", list[i], DUE[i]);
    element_300("the element behind them", list[N], MARK);
    entry = (laddertick_entry){0, 22, 1, 0, 0};
    label("to_300 of a graphic", laddertick_to_300((const uint8_t *)"LO1,1,1,1\n GW0,0,1,1,P", 22, &entry, 1, 0, list, N), (laddertick_label){.number = 21, .place = 0});
    label("to_300 of a graphic", laddertick_to_300((const uint8_t *)"LO1,1,1,1\n GW0,0,1,1,zP", 23, &(laddertick_entry){0, 23, 1, 0, 0}, 1, 0, list, N), (laddertick_label){.number = 24, .place = 10});
    label("to_300 of NULL", laddertick_to_300(NULL, 0, NULL, 0, 3, NULL, 0), (laddertick_label){.number = 21, .place = 3});
}

/* The elements of CASES as they are written, in the same order. */
static const char *const SPELLED[] = {
    "A101,202,3,4,5,6,R,\"seven77\"\n",
    "LW101,202,4,3\n",
    "LE101,202,4,3\n",
    "X101,202,7,131,242\n",
    "LS101,202,7,131,242\n",
    "GW105,206,3,2,abcdef\n",
    "B101,202,2,1E,4,2,6,B,\"hello\"\n",
    "B101,202,3,E30,4,2,6,B,\"hello\"\n",
    "B101,202,3,E80,4,2,6,B,\"hello\"\n",
    "B101,202,3,UA0,4,2,6,B,\"hello\"\n",
    "B101,202,3,2C,4,10,6,N,\"hello\"\n",
    "B101,202,3,3,4,14,6,B,\"hello\"\n",
    "b101,202,P,o3,x8,y17,l5,r6,t1,s4,\"seven77\"\n",
    "b101,202,A,d44,e99,\"hello\"\n",
    "b101,202,D,h6,c4,r7,\"hello\"\n",
    "b101,202,Q,s44,eH,\"hello\"\n",
    "b101,202,M,m3,\"hello\"\n",
    "B101,202,3,UE0,4,2,6,B,\"hello\"\n",
};
enum { SPELLINGS = sizeof SPELLED / sizeof SPELLED[0] };

/* An element that differs in one field is written otherwise, or refused: no field goes unread. */
static void read_whole(const char *line, laddertick_element e)
{
    uint8_t out[128], other[128];
    laddertick_written due = laddertick_write(input, input_len, e, out, sizeof out);
#define F(field)                                                                                                                                                          \
    {                                                                                                                                                                     \
        laddertick_element changed = e;                                                                                                                                   \
        changed.field += 1;                                                                                                                                               \
        changed_in++;                                                                                                                                                     \
        laddertick_written w = laddertick_write(input, input_len, changed, other, sizeof other);                                                                          \
        if (w.number != 23 && (w.number != 0 || (w.place == due.place && memcmp(out, other, w.place) == 0))) {                                                            \
            printf("layout: %.*s: written the same with another %s\n", (int)strcspn(line, "\n"), line, #field);                                                           \
            wrong = 1;                                                                                                                                                    \
        }                                                                                                                                                                 \
    }
    FIELDS_laddertick_element(F)
#undef F
}

/* Each element as its command, and all of them as a label, at both resolutions: each field of the structs lent is found where it stands. */
static void elements_written(void)
{
    static char text[2048];
    static uint8_t out[2048];
    laddertick_element elements[SPELLINGS];
    laddertick_element_300 elements_300[SPELLINGS];
    char label_text[1024] = "N\n";
    size_t n;
    input = (const uint8_t *)text;
    input_len = 0;
    for (size_t i = 0; i < SPELLINGS; i++) {
        laddertick_element e = CASES[i].answer.element;
        if (e.data_len > 0)
            e.data_start = input_len + e.data_start - 29; /* where it stands when the lines stand in a row */
        input_len += (size_t)snprintf(text + input_len, sizeof text - input_len, "%s", CASES[i].line);
        elements[i] = e;
#define F(field) elements_300[i].field = e.field;
        FIELDS_laddertick_element(F)
#undef F
        strcat(label_text, SPELLED[i]);
    }
    strcat(label_text, "P5,6\n");
    n = strlen(label_text);
    for (size_t i = 0; i < SPELLINGS; i++) {
        size_t len = strlen(SPELLED[i]);
        written(SPELLED[i], laddertick_write(input, input_len, elements[i], out, len - 1), (laddertick_written){15, len});
        memset(out, '.', sizeof out);
        written(SPELLED[i], laddertick_write(input, input_len, elements[i], out, len), (laddertick_written){0, len});
        bytes(SPELLED[i], out, SPELLED[i], len);
        bytes("the byte behind it", out + len, ".", 1);
        read_whole(SPELLED[i], elements[i]);
    }
    written("write_label, one byte less", laddertick_write_label(input, input_len, elements, SPELLINGS, 5, 6, out, n - 1), (laddertick_written){15, n});
    written("write_label", laddertick_write_label(input, input_len, elements, SPELLINGS, 5, 6, out, n), (laddertick_written){0, n});
    bytes("write_label", out, label_text, n);
    memset(out, '.', sizeof out);
    written("write_label_300, one byte less", laddertick_write_label_300(input, input_len, elements_300, SPELLINGS, 5, 6, out, n - 1), (laddertick_written){15, n});
    bytes("write_label_300 at 15", out, "....", 4);
    written("write_label_300", laddertick_write_label_300(input, input_len, elements_300, SPELLINGS, 5, 6, out, n), (laddertick_written){0, n});
    bytes("write_label_300", out, label_text, n);
    /* refusals: an element's before the label's own, and 23 before 15 */
    elements[7].level = 'M';
    elements_300[9].columns = 1;
    written("write of a field that is none of its kind", laddertick_write(input, input_len, elements[7], out, 0), (laddertick_written){23, 0});
    written("write_label of such an element", laddertick_write_label(input, input_len, elements, SPELLINGS, -1, 6, out, 0), (laddertick_written){23, 7});
    written("write_label_300 of such an element", laddertick_write_label_300(input, input_len, elements_300, SPELLINGS, 5, -1, out, 0), (laddertick_written){23, 9});
    written("write_label, negative sets", laddertick_write_label(input, input_len, elements, 4, -1, 6, out, 0), (laddertick_written){23, 4});
    written("write_label_300, negative copies", laddertick_write_label_300(input, input_len, elements_300, 3, 5, -1, out, 0), (laddertick_written){23, 3});
    written("write_label of no element", laddertick_write_label(input, input_len, NULL, 0, 5, 6, out, sizeof out), (laddertick_written){23, 0});
    written("write_label_300 of no element", laddertick_write_label_300(input, input_len, NULL, 0, 5, 6, out, sizeof out), (laddertick_written){23, 0});
    written("write, data past the end", laddertick_write(input, elements[0].data_start + 6, elements[0], out, sizeof out), (laddertick_written){23, 0});
    written("write, data to the end", laddertick_write(input, elements[0].data_start + 7, elements[0], out, sizeof out), (laddertick_written){0, strlen(SPELLED[0])});
    /* NULL of length 0: an element without data needs no input, and 15 no buffer */
    written("write of NULL into NULL", laddertick_write(NULL, 0, elements[1], NULL, 0), (laddertick_written){15, strlen(SPELLED[1])});
    written("write of NULL", laddertick_write(NULL, 0, elements[1], out, sizeof out), (laddertick_written){0, strlen(SPELLED[1])});
    written("write_label of NULL into NULL", laddertick_write_label(NULL, 0, elements + 1, 1, 0, 0, NULL, 0), (laddertick_written){15, 2 + strlen(SPELLED[1]) + 5});
    written("write_label_300 of NULL into NULL", laddertick_write_label_300(NULL, 0, NULL, 0, 0, 0, NULL, 0), (laddertick_written){23, 0});
}

/* NULL of length 0, for an input and for a buffer: an empty file, and no room. */
static void null(void)
{
    uint8_t out[1];
    answer("NULL", laddertick_step(NULL, 0, laddertick_start()), (laddertick_answer){.kind = 18});
    answer("NULL, pending", laddertick_step(NULL, 0, (laddertick_walk){3, 4, 5, 6}), (laddertick_answer){.kind = 255, .number = 16, .place = 6, .next = {3, 4, 5, 6}});
    for (int k = 0; k < 2; k++) {
        uint8_t *to = k == 0 ? NULL : out;
        written("strict_list NULL", laddertick_strict_list(NULL, 0, to, (size_t)k), (laddertick_written){0, 0});
        written("list NULL", laddertick_list(NULL, 0, to, (size_t)k), (laddertick_written){0, 0});
        written("normalise NULL", laddertick_normalise(NULL, 0, to, (size_t)k), (laddertick_written){0, 0});
        written("data of NULL", laddertick_data(NULL, 0, 7, 8, to, (size_t)k), (laddertick_written){0, 0});
        written("open in NULL", laddertick_open(NULL, 0, NULL, 0, 7, to, (size_t)k), (laddertick_written){21, 7});
        written("open of NULL", laddertick_open(NULL, 0, &(laddertick_entry){0, 0, 1, 2, 3}, 1, 0, to, (size_t)k), (laddertick_written){21, 0});
    }
    written("inside NULL", laddertick_inside(NULL, 0, NULL, 0, 7, (laddertick_rectangle){0, 0, 0, 0}, NULL, 0), (laddertick_written){21, 7});
    written("touching NULL", laddertick_touching(NULL, 0, NULL, 0, 7, (laddertick_rectangle){0, 0, 0, 0}, NULL, 0), (laddertick_written){21, 7});
    written("nearest NULL", laddertick_nearest(NULL, 0, NULL, 0, 7, 0, 0), (laddertick_written){21, 7});
    written("index NULL", laddertick_index(NULL, 0, NULL, 0), (laddertick_written){0, 0});
    checked("check NULL", laddertick_check(NULL, 0), (laddertick_checked){.number = 0});
    joined("join NULL", laddertick_join(NULL, 0, NULL, 0, NULL, 0), (laddertick_joined){15, 0, 2});
    input = (const uint8_t *)"LO5,6,30,4";
    written("list into NULL", laddertick_list(input, 10, NULL, 0), (laddertick_written){15, 11});
    written("normalise into NULL", laddertick_normalise(input, 10, NULL, 0), (laddertick_written){15, 11});
    written("data into NULL", laddertick_data(input, 10, 3, 4, NULL, 0), (laddertick_written){15, 4});
    written("open into NULL", laddertick_open((const uint8_t *)"LO,,,\nP", 7, &(laddertick_entry){0, 7, 1, 2, 3}, 1, 0, NULL, 0), (laddertick_written){15, 72});
    written("a refusal into NULL", laddertick_list((const uint8_t *)"X1", 2, NULL, 0), (laddertick_written){6, 0});
}

int main(void)
{
    steps();
    writes();
    checks();
    indexes();
    joins();
    spots();
    converts();
    elements_written();
    null();
    printf("layout: %zu answers of a step, every field of each, and %d elements written, with each of their fields changed (%zu): %s\n", looked_at, SPELLINGS, changed_in,
           wrong ? "some are wrong" : "all as 01 says");
    return wrong;
}
