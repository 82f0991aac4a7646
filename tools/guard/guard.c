/*
 * The hostile-input run: a host that lends memory between guard pages, so that one byte touched outside it ends the run at once.
 *
 *     guard CASES ROUNDS SEED
 *
 * CASES is a file of inputs (each its length, 4 bytes with the most significant first, and its bytes: crates/replay/stdin). Each input, as it stands and in
 * ROUNDS damaged copies, goes to every entry point: once with its first byte behind a guard page, once with its last byte before one, and not writable.
 * Buffers likewise, with room to spare, with just enough and with one byte less; lists of entries with one to spare, just enough and one less; and NULL of length 0 for
 * each. Elements are lent to be written as they were answered, and with any bytes in any of their fields (writing.h). Calls run on a stack of LADDERTICK_STACK bytes between guard pages, one page.
 * Held as well: a refused call leaves the buffer as it came, bytes past the written length keep their values, and both placements are answered alike.
 */
#define _GNU_SOURCE
#include <signal.h>
#include <stdio.h>
#include <stdlib.h>
#include <string.h>
#include <sys/mman.h>
#include <ucontext.h>
#include <unistd.h>

#include "laddertick.h"

enum { PAGE = 4096 };

/* What the run is at, for the report of a fault. */
static const char *doing = "";
static size_t now_case, now_round;

/* The report of a fault, by functions that a signal handler may call. */
static void put_number(size_t n)
{
    char digits[20];
    size_t i = sizeof digits;
    do
        digits[--i] = (char)('0' + n % 10);
    while ((n /= 10) != 0);
    if (write(2, digits + i, sizeof digits - i) < 0)
        _exit(3);
}

static void put_words(const char *words)
{
    if (write(2, words, strlen(words)) < 0)
        _exit(3);
}

static void fault(int number)
{
    (void)number;
    put_words("guard: case ");
    put_number(now_case);
    put_words(", round ");
    put_number(now_round);
    put_words(": memory outside what was lent was touched by ");
    put_words(doing);
    put_words("\n");
    _exit(1);
}

static void wrong(const char *why)
{
    fprintf(stderr, "guard: case %zu, round %zu: %s: %s\n", now_case, now_round, doing, why);
    exit(1);
}

/* Pages between two guard pages. */
typedef struct region {
    uint8_t *at;
    size_t len;
} region;

static region map(size_t most)
{
    region r;
    r.len = (most + PAGE - 1) / PAGE * PAGE + PAGE;
    uint8_t *all = mmap(NULL, r.len + 2 * PAGE, PROT_NONE, MAP_PRIVATE | MAP_ANONYMOUS, -1, 0);
    if (all == MAP_FAILED || mprotect(all + PAGE, r.len, PROT_READ | PROT_WRITE) != 0) {
        perror("guard");
        exit(2);
    }
    r.at = all + PAGE;
    return r;
}

/* The first or the last n bytes of a region. */
static uint8_t *placed(region r, size_t n, int last)
{
    return last ? r.at + r.len - n : r.at;
}

/* ---- calls on the small stack ---- */

static ucontext_t host, guest;
static region stack;
static const uint8_t *input;
static size_t input_len, out_len, start, len;
static uint8_t *out;
static laddertick_walk walk;
static laddertick_answer answer;
static laddertick_written written;
static laddertick_checked checked;
static laddertick_entry *entries;
static size_t entries_len, label;
/* The second of two files, in memory of its own, and what was answered to both. */
static const uint8_t *second;
static size_t second_len;
static laddertick_joined joined;
static laddertick_rectangle rectangle;
static size_t *numbers, numbers_len;
static laddertick_element_300 *elements;
static size_t elements_len;
static laddertick_label converted;

static void do_step(void) { answer = laddertick_step(input, input_len, walk); }
static void do_data(void) { written = laddertick_data(input, input_len, start, len, out, out_len); }
static void do_list(void) { written = laddertick_list(input, input_len, out, out_len); }
static void do_strict_list(void) { written = laddertick_strict_list(input, input_len, out, out_len); }
static void do_check(void) { checked = laddertick_check(input, input_len); }
static void do_index(void) { written = laddertick_index(input, input_len, entries, entries_len); }
static void do_open(void) { written = laddertick_open(input, input_len, entries, entries_len, label, out, out_len); }
static void do_inside(void) { written = laddertick_inside(input, input_len, entries, entries_len, label, rectangle, numbers, numbers_len); }
static void do_touching(void) { written = laddertick_touching(input, input_len, entries, entries_len, label, rectangle, numbers, numbers_len); }
static void do_nearest(void) { written = laddertick_nearest(input, input_len, entries, entries_len, label, rectangle.x1, rectangle.y1); }
static void do_to_300(void) { converted = laddertick_to_300(input, input_len, entries, entries_len, label, elements, elements_len); }
static void do_normalise(void) { written = laddertick_normalise(input, input_len, out, out_len); }

static void do_join(void)
{
    joined = laddertick_join(input, input_len, second, second_len, out, out_len);
    written = (laddertick_written){joined.number, joined.place};
}

static void call(const char *name, void (*function)(void))
{
    doing = name;
    getcontext(&guest);
    guest.uc_stack.ss_sp = stack.at;
    guest.uc_stack.ss_size = stack.len;
    guest.uc_link = &host;
    makecontext(&guest, function, 0);
    swapcontext(&host, &guest);
}

/* How deep the calls went: the stack is filled with a mark beforehand. */
static size_t deepest(void)
{
    size_t i = 0;
    while (i < stack.len && stack.at[i] == 0xa5)
        i++;
    return stack.len - i;
}

/* ---- one input ---- */

static region inputs, seconds, outs, lists, drawn;
static size_t calls;
static uint64_t seed;

/* Places and counts that no walk reaches. */
static const size_t ODD[] = {0, 1, 2, SIZE_MAX, SIZE_MAX - 1, (size_t)1 << 63, 16777216, 16777217};

static uint64_t next(void)
{
    seed ^= seed << 13;
    seed ^= seed >> 7;
    seed ^= seed << 17;
    return seed;
}

/* Room to spare: for any answer to this input, a listing having at most 16 bytes a byte; or where it is not 0 so much. */
static size_t answer_most;

static size_t spare(void)
{
    return answer_most != 0 ? answer_most : LADDERTICK_LIST_ROOM(input_len) + 64;
}

/* The bytes of n that are no mark. */
static size_t unmarked(const uint8_t *at, size_t n)
{
    size_t k = 0;
    for (size_t i = 0; i < n; i++)
        k += at[i] != 0x5a;
    return k;
}

/* The calls that write, in a buffer of n bytes. It is marked beforehand, and so is what lies beside it up to more than any answer has. */
static void lend(const char *name, void (*function)(void), size_t n, int last)
{
    size_t most = spare();
    uint8_t *marked = placed(outs, most, last);
    out = placed(outs, n, last);
    out_len = n;
    memset(marked, 0x5a, most);
    call(name, function);
    calls++;
    size_t kept = written.number == 0 ? written.place : 0;
    if (kept > n)
        wrong("a length past the buffer");
    if (unmarked(marked, (size_t)(out - marked)) + unmarked(out + kept, (size_t)(marked + most - (out + kept))) != 0)
        wrong("a byte was changed that is not the answer's");
}

/* No buffer at all: the same, or 15 with the length needed where there is something to write. */
static void lend_null(const char *name, void (*function)(void), laddertick_written whole)
{
    out = NULL;
    out_len = 0;
    call(name, function);
    calls++;
    if (written.number != (whole.number == 0 && whole.place > 0 ? LADDERTICK_OUTPUT_TOO_SHORT : whole.number) || written.place != whole.place)
        wrong("NULL of length 0 is not answered as an empty buffer");
}

/* Room to spare, just enough, one byte less, none: 15 exactly where it is too short, with the length needed. Gives what was answered with room to spare. */
static laddertick_written writes(const char *name, void (*function)(void), int last)
{
    lend(name, function, spare(), last);
    laddertick_written whole = written;
    if (whole.number == LADDERTICK_OUTPUT_TOO_SHORT)
        wrong("15 with space left");
    lend_null(name, function, whole);
    if (whole.number != 0)
        return whole;
    size_t need = whole.place;
    lend(name, function, need, last);
    if (written.number != 0 || written.place != need)
        wrong("15 with space left");
    for (int k = 0; k < 2 && need > 0; k++) {
        lend(name, function, k == 0 ? need - 1 : 0, last);
        if (written.number != LADDERTICK_OUTPUT_TOO_SHORT || written.place != need)
            wrong("no 15, or another length than is needed");
    }
    return whole;
}

/* The answer of `writes`, no longer than the header's macro says. */
static laddertick_written within(laddertick_written w, size_t room)
{
    if (w.number == 0 && w.place > room)
        wrong("longer than the room that is always enough");
    return w;
}

#include "writing.h"

static int same(laddertick_walk a, laddertick_walk b)
{
    return a.place == b.place && a.x == b.x && a.y == b.y && a.pending == b.pending;
}

/* A whole walk, the data of each element on the way. Gives a sum over the answers, and counts the labels. */
static uint64_t walks(int last, size_t *labels)
{
    uint64_t sum = 0;
    *labels = 0;
    kept_count = 0;
    walk = laddertick_start();
    do {
        call("laddertick_step", do_step);
        calls++;
        if (answer.kind == LADDERTICK_REFUSED && !same(answer.next, walk))
            wrong("a refused step did not hand its state back");
        if (answer.kind != LADDERTICK_REFUSED && answer.kind != LADDERTICK_END && answer.next.place == walk.place && answer.next.pending == walk.pending)
            wrong("a step that does not move on");
        sum = sum * 31 + answer.kind + answer.number + answer.place + answer.next.place + (uint32_t)answer.element.x + answer.element.data_len;
        start = answer.element.data_start;
        len = answer.element.data_len;
        if (len > 0 && (start > input_len || len > input_len - start))
            wrong("data outside the input");
        if (len > 0)
            within(writes("laddertick_data", do_data, last), LADDERTICK_DATA_ROOM(len));
        if (answer.element.kind != 0)
            sum = sum * 31 + writes_step(answer.element, last);
        *labels += answer.kind == LADDERTICK_PRINT;
        walk = answer.next;
    } while (answer.kind != LADDERTICK_END && answer.kind != LADDERTICK_REFUSED);
    return sum;
}

/* The profile's verdict and the listing under it, behind the plain listing `plain`: either the file is refused as 17 or 18, with its field, or all is as plain. */
static uint64_t checks(int last, laddertick_written plain)
{
    call("laddertick_check", do_check);
    calls++;
    int own = checked.number == LADDERTICK_NO_VALUE || checked.number == LADDERTICK_OUTSIDE_PROFILE;
    if (own != (checked.field != 0) || own != (checked.held != 0) || checked.held > LADDERTICK_HELD_OUTSIDE)
        wrong("a field is told where there is none, or none where there is one");
    if (own ? checked.place >= input_len : checked.number != plain.number || checked.place != (plain.number == 0 ? 0 : plain.place))
        wrong("neither the profile's refusal nor the plain answer");
    laddertick_written w = within(writes("laddertick_strict_list", do_strict_list, last), LADDERTICK_LIST_ROOM(input_len));
    if (w.number != (own ? checked.number : plain.number) || w.place != (own ? checked.place : plain.place))
        wrong("not as laddertick_check and laddertick_list say");
    return checked.number + 31 * (checked.place + 31 * (checked.field + 31 * (uint64_t)checked.held));
}

/* ---- the label index ---- */

/* Entries beside a list that are marked too. */
enum { BESIDE = 8 };

/* A list of n entries at either end of its region. It is marked, and so is what lies beside it. */
static void lend_list(size_t n, int last)
{
    size_t most = (n + BESIDE) * sizeof *entries;
    mprotect(lists.at, lists.len, PROT_READ | PROT_WRITE);
    memset(placed(lists, most, last), 0x5a, most);
    entries = (laddertick_entry *)placed(lists, n * sizeof *entries, last);
    entries_len = n;
}

/* The index into a list of n entries: `due` is what it should answer, and all but the entries of an answer keep their marks. */
static void indexes(size_t n, int last, laddertick_written due)
{
    lend_list(n, last);
    call("laddertick_index", do_index);
    calls++;
    if (written.number != due.number || written.place != due.place)
        wrong("not the answer of the walk, or 20 not as it should be told");
    size_t kept = due.number == 0 ? due.place * sizeof *entries : 0, most = (n + BESIDE) * sizeof *entries;
    uint8_t *list = (uint8_t *)entries, *marked = placed(lists, most, last);
    if (unmarked(marked, (size_t)(list - marked)) + unmarked(list + kept, (size_t)(marked + most - (list + kept))) != 0)
        wrong("an entry was changed that is not the answer's");
}

/* Label i at 300 dots, in lists of no element, one too few, just enough and one to spare: all but the elements of an answer keep their marks. `opened` is what opening answered. */
static void converts(size_t i, int last, laddertick_written opened)
{
    label = i;
    elements = NULL;
    elements_len = 0;
    call("laddertick_to_300", do_to_300);
    calls++;
    if (opened.number != 0 && (converted.number != opened.number || converted.place != opened.place))
        wrong("not refused as opening is");
    if (opened.number == 0 && converted.number != 15 && converted.number != 13 && converted.number != 19 && converted.number != LADDERTICK_GRAPHIC_IN_LABEL)
        wrong("a number that is none of a conversion's");
    laddertick_label first = converted;
    size_t n = first.number == LADDERTICK_OUTPUT_TOO_SHORT ? first.place : 1, most = (n + 2) * sizeof *elements;
    for (size_t room = n - 1; room <= n + 1; room++) {
        int due = first.number == LADDERTICK_OUTPUT_TOO_SHORT && room >= n;
        uint8_t *marked = placed(drawn, most, last);
        memset(marked, 0x5a, most);
        elements = (laddertick_element_300 *)placed(drawn, room * sizeof *elements, last);
        elements_len = room;
        call("laddertick_to_300", do_to_300);
        calls++;
        if (due ? converted.number != 0 || converted.place != n : converted.number != first.number || converted.place != first.place)
            wrong("another answer with other room");
        if (converted.number != 0 && (converted.sets != 0 || converted.copies != 0))
            wrong("a refusal with sets or copies");
        uint8_t *list = (uint8_t *)elements;
        size_t kept = due ? n * sizeof *elements : 0;
        if (unmarked(marked, (size_t)(list - marked)) + unmarked(list + kept, (size_t)(marked + most - (list + kept))) != 0)
            wrong("an element was changed that is not the answer's");
        for (size_t k = 0; due && k < n; k++)
            if (elements[k].kind < 1 || elements[k].kind > 16 || elements[k].kind == 4 || elements[k].data_start > input_len ||
                elements[k].data_len > input_len - elements[k].data_start)
                wrong("an element that no label yields");
        if (due && room == n)
            writes_300(last);
    }
}

/* Opening label i, in buffers of every size, the list being read and not written; `due` is the number that it is refused by, or 0. */
static laddertick_written opens(size_t i, int last, unsigned due, size_t place)
{
    label = i;
    mprotect(lists.at, lists.len, PROT_READ);
    laddertick_written w = writes("laddertick_open", do_open, last);
    converts(i, last, w);
    if (due != 0 && (w.number != due || w.place != place))
        wrong("not refused as it should be");
    return w;
}

/* A list of n numbers at either end of its region, marked with what lies beside it, and the call with it. The first `kept` may change and no other. */
static void lend_numbers(const char *name, void (*function)(void), size_t n, int last, size_t kept)
{
    size_t most = (n + BESIDE) * sizeof *numbers;
    memset(placed(outs, most, last), 0x5a, most);
    numbers = (size_t *)placed(outs, n * sizeof *numbers, last);
    numbers_len = n;
    call(name, function);
    calls++;
    uint8_t *at = (uint8_t *)numbers, *marked = placed(outs, most, last);
    if (unmarked(marked, (size_t)(at - marked)) + unmarked(at + kept * sizeof *numbers, (size_t)(marked + most - at) - kept * sizeof *numbers) != 0)
        wrong("a number was changed that is not the answer's");
}

/* What lies where on label i, as it was opened: no room, room to spare, exactly enough and too little; a turned rectangle; the nearest. */
static void lies(size_t i, int last, laddertick_written opened)
{
    static const char *const NAMES[] = {"laddertick_inside", "laddertick_touching"};
    static void (*const CALLS[])(void) = {do_inside, do_touching};
    label = i;
    for (int k = 0; k < 2; k++) {
        rectangle = (laddertick_rectangle){(int32_t)next(), (int32_t)next(), INT32_MAX, INT32_MAX};
        if (next() % 2 == 0)
            rectangle = (laddertick_rectangle){-(int32_t)(next() % 8), -(int32_t)(next() % 8), (int32_t)(next() % 400), (int32_t)(next() % 400)};
        lend_numbers(NAMES[k], CALLS[k], 0, last, 0);
        laddertick_written all = written;
        size_t n = all.place;
        if (opened.number != 0 ? all.number != opened.number || n != opened.place : all.number != (n == 0 ? 0 : LADDERTICK_OUTPUT_TOO_SHORT))
            wrong("not refused as opening is, or 15 not as it should be told");
        if (all.number == LADDERTICK_OUTPUT_TOO_SHORT) {
            lend_numbers(NAMES[k], CALLS[k], n - 1, last, 0);
            if (written.number != all.number || written.place != n)
                wrong("15 is not told as it should be");
            for (size_t more = 0; more < 4; more += 3) {
                lend_numbers(NAMES[k], CALLS[k], n + more, last, n);
                if (written.number != 0 || written.place != n)
                    wrong("not as many as were counted");
                for (size_t j = 1; j < n; j++)
                    if (numbers[j] <= numbers[j - 1])
                        wrong("the numbers do not rise");
            }
        }
        rectangle = k == 0 ? (laddertick_rectangle){1, 0, 0, 0} : (laddertick_rectangle){0, 1, 0, 0};
        lend_numbers(NAMES[k], CALLS[k], 2, last, 0);
        if (written.number != (input_len > LADDERTICK_LONGEST ? LADDERTICK_INPUT_TOO_LONG : LADDERTICK_RECTANGLE_TURNED) || written.place != 0)
            wrong("22 is not told as it should be");
    }
    call("laddertick_nearest", do_nearest);
    calls++;
    if (opened.number != 0 ? written.number != opened.number || written.place != opened.place : written.number != 0)
        wrong("nearest is not refused as opening is");
}

/* The index, behind the plain listing `plain` of so many labels, and every label opened: their lines together are the listing's, but for frame fe. */
static uint64_t indexed(int last, laddertick_written plain, size_t labels)
{
    uint64_t sum = 0;
    laddertick_written all = {0, labels};
    if (plain.number != 0)
        all = plain;
    indexes(labels + 1, last, all);
    if (plain.number == 0 && labels > 0)
        indexes(labels - 1, last, (laddertick_written){LADDERTICK_TOO_MANY_LABELS, labels});
    entries = NULL;
    entries_len = 0;
    call("laddertick_index", do_index);
    calls++;
    if (written.number != (all.number == 0 && labels > 0 ? LADDERTICK_TOO_MANY_LABELS : all.number) || written.place != all.place)
        wrong("NULL of length 0 is not answered as an empty list");
    opens(labels, last, LADDERTICK_NO_SUCH_LABEL, labels);
    indexes(labels, last, all);
    if (plain.number != 0)
        return 0;
    for (size_t i = 0; i < labels; i++) {
        laddertick_written w = opens(i, last, 0, 0);
        if (w.number != 0)
            wrong("an entry of the index is refused");
        lies(i, last, w);
        writes_entry(entries[i], last);
        if (i > 0 && entries[i].first < entries[i - 1].last)
            wrong("an entry that begins before the one before it ends");
        sum += w.place;
    }
    opens(labels, last, LADDERTICK_NO_SUCH_LABEL, labels);
    opens(SIZE_MAX, last, LADDERTICK_NO_SUCH_LABEL, SIZE_MAX);
    if (plain.place != sum && plain.place != sum + 11)
        wrong("the labels opened are not the listing");
    return sum;
}

/* Entries that no index made, one alone in its list. */
static void made(int last)
{
    for (int k = 0; k < 4; k++) {
        uint64_t r = next();
        lend_list(1, last);
        size_t a = r % 4 == 0 ? ODD[r / 8 % 8] : r / 8 % (input_len + 2), b = r / 4096 % 4 == 0 ? ODD[r / 65536 % 8] : r / 65536 % (input_len + 2);
        laddertick_entry e = {a < b || r % 5 == 0 ? a : b, a < b || r % 5 == 0 ? b : a, ODD[r / 1024 % 8], (int32_t)next(), (int32_t)next()};
        entries[0] = e;
        int outside = e.last > input_len || e.last < e.first;
        laddertick_written w = opens(0, last, outside ? LADDERTICK_STATE_OUTSIDE : 0, e.last);
        if (!outside && w.number == LADDERTICK_STATE_OUTSIDE)
            wrong("16 is not told as it should be");
        lies(0, last, w);
        if (memcmp(&entries[0], &e, sizeof e) != 0)
            wrong("the entry is changed");
    }
}

/* The input joined with the second half of it, behind the plain listing `plain`: where the input is refused, it is the first file. */
static uint64_t joins(int last, laddertick_written plain)
{
    laddertick_written w = within(writes("laddertick_join", do_join, last), LADDERTICK_JOIN_ROOM(input_len, second_len));
    int refused = w.number != 0;
    if (joined.file > 2 || (joined.file != 0) != refused)
        wrong("a file is told where none was refused, or none where one was");
    if (plain.number != 0 && (joined.file != 1 || w.number != plain.number || w.place != plain.place))
        wrong("not the first file's refusal");
    if (plain.number == 0 && joined.file == 1)
        wrong("the first file is refused, which laddertick_list accepts");
    return w.number + 31 * (w.place + 31 * (uint64_t)joined.file);
}

static void states(void)
{
    for (int k = 0; k < 8; k++) {
        uint64_t r = next();
        walk.place = r % 4 == 0 ? ODD[r / 8 % 8] : r / 8 % (input_len + 2);
        walk.pending = r / 4096 % 4 == 0 ? ODD[r / 65536 % 8] : r / 65536 % (walk.place < input_len ? walk.place + 2 : input_len + 2);
        walk.x = (int32_t)next();
        walk.y = (int32_t)next();
        call("laddertick_step", do_step);
        start = ODD[r % 8] + walk.place;
        len = next() % 2 == 0 ? ODD[r / 512 % 8] : next() % (input_len + 2);
        lend("laddertick_data", do_data, spare(), 1);
        int outside = walk.place > input_len || walk.pending > walk.place;
        if (outside != (answer.kind == LADDERTICK_REFUSED && answer.number == LADDERTICK_STATE_OUTSIDE))
            wrong("16 is not told as it should be");
        if (answer.kind == LADDERTICK_REFUSED && !same(answer.next, walk))
            wrong("a refused step did not hand its state back");
        calls++;
    }
}

static void hold(const uint8_t *bytes, size_t n)
{
    uint64_t sums[2];
    size_t labels;
    for (int last = 0; last < 2; last++) {
        mprotect(inputs.at, inputs.len, PROT_READ | PROT_WRITE);
        memset(inputs.at, '"', inputs.len);
        memcpy(placed(inputs, n, last), bytes, n);
        mprotect(inputs.at, inputs.len, PROT_READ);
        input = placed(inputs, n, last);
        input_len = n;
        mprotect(seconds.at, seconds.len, PROT_READ | PROT_WRITE);
        memset(seconds.at, '"', seconds.len);
        second_len = n - n / 2;
        memcpy(placed(seconds, second_len, last), bytes + n / 2, second_len);
        mprotect(seconds.at, seconds.len, PROT_READ);
        second = placed(seconds, second_len, last);
        sums[last] = walks(last, &labels);
        laddertick_written listing = within(writes("laddertick_list", do_list, last), LADDERTICK_LIST_ROOM(n));
        laddertick_written text = within(writes("laddertick_normalise", do_normalise, last), LADDERTICK_NORMALISE_ROOM(n));
        sums[last] = sums[last] * 31 + listing.number + listing.place;
        sums[last] = sums[last] * 31 + text.number + text.place;
        sums[last] = sums[last] * 31 + checks(last, listing);
        sums[last] = sums[last] * 31 + indexed(last, listing, labels);
        made(last);
        for (int k = 0; k < 4; k++)
            stranges(last);
        sums[last] = sums[last] * 31 + joins(last, listing);
    }
    doing = "both placements";
    if (sums[0] != sums[1])
        wrong("are answered differently");
    states();
}

/* An empty input at NULL. */
static void hold_null(void)
{
    input = NULL;
    input_len = 0;
    size_t labels;
    walks(0, &labels);
    second = NULL;
    second_len = 0;
    laddertick_written listing = writes("laddertick_list", do_list, 0);
    checks(0, listing);
    indexed(0, listing, labels);
    made(0);
    stranges(0);
    joins(0, listing);
    writes("laddertick_normalise", do_normalise, 0);
    states();
}

/* A copy with a few bytes changed or lost, or cut short. */
static size_t damaged(uint8_t *to, const uint8_t *from, size_t n)
{
    static const uint8_t LIKELY[] = "\n\r ,\"GWNRABbLOSXP019-+\t\x0b\x80\xc2\xa0\xe2\xff";
    memcpy(to, from, n);
    for (unsigned k = 1 + next() % 3; k > 0 && n > 0; k--) {
        size_t at = next() % n;
        switch (next() % 4) {
        case 0:
            to[at] = (uint8_t)next();
            break;
        case 1:
            to[at] = LIKELY[next() % (sizeof LIKELY - 1)];
            break;
        case 2:
            memmove(to + at, to + at + 1, n - at - 1);
            n--;
            break;
        default:
            n = at;
        }
    }
    return n;
}

int main(int argc, char **argv)
{
    if (argc != 4) {
        fputs("usage: guard CASES ROUNDS SEED\n", stderr);
        return 2;
    }
    FILE *file = fopen(argv[1], "rb");
    if (file == NULL) {
        perror(argv[1]);
        return 2;
    }
    size_t rounds = strtoul(argv[2], NULL, 10);
    seed = strtoull(argv[3], NULL, 10) | 1;
    static uint8_t bytes[65536], copy[65536];
    inputs = map(sizeof bytes);
    seconds = map(sizeof bytes);
    outs = map(LADDERTICK_LIST_ROOM(sizeof bytes));
    drawn = map(sizeof bytes * sizeof *elements / 4);
    plain_list = map(sizeof bytes * sizeof *drawing / 4);
    lists = map(sizeof bytes * sizeof *entries / 4); /* an element and its print line have more than four bytes */
    stack = map(LADDERTICK_STACK - PAGE);
    memset(stack.at, 0xa5, stack.len);
    /* A fault on the small stack itself must still be told. */
    static uint8_t own[65536];
    stack_t alternative = {.ss_sp = own, .ss_size = sizeof own};
    sigaltstack(&alternative, NULL);
    struct sigaction act = {.sa_handler = fault, .sa_flags = SA_ONSTACK};
    sigaction(SIGSEGV, &act, NULL);
    sigaction(SIGBUS, &act, NULL);
    hold_null();
    uint8_t head[4];
    size_t most = 0;
    while (fread(head, 1, 4, file) == 4) {
        size_t n = (size_t)head[0] << 24 | (size_t)head[1] << 16 | (size_t)head[2] << 8 | head[3];
        if (n > sizeof bytes || fread(bytes, 1, n, file) != n) {
            fprintf(stderr, "guard: %s: no case of %zu bytes\n", argv[1], n);
            return 2;
        }
        now_case++;
        hold(bytes, n);
        for (now_round = 1; now_round <= rounds; now_round++)
            hold(copy, damaged(copy, bytes, n));
        now_round = 0;
        if (n > most)
            most = n;
    }
    many();
    printf("%zu inputs of up to %zu bytes, each with %zu damaged copies: %zu calls, none outside what was lent; deepest stack %zu bytes\n", now_case, most, rounds,
           calls, deepest());
    printf("%zu elements and %zu labels written and read again; of %zu elements made by chance %zu were written, and the others refused\n", elements_written, labels_written, strange_made,
           strange_written);
    return 0;
}
