/*
 * The part of guard.c that lends elements to be written: those of the inputs, alone and as labels, and structs with any bytes in any of their fields. A struct is lent by value,
 * a label's between guard pages and not writable. Held: an element is written or refused 23; what is written reads as an equal element, and nothing more; a label is what its
 * elements are alone, or refused by the first that is, or by its counts.
 */

static laddertick_element element;
static laddertick_element *drawing;
static size_t drawing_len;
static int32_t sets, copies;
static region plain_list;
static size_t elements_written, labels_written, strange_made, strange_written;

/* Elements of the last file that was walked, to be damaged. */
enum { KEPT = 16 };
static laddertick_element kept[KEPT];
static size_t kept_count;

static void do_write(void) { written = laddertick_write(input, input_len, element, out, out_len); }
static void do_write_label(void) { written = laddertick_write_label(input, input_len, drawing, drawing_len, sets, copies, out, out_len); }
static void do_write_label_300(void) { written = laddertick_write_label_300(input, input_len, elements, elements_len, sets, copies, out, out_len); }

_Static_assert(sizeof(laddertick_element_300) == sizeof(laddertick_element), "one form of an element, whatever its dots");

/* Equal in every field, the data by its bytes. Between the fields that are compared at once there are no bytes that are none's (tools/layout). */
static int equal(laddertick_element a, const uint8_t *of_a, laddertick_element b, const uint8_t *of_b)
{
    const char *p = (const char *)&a, *q = (const char *)&b;
    size_t flags = offsetof(laddertick_element, level) + 1, x = offsetof(laddertick_element, x), wide = offsetof(laddertick_element, wide) + sizeof a.wide,
           height = offsetof(laddertick_element, text_height), data = offsetof(laddertick_element, data_start);
    return memcmp(p, q, flags) == 0 && memcmp(p + x, q + x, wide - x) == 0 && memcmp(p + height, q + height, data - height) == 0 && a.data_len == b.data_len &&
           (a.data_len == 0 || memcmp(of_a + a.data_start, of_b + b.data_start, a.data_len) == 0);
}

/* The step over a text yields e, whose data stands in the input. */
static laddertick_walk yields(const uint8_t *text, size_t n, laddertick_walk from, laddertick_element e)
{
    laddertick_answer a = laddertick_step(text, n, from);
    if (a.kind != e.kind || !equal(a.element, text, e, input))
        wrong("what was written reads as another element");
    return a.next;
}

/* The end of a text that was written is reached, with so many elements pending. */
static void ends(const uint8_t *text, size_t n, laddertick_walk from, size_t pending)
{
    laddertick_answer a = laddertick_step(text, n, from);
    if (a.kind != LADDERTICK_END || a.next.pending != pending)
        wrong("more is written than was lent");
}

/* An element alone, in buffers of every size, then read again. Gives the answer with room to spare. */
static laddertick_written writes_element(laddertick_element e, int last)
{
    element = e;
    answer_most = (e.data_len < input_len ? e.data_len : input_len) + 128;
    laddertick_written w = writes("laddertick_write", do_write, last);
    if (w.number == 0) {
        lend("laddertick_write", do_write, w.place, last);
        ends(out, w.place, yields(out, w.place, laddertick_start(), e), 1);
        elements_written++;
    } else if (w.number != LADDERTICK_NOT_READABLE || w.place != 0) {
        wrong("neither written nor refused 23");
    }
    answer_most = 0;
    return w;
}

/* An element that a step answered: no line yields it at reference 0,0 only where its far corner is past 32 bits. */
static size_t writes_step(laddertick_element e, int last)
{
    laddertick_written w = writes_element(e, last);
    int far = (e.kind == LADDERTICK_BOX || e.kind == LADDERTICK_DIAGONAL) && ((int64_t)e.x + e.width > INT32_MAX || (int64_t)e.y + e.height > INT32_MAX);
    if (w.number != 0 && !far)
        wrong("an element of the file is refused");
    kept[kept_count++ % KEPT] = e;
    return w.place;
}

/* What a label of these elements is to be answered with room to spare, from what each is answered alone. */
static laddertick_written due_of(const laddertick_element *list, size_t n)
{
    char line[32];
    size_t length = 2 + (size_t)snprintf(line, sizeof line, "P%d,%d\n", (int)sets, (int)copies);
    for (size_t k = 0; k < n; k++) {
        laddertick_written w = laddertick_write(input, input_len, list[k], NULL, 0);
        if (w.number == LADDERTICK_NOT_READABLE)
            return (laddertick_written){LADDERTICK_NOT_READABLE, k};
        length += w.place;
    }
    if (n == 0 || sets < 0 || copies < 0)
        return (laddertick_written){LADDERTICK_NOT_READABLE, n};
    return (laddertick_written){0, length};
}

/* A label in buffers of every size, then read again: the line N, the elements, the print. */
static void writes_label(const char *name, void (*function)(void), const laddertick_element *list, size_t n, int last)
{
    laddertick_written due = due_of(list, n);
    answer_most = (due.number == 0 ? due.place : 0) + 128;
    laddertick_written w = writes(name, function, last);
    if (w.number != due.number || w.place != due.place)
        wrong("not what its elements are alone");
    if (w.number == 0) {
        lend(name, function, w.place, last);
        laddertick_answer a = laddertick_step(out, out_len, laddertick_start());
        if (a.kind != LADDERTICK_CLEAR)
            wrong("no line N");
        for (size_t k = 0; k < n; k++)
            a.next = yields(out, out_len, a.next, list[k]);
        a = laddertick_step(out, out_len, a.next);
        if (a.kind != LADDERTICK_PRINT || a.count != n || a.sets != sets || a.copies != copies)
            wrong("another print line");
        ends(out, out_len, a.next, 0);
        labels_written++;
    }
    answer_most = 0;
}

/* A list of n elements at either end of its region, which may be read only while it is lent. */
static void writes_list(const laddertick_element *list, size_t n, int last)
{
    mprotect(plain_list.at, plain_list.len, PROT_READ | PROT_WRITE);
    drawing = n == 0 ? NULL : (laddertick_element *)placed(plain_list, n * sizeof *list, last);
    drawing_len = n;
    if (n > 0)
        memcpy(drawing, list, n * sizeof *list);
    mprotect(plain_list.at, plain_list.len, PROT_READ);
    writes_label("laddertick_write_label", do_write_label, drawing, n, last);
}

/* The label of an entry that the index made. */
static void writes_entry(laddertick_entry e, int last)
{
    static laddertick_element list[65536 / 4];
    laddertick_walk at = {e.x, e.y, 0, e.first};
    laddertick_answer a;
    size_t n = 0;
    do {
        a = laddertick_step(input, e.last, at);
        if (a.kind >= LADDERTICK_TEXT && a.kind <= LADDERTICK_UPC_E)
            list[n++] = a.element;
        else if (a.kind == LADDERTICK_CLEAR)
            n = 0;
        at = a.next;
    } while (a.kind != LADDERTICK_PRINT);
    sets = a.sets;
    copies = a.copies;
    writes_list(list, n, last);
}

/* The elements that laddertick_to_300 made, where they stand. */
static void writes_300(int last)
{
    static laddertick_element list[65536 / 4];
    memcpy(list, elements, elements_len * sizeof *list);
    sets = converted.sets;
    copies = converted.copies;
    mprotect(drawn.at, drawn.len, PROT_READ);
    writes_label("laddertick_write_label_300", do_write_label_300, list, elements_len, last);
    mprotect(drawn.at, drawn.len, PROT_READ | PROT_WRITE);
}

/* ---- structs that no step answered ---- */

static int32_t strange_number(int32_t near)
{
    static const int32_t LIKELY[] = {0, 1, 2, 3, -1, 4, 9, 55, 99, 100, INT32_MAX, INT32_MIN};
    uint64_t r = next();
    switch (r % 4) {
    case 0:
        return (int32_t)next();
    case 1:
        return near + (int32_t)(r / 4 % 3) - (near == INT32_MAX ? 2 : near == INT32_MIN ? 0 : 1);
    default:
        return LIKELY[r / 4 % (sizeof LIKELY / sizeof LIKELY[0])];
    }
}

/* Another value in one of its fields: a flag, a number, a size or ratio, where its data stands. */
static void damage_element(laddertick_element *e)
{
    uint8_t *at = (uint8_t *)e;
    uint64_t r = next();
    switch (r % 8) {
    case 0:
    case 1:
        at[r / 8 % (offsetof(laddertick_element, level) + 1)] = r / 1024 % 4 == 0 ? (uint8_t)next() : (uint8_t)(r / 8192 % 5);
        break;
    case 2: {
        double *size = (double *)(void *)(at + offsetof(laddertick_element, text_height)) + r / 8 % 3;
        uint64_t bits = next();
        if (r / 64 % 4 == 0)
            memcpy(size, &bits, sizeof bits);
        else
            *size = r / 64 % 4 == 1 ? *size + 1 : r / 64 % 4 == 2 ? -*size : 2;
        break;
    }
    case 3:
        e->data_start = r / 64 % 3 == 0 ? ODD[r / 8 % 8] : r / 1024 % (input_len + 2);
        break;
    case 4:
        e->data_len = r / 64 % 3 == 0 ? ODD[r / 8 % 8] : r / 1024 % (input_len + 2);
        break;
    default: {
        int32_t *number = (int32_t *)(void *)(at + offsetof(laddertick_element, x)) + r / 8 % 16;
        *number = strange_number(*number);
    }
    }
}

/* Any bytes in every field; an element of a file with some of its fields changed; or nothing but some fields. */
static laddertick_element strange(void)
{
    laddertick_element e;
    uint64_t r = next();
    memset(&e, 0, sizeof e);
    if (r % 8 == 0) {
        for (size_t i = 0; i < sizeof e; i++)
            ((uint8_t *)&e)[i] = (uint8_t)next();
        if (r / 8 % 2 == 0)
            e.kind = (uint8_t)(1 + r / 16 % 16);
    } else {
        if (r % 8 < 7 && kept_count > 0)
            e = kept[r / 8 % (kept_count < KEPT ? kept_count : KEPT)];
        else
            e.kind = (uint8_t)(r / 8 % 18);
        for (uint64_t k = r / 1024 % 4; k > 0; k--)
            damage_element(&e);
    }
    return e;
}

/* Such structs, each alone and some of them as a label, for either printer. */
static void stranges(int last)
{
    static const int32_t COUNTS[] = {0, 1, 7, INT32_MAX, -1, INT32_MIN, 1, 2};
    laddertick_element list[4];
    size_t n = next() % 5;
    for (size_t k = 0; k < n; k++) {
        list[k] = strange();
        strange_made++;
        strange_written += writes_element(list[k], last).number == 0;
    }
    sets = COUNTS[next() % 8];
    copies = COUNTS[next() % 8];
    writes_list(list, n, last);
    elements = (laddertick_element_300 *)placed(drawn, n * sizeof *list, last);
    elements_len = n;
    memcpy(elements, list, n * sizeof *list);
    mprotect(drawn.at, drawn.len, PROT_READ);
    writes_label("laddertick_write_label_300", do_write_label_300, list, n, last);
    mprotect(drawn.at, drawn.len, PROT_READ | PROT_WRITE);
}

/* ---- as many elements as a label may have, and one more ---- */

/* One box again and again, from the same few pages; the list ends before a guard page. A call takes two seconds, so
   there is one for each printer: for the one the most, for the other one more. */
static void many(void)
{
    enum { MOST = 16777216, BLOCKS = 64 };
    const laddertick_element box = {.kind = LADDERTICK_BOX, .width = 4, .height = 3, .thickness = 3};
    const size_t each = MOST / BLOCKS, block = each * sizeof box, all = (BLOCKS + 1) * block;
    FILE *pages = tmpfile();
    uint8_t *at = mmap(NULL, all + PAGE, PROT_NONE, MAP_PRIVATE | MAP_ANONYMOUS, -1, 0);
    if (pages == NULL || at == MAP_FAILED)
        goto failed;
    for (size_t k = 0; k < each; k++)
        if (fwrite(&box, sizeof box, 1, pages) != 1)
            goto failed;
    if (fflush(pages) != 0)
        goto failed;
    for (size_t k = 0; k <= BLOCKS; k++)
        if (mmap(at + k * block, block, PROT_READ, MAP_SHARED | MAP_FIXED, fileno(pages), 0) == MAP_FAILED)
            goto failed;
    input = NULL;
    input_len = 0;
    out = NULL;
    out_len = 0;
    sets = copies = 1;
    drawing_len = MOST;
    drawing = (laddertick_element *)(void *)(at + all) - drawing_len;
    call("laddertick_write_label", do_write_label);
    if (written.number != LADDERTICK_OUTPUT_TOO_SHORT || written.place != strlen("N\nP1,1\n") + MOST * strlen("LO0,0,4,3\n"))
        wrong("no label of 16,777,216 elements");
    elements_len = MOST + 1;
    elements = (laddertick_element_300 *)(void *)(at + all) - elements_len;
    call("laddertick_write_label_300", do_write_label_300);
    if (written.number != LADDERTICK_NOT_READABLE || written.place != MOST + 1)
        wrong("a label of 16,777,217 elements");
    calls += 2;
    munmap(at, all + PAGE);
    fclose(pages);
    return;
failed:
    perror("guard");
    exit(2);
}
