/*
 * Writes the listing of files, or the normalised text of one, to standard output.
 *
 *     convert list FILE..       the frames of its labels, one a line in hexadecimal; of a refused file the one frame ff
 *     convert list FILE N       the frames of label N alone, from 1, opened by its entry in the index
 *     convert normalise FILE    the file with blanks and empty lines taken away
 *
 * The library says how many bytes it needs; so the first call lends none. Normalised texts of several files are no text of all of them, and `join` is what makes one.
 */
#include "labels.h"
#include "several.h"

/* What is asked for: of label `number`, from 1, its lines; of 0 all of the file. */
typedef struct request {
    int normalise;
    size_t number;
} request;

static laddertick_written answer(const request *r, bytes input, labels l, uint8_t *out, size_t out_len)
{
    if (r->number != 0 && l.said.number != 0)
        return l.said;
    if (r->number != 0)
        return laddertick_open(input.at, input.len, l.at, l.len, r->number - 1, out, out_len);
    return (r->normalise ? laddertick_normalise : laddertick_list)(input.at, input.len, out, out_len);
}

/* Frames, each behind the file's name where there are several. */
static void put_frames(const char *name, const uint8_t *at, size_t len)
{
    for (size_t end, i = 0; i < len; i = end) {
        const uint8_t *lf = memchr(at + i, '\n', len - i);
        end = lf == NULL ? len : (size_t)(lf - at) + 1;
        put_prefix(name);
        fwrite(at + i, 1, end - i, stdout);
    }
}

static int convert(const char *name, bytes input, const void *with)
{
    const request *r = with;
    labels l = {NULL, 0, {0, 0}};
    if (r->number != 0)
        l = index_file(name, input);
    laddertick_written w = answer(r, input, l, NULL, 0);
    size_t need = w.number == LADDERTICK_OUTPUT_TOO_SHORT ? w.place : 0;
    uint8_t *out = room(name, need);
    if (need != 0)
        w = answer(r, input, l, out, need);
    if (w.number == 0 && r->normalise) {
        fwrite(out, 1, w.place, stdout);
    } else if (w.number == 0) {
        put_frames(name, out, w.place);
    } else if (!r->normalise) {
        put_prefix(name);
        printf("ff%02x%08zx\n", (unsigned)w.number, w.place);
    }
    /* What goes to standard output is out before the words of a refusal. */
    int status = flushed(0);
    if (w.number == LADDERTICK_NO_SUCH_LABEL && status == 0)
        status = refuse_number(name, input, r->number, l.len);
    else if (w.number != 0 && status == 0)
        status = refuse(name, input, w.number, w.place);
    free(out);
    free(l.at);
    return status;
}

int main(int argc, char **argv)
{
    static const char usage[] = "convert list FILE.. | convert list FILE N | convert normalise FILE";
    request r = {.normalise = argc > 1 && strcmp(argv[1], "normalise") == 0};
    if (argc < 3 || (!r.normalise && strcmp(argv[1], "list") != 0))
        bad_usage(usage);
    words w = read_options(argv + 2, "", usage);
    if (r.normalise && w.len != 1)
        bad_usage(usage);
    r.number = has_number(w) ? label_number(w.at[1]) : 0;
    w.len -= r.number != 0;
    return on_files(w, convert, &r);
}
