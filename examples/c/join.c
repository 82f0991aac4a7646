/*
 * Writes two files, joined, to standard output: the first normalised, a line N, the second normalised.
 *
 *     join FIRST SECOND    one of them may be -, which is standard input
 *
 * Where one is refused, standard error says which and why. The library says how many bytes it needs; so the first call lends none.
 */
#include "file.h"

int main(int argc, char **argv)
{
    if (argc != 3 || (strcmp(argv[1], "-") == 0 && strcmp(argv[2], "-") == 0)) {
        fputs("usage: join FIRST SECOND; one of them may be -, which is standard input\n", stderr);
        return 2;
    }
    bytes first = read_file(argv[1]), second = read_file(argv[2]);
    uint8_t none;
    laddertick_joined j = laddertick_join(first.at, first.len, second.at, second.len, &none, 0);
    size_t need = j.number == LADDERTICK_OUTPUT_TOO_SHORT ? j.place : 0;
    uint8_t *out = room(argv[1], need);
    int status = 0;
    if (need != 0)
        j = laddertick_join(first.at, first.len, second.at, second.len, out, need);
    if (j.number == 0) {
        fwrite(out, 1, j.place, stdout);
        status = flushed(0);
    } else if (j.file == 0) {
        status = refuse("the joined text", (bytes){out, 0}, j.number, j.place);
    } else {
        fprintf(stderr, "laddertick: the %s file is refused\n", j.file == 1 ? "first" : "second");
        status = j.file == 1 ? refuse(argv[1], first, j.number, j.place) : refuse(argv[2], second, j.number, j.place);
    }
    free(out);
    free(second.at);
    free(first.at);
    return status;
}
