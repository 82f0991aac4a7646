/* Options, and a command on several files: each is read, told and freed before the next, and one that is refused or missing does not stop the others. */
#ifndef SEVERAL_H
#define SEVERAL_H

#include "file.h"

/* The words behind the options: files, or one file and the number of a label. */
typedef struct words {
    char **at;
    size_t len;
} words;

static inline _Noreturn void bad_usage(const char *usage)
{
    fprintf(stderr, "usage: %s\n", usage);
    exit(2);
}

/* The page of a name. */
static inline const encoding *page_of(const char *name)
{
    for (size_t k = 0; name != NULL && k < sizeof ENCODINGS / sizeof ENCODINGS[0]; k++)
        if (strcmp(ENCODINGS[k].name, name) == 0)
            return &ENCODINGS[k];
    give_up("--encoding", "takes latin1, cp437, cp850 or cp1252");
}

/* Sets what is asked for; of the options, --json, --keep-going and --encoding PAGE, the command takes those whose first letters are in `taken`. Options may stand before
   and behind files; -- ends them. The words that are left are moved to the front. */
static inline words read_options(char **argv, const char *taken, const char *usage)
{
    static char line[1024];
    words w = {argv, 0};
    int open = 1;
    /* Many refusals may be told: a line at a time and not a byte. */
    setvbuf(stderr, line, _IOLBF, sizeof line);
    for (char **word = argv; *word != NULL; word++) {
        if (!open || (*word)[0] != '-' || (*word)[1] == '\0')
            argv[w.len++] = *word;
        else if (strcmp(*word, "--") == 0)
            open = 0;
        else if ((*word)[1] != '-' || strchr(taken, (*word)[2]) == NULL)
            bad_usage(usage);
        else if (strcmp(*word, "--json") == 0)
            asked.json = 1;
        else if (strcmp(*word, "--keep-going") == 0)
            asked.keep_going = 1;
        else if (strncmp(*word, "--encoding=", 11) == 0)
            asked.page = page_of(*word + 11);
        else if (strcmp(*word, "--encoding") == 0)
            asked.page = page_of(*++word);
        else
            bad_usage(usage);
    }
    size_t inputs = 0;
    for (size_t i = 0; i < w.len; i++)
        inputs += strcmp(w.at[i], "-") == 0;
    if (w.len == 0 || inputs > 1)
        bad_usage(usage);
    return w;
}

/* Behind one file a word of digits is the number of a label. */
static inline int has_number(words w)
{
    return w.len == 2 && w.at[1][0] != '\0' && w.at[1][strspn(w.at[1], "0123456789")] == '\0';
}

typedef int one_file(const char *name, bytes input, const void *with);

/* The command on one file. Gives the status to exit with. */
static inline int on_file(const char *name, one_file *command, const void *with)
{
    bytes input = try_file(name);
    if (input.at == NULL) {
        const char *why = strerror(errno);
        if (asked.json) {
            json_open(name, "error");
            json_words("error", why);
            json_close();
        }
        complain(name, why);
        return 2;
    }
    int status = command(name, input, with);
    free(input.at);
    return status;
}

/* The command on all files, in their order; the status is that of the worst. It ends where nothing can be written any more. */
static inline int on_files(words w, one_file *command, const void *with)
{
    int worst = 0;
    asked.several = w.len > 1;
    for (size_t i = 0; i < w.len && !ferror(stdout); i++) {
        int status = on_file(w.at[i], command, with);
        worst = status > worst ? status : worst;
    }
    return flushed(worst);
}

/* The last object of a file: labels that were told, elements behind the last print line, refusals. */
static inline void json_file(const char *name, size_t labels, size_t pending, size_t refused)
{
    json_open(name, "file");
    json_number("labels", (long long)labels);
    json_number("pending", (long long)pending);
    json_number("refused", (long long)refused);
    json_close();
}

/* Of several files, the line before a block of words: the file's name, as `ls` has it for folders. An object says its file itself. */
static inline void put_heading(const char *name)
{
    static int before;
    if (!asked.several || asked.json)
        return;
    if (before++)
        putchar('\n');
    put_name(stdout, name);
    puts(":");
}

/* Of several files, the name before each line, as `grep` has it. */
static inline void put_prefix(const char *name)
{
    if (!asked.several)
        return;
    put_name(stdout, name);
    fputs(": ", stdout);
}

#endif
