/* lids: the noise of lids, a row each. lids(1) says what it takes and prints. */
#define _POSIX_C_SOURCE 200809L

#include "lid.h"
#include "measuring.h"
#include "names.h"
#include "reasons.h"
#include "rows.h"

#include <inttypes.h>
#include <stdio.h>
#include <stdlib.h>
#include <string.h>
#include <unistd.h>

/* 2 wins over 1. */
enum status { ALL_GIVEN = 0, SOME_WITHOUT = 1, FAILED = 2 };

/* What the words of the command ask for. */
struct request {
    bool help, version, tsv, lidnoise, lid, pgm;
    char **names;
    size_t count;
};

static const char help[] =
    "usage: lids [--tsv] [--lid | --pgm] FILE..\n"
    "       lids --lidnoise [--lid | --pgm] FILE\n"
    "       lids --help | --version\n"
    "Measures the noise of lids, in levels of 0 to 255, and prints a row a lid.\n"
    "FILE is a lid (width and height, two bytes each, low first, then the pixels, a\n"
    "byte each, row by row) or a binary PGM file of maximum 255 without comments;\n"
    "sides up to 16,384. - is standard input.\n"
    "\n"
    "  --tsv       rows parted by tabs, for programs; no end lines\n"
    "  --lidnoise  the two lines of lidnoise; the reason is on standard error\n"
    "  --lid       every FILE is a lid, also one that looks like PGM\n"
    "  --pgm       every FILE is a PGM file\n"
    "  --          ends the options\n"
    "\n"
    "  noise           the lower, the more surely pencil is told from grain\n"
    "  number          0 with a figure, else why there is none, which the end says\n"
    "  width height    as the header says\n"
    "  b0 b1 b2 b3     windows kept in each band of brightness, from dark to bright\n"
    "  rail            windows dropped near black or white\n"
    "  rounds passes   until the variances settled; 2 where the first has no figure\n"
    "\n"
    "Status: 0 all lids have figures, 1 some have none, 2 something could not be read\n"
    "or written. lids(1) says more.\n";

/* Ends the program with the system's word for what failed. */
static _Noreturn void stop(const char *what)
{
    perror(what);
    exit(FAILED);
}

/* A failed write is found here, also an earlier one: the stream remembers. */
static void flush_output(void)
{
    if (fflush(stdout) != 0 || ferror(stdout)) {
        stop("lids: standard output");
    }
}

static void close_output(void)
{
    flush_output();
    if (fclose(stdout) != 0) {
        stop("lids: standard output");
    }
}

/* The field that an option sets; null where there is no such option. */
static bool *option(struct request *request, const char *word)
{
    const struct {
        const char *word;
        bool *field;
    } options[] = {
        {"--help", &request->help},
        {"--version", &request->version},
        {"--tsv", &request->tsv},
        {"--lidnoise", &request->lidnoise},
        {"--lid", &request->lid},
        {"--pgm", &request->pgm},
    };
    for (size_t k = 0; k < sizeof options / sizeof options[0]; k++) {
        if (strcmp(word, options[k].word) == 0) {
            return options[k].field;
        }
    }
    return NULL;
}

static bool refuse_word(const char *word)
{
    fputs("lids: ", stderr);
    put_name(stderr, word);
    fputs(": no such option; lids --help lists them (a file of that name: ./NAME, or after --)\n", stderr);
    return false;
}

static bool looks_like_option(const char *word)
{
    return word[0] == '-' && word[1] != '\0';
}

/* Parts options from names; the names move to the front of `words`. False where a word is refused. */
static bool part_words(char **words, size_t count, struct request *request)
{
    bool ended = false;
    *request = (struct request){.names = words};
    for (size_t k = 0; k < count; k++) {
        if (ended || !looks_like_option(words[k])) {
            request->names[request->count++] = words[k];
        } else if (strcmp(words[k], "--") == 0) {
            ended = true;
        } else {
            bool *field = option(request, words[k]);
            if (field == NULL) {
                return refuse_word(words[k]);
            }
            *field = true;
        }
    }
    return true;
}

/* Why a request cannot be met; null where it can. */
static const char *fault_of(const struct request *request)
{
    if (request->help || request->version) {
        return NULL;
    }
    if (request->lidnoise && request->tsv) {
        return "--lidnoise and --tsv do not go together";
    }
    if (request->lid && request->pgm) {
        return "--lid and --pgm do not go together";
    }
    if (request->count == 0) {
        return "no file is named";
    }
    return request->lidnoise && request->count > 1 ? "--lidnoise takes one file" : NULL;
}

static bool can_be_met(const struct request *request)
{
    const char *fault = fault_of(request);
    if (fault != NULL) {
        fprintf(stderr, "lids: %s; lids --help says what lids takes\n", fault);
    }
    return fault == NULL;
}

static enum format asked_format(const struct request *request)
{
    if (request->lid) {
        return LID;
    }
    return request->pgm ? PGM : EITHER;
}

static enum status status_of(const struct lid *lid)
{
    if (!was_read(lid)) {
        return FAILED;
    }
    return has_figure(lid) ? ALL_GIVEN : SOME_WITHOUT;
}

/* Measures a lid. Meanwhile the terminal shows how far it is, if it is to: the cursor waits at the line's front, so
   that a row which comes there through a pipe covers it. */
static void measure_shown(struct lid *lids, size_t k, size_t count, bool shown)
{
    int width = shown ? fprintf(stderr, "lids: %zu of %zu\r", k + 1, count) : 0;
    measure_lid(&lids[k]);
    if (width > 0) {
        fprintf(stderr, "%*s\r", width - 1, "");
    }
}

static void print_heading(bool tsv, size_t column)
{
    if (tsv) {
        print_tsv_heading();
    } else {
        print_table_heading(column);
    }
    flush_output();
}

static void print_row(bool tsv, const struct lid *lid, size_t column)
{
    if (tsv) {
        print_tsv_row(lid);
    } else {
        print_table_row(lid, column);
    }
    flush_output();
}

/* Measures the lids and prints each row as it is measured. */
static enum status print_rows(struct lid *lids, size_t count, bool tsv)
{
    bool shown = !isatty(STDOUT_FILENO) && isatty(STDERR_FILENO);
    size_t column = name_column(lids, count);
    enum status worst = ALL_GIVEN;
    print_heading(tsv, column);
    for (size_t k = 0; k < count; k++) {
        measure_shown(lids, k, count, shown);
        print_row(tsv, &lids[k], column);
        enum status status = status_of(&lids[k]);
        worst = status > worst ? status : worst;
    }
    return worst;
}

static enum status run_rows(const struct request *request)
{
    struct lid *lids = calloc(request->count, sizeof *lids);
    if (lids == NULL) {
        stop("lids");
    }
    for (size_t k = 0; k < request->count; k++) {
        lids[k] = (struct lid){.name = request->names[k], .asked = asked_format(request)};
    }
    enum status status = print_rows(lids, request->count, request->tsv);
    if (!request->tsv) {
        print_end_lines(lids, request->count);
    }
    free(lids);
    return status;
}

/* Says on standard error why the lid has no figure. */
static void say_reason(const struct lid *lid)
{
    fputs("lids: ", stderr);
    put_name(stderr, lid->name);
    if (was_read(lid)) {
        fprintf(stderr, ": no figure, number %" PRIu32, lid->answer.number);
    }
    fputs(": ", stderr);
    put_reason(stderr, lid);
    fputs("\n", stderr);
}

static enum status run_lidnoise(const struct request *request)
{
    struct lid lid = {.name = request->names[0], .asked = asked_format(request)};
    measure_lid(&lid);
    if (was_read(&lid)) {
        print_lidnoise(&lid);
        flush_output();
    }
    if (!has_figure(&lid)) {
        say_reason(&lid);
    }
    return status_of(&lid);
}

static enum status run(const struct request *request)
{
    if (request->help) {
        fputs(help, stdout);
        return ALL_GIVEN;
    }
    if (request->version) {
        printf("lids %s\n", vuzgari_version());
        return ALL_GIVEN;
    }
    return request->lidnoise ? run_lidnoise(request) : run_rows(request);
}

int main(int argc, char **argv)
{
    struct request request;
    size_t words = argc > 1 ? (size_t)argc - 1 : 0;
    if (!part_words(argv + 1, words, &request) || !can_be_met(&request)) {
        return FAILED;
    }
    enum status status = run(&request);
    close_output();
    return (int)status;
}
