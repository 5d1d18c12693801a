#include "rows.h"
#include "names.h"
#include "reasons.h"

#include <inttypes.h>
#include <stdio.h>
#include <string.h>

enum { NAME_COLUMN_MOST = 40 };

/* One field of a row as text; `-` where it is not known. */
struct cell {
    char text[16];
};

static struct cell cell(bool known, uint64_t number)
{
    struct cell shown = {"-"};
    if (known) {
        snprintf(shown.text, sizeof shown.text, "%" PRIu64, number);
    }
    return shown;
}

/* The figure in levels, from its thousandths. */
static struct cell noise(const struct lid *lid)
{
    struct cell shown = {"-"};
    if (has_figure(lid)) {
        uint32_t milli = lid->answer.milli;
        snprintf(shown.text, sizeof shown.text, "%" PRIu32 ".%03" PRIu32, milli / 1000, milli % 1000);
    }
    return shown;
}

/* Sigma's bits as 8 hex digits. */
static struct cell sigma(const struct lid *lid)
{
    struct cell shown = {"-"};
    if (was_read(lid)) {
        uint32_t bits;
        memcpy(&bits, &lid->answer.sigma, sizeof bits);
        snprintf(shown.text, sizeof shown.text, "%08" PRIX32, bits);
    }
    return shown;
}

static struct cell width(const struct lid *lid)
{
    return cell(has_header(lid), lid->reading.w);
}

static struct cell height(const struct lid *lid)
{
    return cell(has_header(lid), lid->reading.h);
}

/* A name as the table shows it, and spaces up to the column's end. */
static void print_name(const char *name, size_t column)
{
    size_t length = shown_length(name);
    put_name(stdout, name);
    printf("%*s", length < column ? (int)(column - length) : 0, "");
}

size_t name_column(const struct lid *lids, size_t count)
{
    size_t longest = strlen("lid");
    for (size_t k = 0; k < count; k++) {
        size_t length = shown_length(lids[k].name);
        longest = length > longest ? length : longest;
    }
    return longest < NAME_COLUMN_MOST ? longest : NAME_COLUMN_MOST;
}

#define TABLE_FIELDS " %7s %6s %5s %6s %5s %5s %5s %5s %5s %6s %6s\n"

void print_table_heading(size_t column)
{
    print_name("lid", column);
    printf(TABLE_FIELDS, "noise", "number", "width", "height", "b0", "b1", "b2", "b3", "rail", "rounds", "passes");
}

void print_table_row(const struct lid *lid, size_t column)
{
    const struct vuzgari_answer *answer = &lid->answer;
    bool known = was_read(lid);
    print_name(lid->name, column);
    printf(TABLE_FIELDS, noise(lid).text, cell(known, answer->number).text, width(lid).text, height(lid).text,
           cell(known, answer->bands[0]).text, cell(known, answer->bands[1]).text, cell(known, answer->bands[2]).text,
           cell(known, answer->bands[3]).text, cell(known, answer->rail).text, cell(known, answer->rounds).text,
           cell(known, answer->passes).text);
}

static void print_without_figure(const struct lid *lid)
{
    put_name(stdout, lid->name);
    if (was_read(lid)) {
        printf(": number %" PRIu32, lid->answer.number);
    }
    printf(": ");
    put_reason(stdout, lid);
    printf("\n");
}

static size_t figures(const struct lid *lids, size_t count)
{
    size_t given = 0;
    for (size_t k = 0; k < count; k++) {
        given += has_figure(&lids[k]) ? 1 : 0;
    }
    return given;
}

static const char *plural(size_t count)
{
    return count == 1 ? "" : "s";
}

void print_end_lines(const struct lid *lids, size_t count)
{
    size_t given = figures(lids, count);
    printf("\n%s lid%s, %s figure%s\n", grouped(count).text, plural(count), grouped(given).text, plural(given));
    if (given < count) {
        printf("%s without a figure:\n", grouped(count - given).text);
    }
    for (size_t k = 0; k < count; k++) {
        if (!has_figure(&lids[k])) {
            print_without_figure(&lids[k]);
        }
    }
}

void print_tsv_heading(void)
{
    printf("lid\tnumber\tsigma\tmilli\twidth\theight\tb0\tb1\tb2\tb3\trail\trounds\tpasses\treason\n");
}

void print_tsv_row(const struct lid *lid)
{
    const struct vuzgari_answer *answer = &lid->answer;
    bool known = was_read(lid);
    put_escaped(stdout, lid->name);
    printf("\t%s\t%s\t%s\t%s\t%s\t%s\t%s\t%s\t%s\t%s\t%s\t%s\t", cell(known, answer->number).text, sigma(lid).text,
           cell(known, answer->milli).text, width(lid).text, height(lid).text, cell(known, answer->bands[0]).text,
           cell(known, answer->bands[1]).text, cell(known, answer->bands[2]).text, cell(known, answer->bands[3]).text,
           cell(known, answer->rail).text, cell(known, answer->rounds).text, cell(known, answer->passes).text);
    if (!has_figure(lid)) {
        put_reason(stdout, lid);
    }
    printf("\n");
}

void print_lidnoise(const struct lid *lid)
{
    const struct vuzgari_answer *answer = &lid->answer;
    printf("answer sigma milli b0 b1 b2 b3 rail rounds passes\n");
    printf("%" PRIu32 " %s %" PRIu32 " %" PRIu32 " %" PRIu32 " %" PRIu32 " %" PRIu32 " %" PRIu32 " %" PRIu32
           " %" PRIu32 "\n",
           answer->number, sigma(lid).text, answer->milli, answer->bands[0], answer->bands[1], answer->bands[2],
           answer->bands[3], answer->rail, answer->rounds, answer->passes);
}
