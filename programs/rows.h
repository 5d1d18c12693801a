/* The forms in which lids are printed. Each goes to standard output. */
#ifndef ROWS_H
#define ROWS_H

#include "lid.h"

/* The table for people: names in a column of so many characters, longer ones push their row. */
size_t name_column(const struct lid *lids, size_t count);
void print_table_heading(size_t column);
void print_table_row(const struct lid *lid, size_t column);

/* How many lids and figures there are, and which lids have none and why. */
void print_end_lines(const struct lid *lids, size_t count);

/* The rows for programs, parted by tabs. */
void print_tsv_heading(void);
void print_tsv_row(const struct lid *lid);

/* lidnoise's two lines. */
void print_lidnoise(const struct lid *lid);

#endif
