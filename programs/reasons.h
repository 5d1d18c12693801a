/* Why a lid has no figure, in words that use what is known of it. */
#ifndef REASONS_H
#define REASONS_H

#include "lid.h"

#include <stdio.h>

/* A whole number as text, its digits parted in threes by commas. */
struct numeral {
    char text[27];
};

struct numeral grouped(uint64_t number);

/* The reason of a lid without a figure: no number, no name, no line end. */
void put_reason(FILE *out, const struct lid *lid);

#endif
