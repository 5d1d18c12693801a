/* Which format a file is in. A lid 13,648 pixels wide begins with P5, as a PGM file does, so the first bytes alone do
   not tell: there may be two readings, and the length chooses. */
#ifndef FORMATS_H
#define FORMATS_H

#include "lid.h"

enum { LID_HEADER_BYTES = 4 };

/* A file's first bytes: as many as its header may take, or all that it has. */
struct front {
    uint8_t bytes[VUZGARI_PGM_HEADER_BYTES];
    size_t count;
};

/* Whether a file may be PGM, by what is asked for and its first two bytes. */
bool may_be_pgm(enum format asked, const struct front *front);

/* The readings that a file may have, one or two: PGM is the last. */
struct readings {
    struct front front;
    struct reading all[2];
    size_t count;
};

/* Lent are the first 4 bytes, of a file that may be PGM the first 21, or all that it has. */
struct readings readings_of(enum format asked, const struct front *front);

/* The reading of a file of so many bytes: the first that fits, and where none does the last. Both fit only where the PGM
   file would have a side above 16,384, so that a lid is all that can be measured. */
const struct reading *choose(const struct readings *readings, uint64_t length);

/* The number of a file of so many bytes that is read so: 15 of a lid, 20, 21 or 22 of a PGM file, or 0 where its length
   fits its header. */
uint32_t number_by_length(const struct readings *readings, const struct reading *reading, uint64_t length);

#endif
