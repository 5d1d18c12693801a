/* Reading a lid from a file, a pipe or standard input. */
#ifndef READING_H
#define READING_H

#include "lid.h"

/* Reads the lid that is named, in the format that is asked for: its reading, its length, and answer.number, which is
   15, 20, 21, 22, or 0 where the length fits the header. Sets error where it cannot be read. Returns the file's bytes,
   for the caller to free: all of them where they can be measured, else some or null.

   No more is read than decides: the front, 4 bytes or, of a file that may be PGM, 21; then, unless the size of a plain
   file decides, one byte past the largest length that a reading asks for. Bytes are kept as far as a reading that can
   be measured needs them. Memory is taken as they come, so a header that promises too much costs none. Standard input
   is read once: named again it is empty. A pipe without a writer is not waited for. */
uint8_t *read_lid(struct lid *lid);

#endif
