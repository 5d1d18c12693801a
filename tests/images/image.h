/* Images by what makes them, as the lists of this folder have them, a line each:

   NAME W H PART LEVEL EVEN ODD NOISE MORE STORED..

   The first PART columns are LEVEL, of the others the even ones EVEN and the odd ones ODD; to each pixel a drawn number
   from 0 to NOISE is added, up to 255. MORE is how many bytes there are beyond W * H, below 0 how many are missing.
   STORED is the answer. Lines that begin with # are remarks. */
#ifndef IMAGE_H
#define IMAGE_H

#include <stdbool.h>
#include <stddef.h>
#include <stdint.h>
#include <stdio.h>

struct image {
    char name[32];
    size_t w, h, part;
    unsigned level, even, odd, noise;
    long long more;
    char stored[96];
};

/* The next image of the list, or false at its end. A line of another form ends the program with status 2. */
bool next_image(FILE *list, struct image *image);

/* The list at a path. One that cannot be opened ends the program with status 2. */
FILE *open_list(const char *path);

/* How many bytes a lid's file has: its header of 4, W * H and MORE, never below 0. */
size_t lid_bytes(const struct image *image);

/* The first `count` pixels, row by row. */
void paint(const struct image *image, uint8_t *pixels, size_t count);

#endif
