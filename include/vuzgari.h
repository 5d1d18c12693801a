/* The measuring half of the copy-stand program, for C and C++: libvuzgari.a, for x86-64. vuzgari(3) says the same with
   examples; examples/ has a program for each call.

   Each lent slice is a pointer and the number of its elements. What the caller keeps:
   - slices that are lent to one call do not overlap, and nothing else writes to them until it returns;
   - a pointer may be null only where its length is 0; others point to that many elements, aligned for their type;
   - the processor's floating-point mode is the default one (round to nearest, subnormals kept).
   Nothing is kept after a call, nothing is allocated, and a call touches no memory but what it is lent and its stack:
   calls on memory of their own may run at the same time. Pixels, and all else that is lent as const, are only read. */
#ifndef VUZGARI_H
#define VUZGARI_H

#if !defined(__x86_64__) && !defined(_M_X64)
#error "libvuzgari.a is for x86-64"
#endif

#include <stddef.h>
#include <stdint.h>

#ifdef __cplusplus
extern "C" {
#endif

/* The version of this header; the archive has its own, vuzgari_version(). 0.n promises nothing to programs built with
   another n: a call that changes or comes raises it. */
#define VUZGARI_VERSION "0.4"

const char *vuzgari_version(void);

/* Why there is a figure or none. A call gives the first number that applies, in the order that the call names. */
enum vuzgari_number {
    VUZGARI_GIVEN = 0,         /* there is a figure */
    VUZGARI_SIDE_ABOVE = 1,    /* a side is above 16,384 */
    VUZGARI_OTHER_LENGTH = 2,  /* the pixel slice is not width x height long */
    VUZGARI_SIDE_BELOW = 3,    /* a side is below 4: a window needs 4 by 4 pixels */
    VUZGARI_SHORT_SLICE = 4,   /* a work slice, the answer slice or the slice of fields is too short */
    VUZGARI_FEW = 5,           /* under 512 windows are kept: the lid is small, or too much of it is near black or white */
    VUZGARI_NONE = 6,          /* no band of brightness has a variance: there is no quiet area */
    VUZGARI_THIN = 7,          /* the bands that join hold under 512 windows: there is too little quiet area */
    VUZGARI_FAR = 8,           /* a part of the centre or of the origin is beyond 1,000,000 either way */
    VUZGARI_FLAT = 9,          /* the patch is flat once it is smoothed: there is no edge to measure */
    VUZGARI_SUPPORT = 10,      /* the side of the support is above 32 */
    VUZGARI_OUTSIDE = 11,      /* the pixel is outside the support */
    VUZGARI_FLOAT_RANGE = 12,  /* a float is outside its range */
    VUZGARI_NOT_FINITE = 13,   /* a covariance or a model has a component that is not finite */
    VUZGARI_KNOTS = 14,        /* there is no knot, there are over 16, or their widths do not rise strictly */
    VUZGARI_NOT_A_LID = 15,    /* the input is not 4 + width x height bytes long */
    VUZGARI_MANY_PIXELS = 16,  /* there are over 4,096 pixels */
    VUZGARI_OTHER_MARK = 17,   /* the bytes do not begin with a record's mark */
    VUZGARI_SHORT_RECORD = 18, /* the slice is shorter than a record */
    VUZGARI_BROKEN_RULE = 19,  /* a field of the record breaks the rule */
    VUZGARI_PGM_HEADER = 20,   /* the header is not that of a binary PGM file as the camera tool writes it */
    VUZGARI_PGM_MAXIMUM = 21,  /* the PGM file's maximum is not 255 */
    VUZGARI_PGM_RASTER = 22    /* the raster is not width x height bytes long */
};

/* The sentence of a number, as above, for a person; of any other number, that it is none. It stays valid for ever. */
const char *vuzgari_reason(uint32_t number);

/* A call that returns a uint64_t returns its figure, which is below this, or this much plus the number. */
#define VUZGARI_REFUSED UINT64_C(4294967296)

/* The number in what such a call returned: VUZGARI_GIVEN where it is a figure. */
uint32_t vuzgari_number_of(uint64_t returned);

/* M: for how many windows the noise call needs work memory on an image of w by h; or VUZGARI_REFUSED plus the first of
   1, 3. M is never above 33,754. */
uint64_t vuzgari_noise_windows(size_t w, size_t h);

/* How many bytes the noise call's answer takes. */
#define VUZGARI_ANSWER_BYTES 40

/* The noise of an image of w by h, row by row. Lent are its w * h pixels, at least 3 * M int32_t and 2 * M + 2 float to
   work in, whatever they hold, and at least 40 bytes for the answer. Returns the number: the first of 1, 2, 3, 4, or
   what the passes end in, 0, 5, 6 or 7. After 1 to 4 nothing lent has changed. After the others the first 3 * M int32_t
   and 2 * M + 2 float are zero, and the first 40 bytes of `answer` are the fields of struct vuzgari_answer, 4 bytes
   each, low byte first, in its order. What is lent beyond is unchanged: a NaN lent there is proved to stay a NaN, and
   that its bits stay is tested. */
uint32_t vuzgari_noise(const uint8_t *pixels, size_t pixels_len, size_t w, size_t h,
                       int32_t *ints, size_t ints_len, float *floats, size_t floats_len,
                       uint8_t *answer, size_t answer_len);

/* The noise call's answer. Counts are those of the last pass, rounds those of all. Sigma and milli are zero unless the
   number is VUZGARI_GIVEN. Milli may be up to half a thousandth of a level off: who compares exactly takes sigma. */
struct vuzgari_answer {
    uint32_t number;
    float sigma;       /* the noise, in levels of 0 to 255 */
    uint32_t milli;    /* the whole number nearest to exactly 1,000 times sigma, halves going up */
    uint32_t bands[4]; /* the windows kept in each band of brightness, from dark to bright */
    uint32_t rail;     /* the windows dropped near black or white */
    uint32_t rounds;
    uint32_t passes;
};

/* The answer in the first 40 bytes that the noise call wrote. */
struct vuzgari_answer vuzgari_answer_from(const uint8_t *bytes);

/* How many bytes the record of a shot takes, and how many fields it has. */
#define VUZGARI_RECORD_BYTES 35
#define VUZGARI_RECORD_FIELDS 10

/* Writes the record of a shot: its number, the sides of its image, and the noise call's answer. Lent are at least 40
   bytes of `answer` as the noise call wrote them, which are only read (milli, rounds and passes are not looked at), and
   at least 35 bytes for the record. Returns the first of 4 (a short answer), 19, 18 (a short `out`), or 0, which says
   here that there is a record. After 0 the first 35 bytes of `out` are the record: hex 4E 46, then, low byte first, the
   fields of struct vuzgari_record in its order, 4 bytes each, but 2 for width and height and 1 for the answer. What is
   lent beyond is unchanged; after a refusal everything is. Call it only where the noise call returned 0, 5, 6 or 7:
   after 1 to 4 that call has left `answer` as it was, perhaps with another shot's answer in it.

   The rule: sides are 4 to 16,384. The answer is 0, 5, 6 or 7. With 0, sigma is 0 to 1,000 without a minus sign, and at
   least 512 windows are kept; with the others its bits are zero. The windows kept and dropped are, together, those of
   one of the two passes. What the noise call answers with 0, 5, 6 or 7 keeps the rule, with the sides of its image; a
   field too wide for its bytes breaks it and is never cut. */
uint32_t vuzgari_record_write(uint32_t shot, size_t w, size_t h, const uint8_t *answer, size_t answer_len,
                              uint8_t *out, size_t out_len);

/* Reads a record. Lent are at least 35 bytes, of which the first 35 are read, and at least 10 fields. Returns the first
   of 4 (under 10 fields), 18 (under 35 bytes), 17, 19, or 0, which says here that there is a record. After 0 the first
   10 of `fields` are those of struct vuzgari_record, in its order, sigma by its bits. What is lent beyond is unchanged;
   after a refusal everything is. */
uint32_t vuzgari_record_read(const uint8_t *bytes, size_t bytes_len, uint64_t *fields, size_t fields_len);

/* The record of a shot. */
struct vuzgari_record {
    uint32_t shot;
    uint32_t width;
    uint32_t height;
    uint32_t answer;   /* the noise call's number: 0, 5, 6 or 7 */
    float sigma;       /* zero unless that is VUZGARI_GIVEN */
    uint32_t bands[4]; /* the windows kept in each band of brightness, from dark to bright */
    uint32_t rail;     /* the windows dropped near black or white */
};

/* The record in the first 10 fields that the reading call wrote. */
struct vuzgari_record vuzgari_record_from(const uint64_t *fields);

/* The longest header that a grey file may have, in bytes, and how many fields a header has. */
#define VUZGARI_PGM_HEADER_BYTES 21
#define VUZGARI_PGM_FIELDS 4

/* Reads the header of a grey file, which is binary PGM, a subset: P5, one whitespace byte, the width, one, the height,
   one, the maximum, one, and then the raster, a byte a pixel, and nothing more. Whitespace is hex 20, 09, 0D or 0A. A
   number is 1 to 5 decimal digits, the first not 0. There are no comments. Lent are the file's first bytes, at least 21
   or all that it has, and at least 4 fields. Returns the first of 4 (under 4 fields), 20, or 0, which says here that
   there is a header. After 0 the first 4 of `fields` are the width, the height and the maximum, 1 to 99,999 each, and
   the place of the raster's first byte. What is lent beyond is unchanged; after a refusal everything is. */
uint32_t vuzgari_pgm_header(const uint8_t *front, size_t front_len, uint64_t *fields, size_t fields_len);

/* Judges a grey file of file_len bytes by its first bytes, at least 21 or all that it has, which are all that is lent.
   Returns the first of 20, 21, 22, or 0, which says here that what follows the header is a raster of width * height
   bytes. Sides that the noise call refuses are taken. */
uint32_t vuzgari_pgm_judge(const uint8_t *front, size_t front_len, size_t file_len);

/* The width of the edges about the centre (cx, cy) of an image of w by h, row by row, in pixels, as the bits of a
   float; or VUZGARI_REFUSED plus the first of 1, 2, 8, 9. Lent are its w * h pixels. (ox, oy) is the image's origin:
   pixel (x, y) of the image has the coordinates x - ox, y - oy. A place outside the image counts as its nearest
   pixel. */
uint64_t vuzgari_edge_width(const uint8_t *pixels, size_t pixels_len, size_t w, size_t h,
                            int32_t ox, int32_t oy, int32_t cx, int32_t cy);

/* The width in what the edge call returned; 0 where that is no figure. */
float vuzgari_width_of(uint64_t returned);

#ifdef __cplusplus
}
#endif

#endif
