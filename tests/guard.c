/* guard after|before LIDS EDGES: makes the C calls on slices that each end at an unreadable page, or each begin right
   after one, and holds what they answer to the lists and what they leave to document 01. Pixels are lent read-only, and
   to a call that is to be refused everything is. An access outside ends the program with the call's name. rooms.c has
   the slices, records.c the record calls, pgm.c those on grey files. */
#include "images/image.h"
#include "pgm.h"
#include "records.h"
#include "rooms.h"
#include "vuzgari.h"

#include <inttypes.h>
#include <stdlib.h>
#include <string.h>

/* Ten fields of 4 bytes with nothing between: answers whose bytes are equal have equal fields, sigma's bits too. */
_Static_assert(sizeof(struct vuzgari_answer) == VUZGARI_ANSWER_BYTES, "the answer has no other bytes than its fields");

static bool zero_up_to(const struct room *room, size_t end)
{
    for (size_t k = 0; k < end; k++) {
        if (room->at[k] != 0) {
            return false;
        }
    }
    return true;
}

static struct room open_pixels(const struct image *image, size_t count)
{
    struct room pixels = open_room(count);
    paint(image, pixels.at, count);
    make_read_only(&pixels);
    return pixels;
}

/* The numbers of elements that a noise call is lent, and its sides. */
struct lent {
    size_t w, h, pixels, ints, floats, answer;
};

struct work {
    struct room ints, floats, answer;
};

static struct work open_work(const struct lent *lent)
{
    return (struct work){
        .ints = open_filled(lent->ints * sizeof(int32_t)),
        .floats = open_filled(lent->floats * sizeof(float)),
        .answer = open_filled(lent->answer),
    };
}

static void close_work(struct work *work)
{
    close_room(&work->ints);
    close_room(&work->floats);
    close_room(&work->answer);
}

static uint32_t call_noise(const struct image *image, const struct lent *lent, struct work *work)
{
    struct room pixels = open_pixels(image, lent->pixels);
    calls++;
    uint32_t number = vuzgari_noise(pixels.at, lent->pixels, lent->w, lent->h,
                                    (int32_t *)(void *)work->ints.at, lent->ints,
                                    (float *)(void *)work->floats.at, lent->floats, work->answer.at, lent->answer);
    close_room(&pixels);
    return number;
}

/* A call that is refused with a number and writes nowhere. */
static void refused(const struct image *image, const char *what, struct lent lent, uint32_t number)
{
    begin(image->name, what);
    struct work work = open_work(&lent);
    make_read_only(&work.ints);
    make_read_only(&work.floats);
    make_read_only(&work.answer);
    hold(call_noise(image, &lent, &work) == number, "another number");
    close_work(&work);
}

static bool same(const struct vuzgari_answer *a, const struct vuzgari_answer *b)
{
    return memcmp(a, b, sizeof *a) == 0;
}

/* A call that ends in the stored answer and clears memory for m windows. */
static void measured(const struct image *image, const char *what, struct lent lent, size_t m,
                     const struct vuzgari_answer *stored)
{
    begin(image->name, what);
    struct work work = open_work(&lent);
    hold(call_noise(image, &lent, &work) == stored->number, "another number");
    struct vuzgari_answer answer = vuzgari_answer_from(work.answer.at);
    hold(same(&answer, stored), "another answer");
    size_t ints = 3 * m * sizeof(int32_t);
    size_t floats = (2 * m + 2) * sizeof(float);
    hold(filled_from(&work.answer, VUZGARI_ANSWER_BYTES), "answer bytes beyond changed");
    hold(zero_up_to(&work.ints, ints) && zero_up_to(&work.floats, floats), "work memory not cleared");
    hold(filled_from(&work.ints, ints) && filled_from(&work.floats, floats), "work memory beyond changed");
    make_read_only(&work.answer);
    measured_record(image, &work.answer, stored);
    close_work(&work);
}

/* With just the memory that is needed, with more of it, and with whole pages: both ends are next to unreadable ones. */
static void lengths(const struct image *image, struct lent lent, size_t m, const struct vuzgari_answer *stored)
{
    measured(image, "just the lengths", lent, m, stored);
    struct lent longer = lent;
    longer.ints += 1;
    longer.floats += 7;
    longer.answer += 5;
    measured(image, "longer slices", longer, m, stored);
    struct lent pages = lent;
    pages.ints = whole_pages(lent.ints * sizeof(int32_t)) / sizeof(int32_t);
    pages.floats = whole_pages(lent.floats * sizeof(float)) / sizeof(float);
    pages.answer = whole_pages(lent.answer);
    measured(image, "whole pages", pages, m, stored);
}

/* One thing wrong at a time; and each number before those that come later in the order. */
static void refusals(const struct image *image, struct lent good)
{
    struct lent bad = good;
    bad.ints -= 1;
    refused(image, "an i32 short", bad, VUZGARI_SHORT_SLICE);
    bad = good;
    bad.floats -= 1;
    refused(image, "an f32 short", bad, VUZGARI_SHORT_SLICE);
    bad = good;
    bad.answer -= 1;
    refused(image, "an answer byte short", bad, VUZGARI_SHORT_SLICE);
    bad = (struct lent){.w = good.w, .h = good.h, .pixels = good.pixels};
    refused(image, "no work memory", bad, VUZGARI_SHORT_SLICE);
    bad.w = 3;
    bad.pixels = 3 * good.h;
    refused(image, "3 columns, no work memory", bad, VUZGARI_SIDE_BELOW);
    bad.pixels += 1;
    refused(image, "3 columns, a pixel too many, no work memory", bad, VUZGARI_OTHER_LENGTH);
    bad = good;
    bad.pixels -= 1;
    refused(image, "a pixel short", bad, VUZGARI_OTHER_LENGTH);
    bad.pixels += 2;
    refused(image, "a pixel too many", bad, VUZGARI_OTHER_LENGTH);
    bad.w = 16385;
    refused(image, "16,385 columns", bad, VUZGARI_SIDE_ABOVE);
    bad = (struct lent){.w = good.w, .h = SIZE_MAX};
    refused(image, "2^64 - 1 rows, nothing lent", bad, VUZGARI_SIDE_ABOVE);
}

/* The answer of a stored line: ten fields, sigma as its bits. */
static struct vuzgari_answer stored_answer(const struct image *image)
{
    uint32_t fields[VUZGARI_ANSWER_BYTES / 4];
    const char *text = image->stored;
    for (size_t k = 0; k < sizeof fields / sizeof *fields; k++) {
        char *end;
        fields[k] = (uint32_t)strtoul(text, &end, k == 1 ? 16 : 10);
        hold(end != text, "a stored line is not ten fields");
        text = end;
    }
    struct vuzgari_answer answer;
    memcpy(&answer, fields, sizeof answer);
    return answer;
}

static uint64_t call_sizing(const struct image *image)
{
    calls++;
    return vuzgari_noise_windows(image->w, image->h);
}

/* The sizing and the noise call on one lid of the list; a line of VUZGARI_NOT_A_LID has no such call. */
static void lid(const struct image *image)
{
    if (image->more != 0) {
        return;
    }
    begin(image->name, "sizing");
    struct vuzgari_answer stored = stored_answer(image);
    struct lent lent = {.w = image->w, .h = image->h, .pixels = image->w * image->h, .answer = VUZGARI_ANSWER_BYTES};
    uint64_t size = call_sizing(image);
    if (stored.number == VUZGARI_SIDE_ABOVE || stored.number == VUZGARI_SIDE_BELOW) {
        hold(size == VUZGARI_REFUSED + stored.number, "another number");
        refused(image, "sides", lent, stored.number);
        return;
    }
    hold(vuzgari_number_of(size) == VUZGARI_GIVEN, "refused");
    size_t m = (size_t)size;
    lent.ints = 3 * m;
    lent.floats = 2 * m + 2;
    lengths(image, lent, m, &stored);
    refusals(image, lent);
}

/* The same lid as a grey file. */
static void grey_file(const struct image *image)
{
    struct vuzgari_answer stored = stored_answer(image);
    measured_file(image, &stored);
}

/* One call of the edges' list. */
static void edge(const struct image *image)
{
    int32_t ox, oy, cx, cy;
    uint32_t number, bits;
    begin(image->name, "edge");
    int read = sscanf(image->stored, "%" SCNd32 " %" SCNd32 " %" SCNd32 " %" SCNd32 " %" SCNu32 " %" SCNx32,
                      &ox, &oy, &cx, &cy, &number, &bits);
    hold(read == 6, "a stored line is not six fields");
    uint64_t answer = number == VUZGARI_GIVEN ? bits : VUZGARI_REFUSED + number;
    size_t count = lid_bytes(image) - 4;
    struct room pixels = open_pixels(image, count);
    calls++;
    uint64_t returned = vuzgari_edge_width(pixels.at, count, image->w, image->h, ox, oy, cx, cy);
    hold(returned == answer && vuzgari_number_of(returned) == number, "another answer");
    close_room(&pixels);
}

/* Null pointers, with lengths of 0. */
static void nulls(void)
{
    calls += 3;
    begin("null pointers", "noise, no sides");
    hold(vuzgari_noise(NULL, 0, 0, 0, NULL, 0, NULL, 0, NULL, 0) == VUZGARI_SIDE_BELOW, "another number");
    begin("null pointers", "noise, 4 by 4");
    hold(vuzgari_noise(NULL, 0, 4, 4, NULL, 0, NULL, 0, NULL, 0) == VUZGARI_OTHER_LENGTH, "another number");
    begin("null pointers", "edge");
    hold(vuzgari_edge_width(NULL, 0, 0, 0, 0, 0, 0, 0) == VUZGARI_REFUSED + VUZGARI_FLAT, "another answer");
}

static void each(const char *path, void (*try)(const struct image *))
{
    FILE *list = open_list(path);
    struct image image;
    while (next_image(list, &image)) {
        try(&image);
    }
    fclose(list);
}

int main(int argc, char **argv)
{
    if (argc != 4 || (strcmp(argv[1], "after") != 0 && strcmp(argv[1], "before") != 0)) {
        fprintf(stderr, "usage: guard after|before LIDS EDGES\n");
        return 2;
    }
    guard_rooms(strcmp(argv[1], "after") == 0);
    nulls();
    records();
    grey_files();
    each(argv[2], lid);
    each(argv[2], grey_file);
    each(argv[3], edge);
    printf("guard: %lu calls, unreadable pages %s the slices\n", calls, argv[1]);
    return 0;
}
