#include "reasons.h"
#include "formats.h"

#include <string.h>

enum {
    LARGEST_SIDE = 16384,
    LEAST_SIDE = 4,
    LEAST_WINDOWS = 512,
    PGM_MAXIMUM = 255
};

struct numeral grouped(uint64_t number)
{
    struct numeral numeral = {{0}};
    size_t at = sizeof numeral.text - 1;
    for (size_t digits = 0; digits == 0 || number > 0; digits++) {
        if (digits > 0 && digits % 3 == 0) {
            numeral.text[--at] = ',';
        }
        numeral.text[--at] = (char)('0' + number % 10);
        number /= 10;
    }
    memmove(numeral.text, numeral.text + at, sizeof numeral.text - at);
    return numeral;
}

static void put_unreadable(FILE *out, const struct lid *lid)
{
    fputs(lid->error == NOBODY_WRITES ? "a pipe that nobody writes to" : strerror(lid->error), out);
}

static void put_sides(FILE *out, const struct lid *lid)
{
    fprintf(out, "the header says %s by %s", grouped(lid->reading.w).text, grouped(lid->reading.h).text);
}

static void put_other_length(FILE *out, const struct lid *lid)
{
    put_sides(out, lid);
    fprintf(out, ", so %s bytes; ", grouped(lid->reading.asks).text);
    if (lid->more) {
        fputs("there are more", out);
    } else {
        fprintf(out, "the file has %s", grouped(lid->length).text);
    }
}

static void put_not_a_lid(FILE *out, const struct lid *lid)
{
    if (lid->length == 0) {
        fputs("the file is empty", out);
    } else if (!has_header(lid)) {
        fprintf(out, "a lid begins with %d bytes of width and height; the file has %s", LID_HEADER_BYTES,
                grouped(lid->length).text);
    } else {
        put_other_length(out, lid);
    }
}

static void put_pgm_header(FILE *out, const struct lid *lid)
{
    fputs(lid->length == 0 ? "the file is empty" : vuzgari_reason(VUZGARI_PGM_HEADER), out);
}

static void put_pgm_maximum(FILE *out, const struct lid *lid)
{
    fprintf(out, "the PGM file's maximum is %s, not %d", grouped(lid->reading.maximum).text, PGM_MAXIMUM);
}

static void put_side_above(FILE *out, const struct lid *lid)
{
    put_sides(out, lid);
    fprintf(out, "; a side may be %s at most", grouped(LARGEST_SIDE).text);
}

static void put_side_below(FILE *out, const struct lid *lid)
{
    put_sides(out, lid);
    fprintf(out, "; a window needs %d by %d pixels", LEAST_SIDE, LEAST_SIDE);
}

static uint32_t kept_windows(const struct vuzgari_answer *answer)
{
    return answer->bands[0] + answer->bands[1] + answer->bands[2] + answer->bands[3];
}

static const char *be(uint32_t count)
{
    return count == 1 ? "is" : "are";
}

static const char *windows(uint32_t count)
{
    return count == 1 ? "window" : "windows";
}

/* Few windows, many near black or white, or both. */
static void put_few(FILE *out, const struct vuzgari_answer *answer)
{
    uint32_t kept = kept_windows(answer);
    uint32_t all = kept + answer->rail;
    if (answer->rail == 0) {
        fprintf(out, "it has %s %s, and %d are needed", grouped(all).text, windows(all), LEAST_WINDOWS);
        return;
    }
    fprintf(out, "%s of %s %s %s near black or white", grouped(answer->rail).text, grouped(all).text, windows(all),
            be(answer->rail));
    if (kept > 0) {
        fprintf(out, "; %s %s left, and %d are needed", grouped(kept).text, be(kept), LEAST_WINDOWS);
    }
}

/* The sentence of the number, and the windows that the bands hold. */
static void put_texture(FILE *out, const struct vuzgari_answer *answer)
{
    fprintf(out, "%s (%s windows kept: %s, %s, %s, %s from dark to bright)", vuzgari_reason(answer->number),
            grouped(kept_windows(answer)).text, grouped(answer->bands[0]).text, grouped(answer->bands[1]).text,
            grouped(answer->bands[2]).text, grouped(answer->bands[3]).text);
}

void put_reason(FILE *out, const struct lid *lid)
{
    if (!was_read(lid)) {
        put_unreadable(out, lid);
        return;
    }
    switch (lid->answer.number) {
    case VUZGARI_NOT_A_LID:
        put_not_a_lid(out, lid);
        break;
    case VUZGARI_PGM_HEADER:
        put_pgm_header(out, lid);
        break;
    case VUZGARI_PGM_MAXIMUM:
        put_pgm_maximum(out, lid);
        break;
    case VUZGARI_PGM_RASTER:
        put_other_length(out, lid);
        break;
    case VUZGARI_SIDE_ABOVE:
        put_side_above(out, lid);
        break;
    case VUZGARI_SIDE_BELOW:
        put_side_below(out, lid);
        break;
    case VUZGARI_FEW:
        put_few(out, &lid->answer);
        break;
    case VUZGARI_NONE:
    case VUZGARI_THIN:
        put_texture(out, &lid->answer);
        break;
    default:
        fputs(vuzgari_reason(lid->answer.number), out); /* this program gives no cause for another number */
    }
}
