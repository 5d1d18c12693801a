/* What libvuzgari.a has in C: words for the numbers, and figures out of what the proved calls return and write. */
#include "vuzgari.h"

#include <string.h>

_Static_assert(sizeof(float) == 4, "a float has 4 bytes");

const char *vuzgari_version(void)
{
    return VUZGARI_VERSION;
}

const char *vuzgari_reason(uint32_t number)
{
    switch (number) {
    case VUZGARI_GIVEN:
        return "there is a figure";
    case VUZGARI_SIDE_ABOVE:
        return "a side is above 16,384";
    case VUZGARI_OTHER_LENGTH:
        return "the pixel slice is not width x height long";
    case VUZGARI_SIDE_BELOW:
        return "a side is below 4: a window needs 4 by 4 pixels";
    case VUZGARI_SHORT_SLICE:
        return "a work slice, the answer slice or the slice of fields is too short";
    case VUZGARI_FEW:
        return "under 512 windows are kept: the lid is small, or too much of it is near black or white";
    case VUZGARI_NONE:
        return "no band of brightness has a variance: there is no quiet area";
    case VUZGARI_THIN:
        return "the bands that join hold under 512 windows: there is too little quiet area";
    case VUZGARI_FAR:
        return "a part of the centre or of the origin is beyond 1,000,000 either way";
    case VUZGARI_FLAT:
        return "the patch is flat once it is smoothed: there is no edge to measure";
    case VUZGARI_SUPPORT:
        return "the side of the support is above 32";
    case VUZGARI_OUTSIDE:
        return "the pixel is outside the support";
    case VUZGARI_FLOAT_RANGE:
        return "a float is outside its range";
    case VUZGARI_NOT_FINITE:
        return "a covariance or a model has a component that is not finite";
    case VUZGARI_KNOTS:
        return "there is no knot, there are over 16, or their widths do not rise strictly";
    case VUZGARI_NOT_A_LID:
        return "the input is not 4 + width x height bytes long";
    case VUZGARI_MANY_PIXELS:
        return "there are over 4,096 pixels";
    case VUZGARI_OTHER_MARK:
        return "the bytes do not begin with a record's mark";
    case VUZGARI_SHORT_RECORD:
        return "the slice is shorter than a record";
    case VUZGARI_BROKEN_RULE:
        return "a field of the record breaks the rule";
    case VUZGARI_PGM_HEADER:
        return "the header is not that of a binary PGM file as the camera tool writes it";
    case VUZGARI_PGM_MAXIMUM:
        return "the PGM file's maximum is not 255";
    case VUZGARI_PGM_RASTER:
        return "the raster is not width x height bytes long";
    default:
        return "no such number";
    }
}

uint32_t vuzgari_number_of(uint64_t returned)
{
    return returned < VUZGARI_REFUSED ? (uint32_t)VUZGARI_GIVEN : (uint32_t)(returned - VUZGARI_REFUSED);
}

static float float_of(uint32_t bits)
{
    float x;
    memcpy(&x, &bits, sizeof x);
    return x;
}

float vuzgari_width_of(uint64_t returned)
{
    return returned < VUZGARI_REFUSED ? float_of((uint32_t)returned) : 0.0f;
}

/* The field at place k: 4 bytes, low first. */
static uint32_t field(const uint8_t *bytes, size_t k)
{
    const uint8_t *at = bytes + 4 * k;
    return at[0] | (uint32_t)at[1] << 8 | (uint32_t)at[2] << 16 | (uint32_t)at[3] << 24;
}

struct vuzgari_answer vuzgari_answer_from(const uint8_t *bytes)
{
    return (struct vuzgari_answer){
        .number = field(bytes, 0),
        .sigma = float_of(field(bytes, 1)),
        .milli = field(bytes, 2),
        .bands = {field(bytes, 3), field(bytes, 4), field(bytes, 5), field(bytes, 6)},
        .rail = field(bytes, 7),
        .rounds = field(bytes, 8),
        .passes = field(bytes, 9),
    };
}

/* Each field of a record fits 32 bits. */
struct vuzgari_record vuzgari_record_from(const uint64_t *fields)
{
    return (struct vuzgari_record){
        .shot = (uint32_t)fields[0],
        .width = (uint32_t)fields[1],
        .height = (uint32_t)fields[2],
        .answer = (uint32_t)fields[3],
        .sigma = float_of((uint32_t)fields[4]),
        .bands = {(uint32_t)fields[5], (uint32_t)fields[6], (uint32_t)fields[7], (uint32_t)fields[8]},
        .rail = (uint32_t)fields[9],
    };
}
