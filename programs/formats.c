#include "formats.h"

static bool begins_p5(const struct front *front)
{
    return front->count >= 2 && front->bytes[0] == 'P' && front->bytes[1] == '5';
}

bool may_be_pgm(enum format asked, const struct front *front)
{
    return asked == PGM || (asked == EITHER && begins_p5(front));
}

static size_t two_bytes(const uint8_t *low_first)
{
    return low_first[0] + (size_t)256 * low_first[1];
}

static struct reading as_lid(const struct front *front)
{
    struct reading reading = {.format = LID};
    if (front->count >= LID_HEADER_BYTES) {
        reading.w = two_bytes(front->bytes);
        reading.h = two_bytes(front->bytes + 2);
        reading.start = LID_HEADER_BYTES;
        reading.asks = LID_HEADER_BYTES + (uint64_t)reading.w * reading.h;
    }
    return reading;
}

static uint32_t judge(const struct front *front, uint64_t length)
{
    return vuzgari_pgm_judge(front->bytes, front->count, (size_t)length);
}

/* Whether there is a length that fits: any other fault of a file is in its front, whatever follows. */
static bool length_decides(const struct front *front)
{
    uint32_t number = judge(front, front->count);
    return number == VUZGARI_GIVEN || number == VUZGARI_PGM_RASTER;
}

static struct reading as_pgm(const struct front *front)
{
    struct reading reading = {.format = PGM};
    uint64_t fields[VUZGARI_PGM_FIELDS];
    if (vuzgari_pgm_header(front->bytes, front->count, fields, VUZGARI_PGM_FIELDS) == VUZGARI_GIVEN) {
        reading.w = (size_t)fields[0];
        reading.h = (size_t)fields[1];
        reading.maximum = fields[2];
        reading.start = (size_t)fields[3];
        reading.asks = length_decides(front) ? fields[3] + fields[0] * fields[1] : 0;
    }
    return reading;
}

struct readings readings_of(enum format asked, const struct front *front)
{
    struct readings readings = {.front = *front};
    if (asked != PGM) {
        readings.all[readings.count++] = as_lid(front);
    }
    if (may_be_pgm(asked, front)) {
        readings.all[readings.count++] = as_pgm(front);
    }
    return readings;
}

uint32_t number_by_length(const struct readings *readings, const struct reading *reading, uint64_t length)
{
    if (reading->format == PGM) {
        return judge(&readings->front, length);
    }
    return reading->asks > 0 && reading->asks == length ? VUZGARI_GIVEN : VUZGARI_NOT_A_LID;
}

const struct reading *choose(const struct readings *readings, uint64_t length)
{
    for (size_t k = 0; k < readings->count; k++) {
        if (number_by_length(readings, &readings->all[k], length) == VUZGARI_GIVEN) {
            return &readings->all[k];
        }
    }
    return &readings->all[readings->count - 1];
}
