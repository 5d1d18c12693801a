/* decoders: holds the figures that libvuzgari.a takes out of bytes and returned numbers to hand-made ones. */
#include "vuzgari.h"

#include <stdbool.h>
#include <stdio.h>
#include <stdlib.h>
#include <string.h>

static unsigned held;

static void hold(bool is, const char *what)
{
    if (!is) {
        printf("decoders: %s\n", what);
        exit(1);
    }
    held++;
}

static uint32_t bits_of(float x)
{
    uint32_t bits;
    memcpy(&bits, &x, sizeof bits);
    return bits;
}

/* No two fields have a byte in common, and no field has two equal bytes: bytes k + 1 at place k. */
static void distinct_fields(const uint8_t *bytes)
{
    struct vuzgari_answer answer = vuzgari_answer_from(bytes);
    hold(answer.number == 0x04030201, "number");
    hold(bits_of(answer.sigma) == 0x08070605, "sigma");
    hold(answer.milli == 0x0C0B0A09, "milli");
    hold(answer.bands[0] == 0x100F0E0D, "band 0");
    hold(answer.bands[1] == 0x14131211, "band 1");
    hold(answer.bands[2] == 0x18171615, "band 2");
    hold(answer.bands[3] == 0x1C1B1A19, "band 3");
    hold(answer.rail == 0x201F1E1D, "rail");
    hold(answer.rounds == 0x24232221, "rounds");
    hold(answer.passes == 0x28272625, "passes");
}

/* At an aligned place and at one that is not. */
static void distinct_bytes(void)
{
    _Alignas(8) uint8_t room[VUZGARI_ANSWER_BYTES + 1];
    for (size_t from = 0; from < 2; from++) {
        for (size_t k = 0; k < VUZGARI_ANSWER_BYTES; k++) {
            room[from + k] = (uint8_t)(k + 1);
        }
        distinct_fields(room + from);
    }
}

/* The highest byte is not read as a sign. */
static void high_bytes(void)
{
    uint8_t bytes[VUZGARI_ANSWER_BYTES];
    memset(bytes, 0xFF, sizeof bytes);
    struct vuzgari_answer answer = vuzgari_answer_from(bytes);
    hold(answer.number == UINT32_MAX && answer.passes == UINT32_MAX, "fields of hex FF");
    hold(answer.sigma != answer.sigma, "sigma of hex FF is no NaN");
}

/* No two fields have a byte in common. */
static void record_fields(void)
{
    uint64_t fields[VUZGARI_RECORD_FIELDS];
    for (size_t k = 0; k < VUZGARI_RECORD_FIELDS; k++) {
        fields[k] = 0x04030201 + 0x04040404 * k;
    }
    struct vuzgari_record record = vuzgari_record_from(fields);
    hold(record.shot == 0x04030201, "shot of a record");
    hold(record.width == 0x08070605, "width of a record");
    hold(record.height == 0x0C0B0A09, "height of a record");
    hold(record.answer == 0x100F0E0D, "answer of a record");
    hold(bits_of(record.sigma) == 0x14131211, "sigma of a record");
    hold(record.bands[0] == 0x18171615, "band 0 of a record");
    hold(record.bands[1] == 0x1C1B1A19, "band 1 of a record");
    hold(record.bands[2] == 0x201F1E1D, "band 2 of a record");
    hold(record.bands[3] == 0x24232221, "band 3 of a record");
    hold(record.rail == 0x28272625, "rail of a record");
}

/* The largest that a field holds. */
static void high_fields(void)
{
    uint64_t fields[VUZGARI_RECORD_FIELDS] = {[0] = UINT32_MAX, [4] = 0x447A0000, [9] = UINT32_MAX};
    struct vuzgari_record record = vuzgari_record_from(fields);
    hold(record.shot == UINT32_MAX && record.rail == UINT32_MAX, "fields of 2^32 - 1");
    hold(record.sigma == 1000.0f, "sigma 1,000");
}

static void numbers(void)
{
    hold(vuzgari_number_of(0) == VUZGARI_GIVEN, "the number of the figure 0");
    hold(vuzgari_number_of(VUZGARI_REFUSED - 1) == VUZGARI_GIVEN, "the number of the largest figure");
    hold(vuzgari_number_of(VUZGARI_REFUSED + VUZGARI_SIDE_ABOVE) == VUZGARI_SIDE_ABOVE, "the number of refusal 1");
    hold(vuzgari_number_of(VUZGARI_REFUSED + VUZGARI_MANY_PIXELS) == VUZGARI_MANY_PIXELS, "the number of refusal 16");
    hold(vuzgari_number_of(VUZGARI_REFUSED + UINT32_MAX) == UINT32_MAX, "the number of the last refusal");
}

static void widths(void)
{
    hold(bits_of(vuzgari_width_of(0)) == 0, "width 0");
    hold(bits_of(vuzgari_width_of(1)) == 1, "the least width above 0");
    hold(vuzgari_width_of(0x3FC00000) == 1.5f, "width 1.5");
    hold(bits_of(vuzgari_width_of(VUZGARI_REFUSED - 1)) == UINT32_MAX, "the last bits");
    hold(bits_of(vuzgari_width_of(VUZGARI_REFUSED)) == 0, "no width at 2^32");
    hold(bits_of(vuzgari_width_of(VUZGARI_REFUSED + VUZGARI_FLAT)) == 0, "no width at refusal 9");
    hold(bits_of(vuzgari_width_of(VUZGARI_REFUSED + 0x3FC00000)) == 0, "no width at 2^32 and the bits of 1.5");
}

int main(void)
{
    distinct_bytes();
    high_bytes();
    record_fields();
    high_fields();
    numbers();
    widths();
    hold(strcmp(vuzgari_version(), VUZGARI_VERSION) == 0, "the archive has another version than the header");
    printf("decoders: %u values\n", held);
    return 0;
}
