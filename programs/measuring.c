#include "measuring.h"
#include "reading.h"

#include <errno.h>
#include <stdlib.h>

/* The answer of a refused call: the number and zeros. */
static struct vuzgari_answer refusal(uint32_t number)
{
    return (struct vuzgari_answer){.number = number};
}

/* Lends the noise call memory for m windows. Returns 0 or errno's number. */
static int measure_windows(struct lid *lid, const uint8_t *pixels, size_t m)
{
    size_t w = lid->reading.w;
    size_t h = lid->reading.h;
    size_t ints_len = 3 * m;
    size_t floats_len = 2 * m + 2;
    int32_t *ints = malloc(ints_len * sizeof *ints);
    float *floats = malloc(floats_len * sizeof *floats);
    bool lent = ints != NULL && floats != NULL;
    if (lent) {
        uint8_t answer[VUZGARI_ANSWER_BYTES] = {0};
        uint32_t number = vuzgari_noise(pixels, w * h, w, h, ints, ints_len, floats, floats_len, answer, sizeof answer);
        lid->answer = vuzgari_answer_from(answer);
        lid->answer.number = number; /* a refused call writes no answer */
    }
    free(ints);
    free(floats);
    return lent ? 0 : ENOMEM;
}

/* Measures a lid whose length fits its header. */
static int measure_bytes(struct lid *lid, const uint8_t *bytes)
{
    uint64_t windows = vuzgari_noise_windows(lid->reading.w, lid->reading.h);
    uint32_t number = vuzgari_number_of(windows);
    if (number != VUZGARI_GIVEN) {
        lid->answer = refusal(number);
        return 0;
    }
    return measure_windows(lid, bytes + lid->reading.start, (size_t)windows);
}

void measure_lid(struct lid *lid)
{
    *lid = (struct lid){.name = lid->name, .asked = lid->asked};
    uint8_t *bytes = read_lid(lid);
    if (was_read(lid) && lid->answer.number == VUZGARI_GIVEN) {
        lid->error = measure_bytes(lid, bytes);
    }
    free(bytes);
}
