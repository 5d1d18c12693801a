/* The noise of a lid, from C. It is built with what pkg-config says, and with nothing else:

       cc -o noise noise.c $(pkg-config --cflags --libs vuzgari)

   A lid is its pixels, one byte each (0 is black, 255 white), row by row. Here two are made; yours come from a file or
   a camera. */
#include <vuzgari.h>

#include <stdio.h>
#include <stdlib.h>

enum { WIDTH = 64, HEIGHT = 64, PIXELS = WIDTH * HEIGHT };

/* Asks how much memory the call needs, lends it, and decodes the answer. */
static struct vuzgari_answer measure(const uint8_t *pixels, size_t w, size_t h)
{
    struct vuzgari_answer answer = {0};
    uint64_t windows = vuzgari_noise_windows(w, h);
    answer.number = vuzgari_number_of(windows);
    if (answer.number != VUZGARI_GIVEN) {
        return answer; /* a side is too long or too short */
    }
    size_t ints_len = 3 * (size_t)windows;
    size_t floats_len = 2 * (size_t)windows + 2;
    int32_t *ints = malloc(ints_len * sizeof *ints);
    float *floats = malloc(floats_len * sizeof *floats);
    if (ints == NULL || floats == NULL) {
        perror("noise");
        exit(2);
    }
    uint8_t bytes[VUZGARI_ANSWER_BYTES] = {0}; /* the call leaves them alone where it is refused (1 to 4) */
    uint32_t number = vuzgari_noise(pixels, w * h, w, h, ints, ints_len, floats, floats_len, bytes, sizeof bytes);
    answer = vuzgari_answer_from(bytes);
    answer.number = number;
    free(ints);
    free(floats);
    return answer;
}

/* Sigma is the noise as a float; milli is the nearest whole number of thousandths, which prints the same everywhere. */
static void print(const char *name, struct vuzgari_answer answer)
{
    if (answer.number == VUZGARI_GIVEN) {
        printf("%s: noise %u.%03u levels\n", name, (unsigned)answer.milli / 1000, (unsigned)answer.milli % 1000);
    } else {
        printf("%s: no figure, number %u: %s\n", name, (unsigned)answer.number, vuzgari_reason(answer.number));
    }
}

int main(void)
{
    static uint8_t grain[PIXELS], stripes[PIXELS];
    uint32_t drawn = 1;
    for (size_t k = 0; k < PIXELS; k++) {
        drawn = drawn * 1664525u + 1013904223u;
        grain[k] = (uint8_t)(120 + (drawn >> 16) % 13); /* plain grey, 120 to 132 */
        stripes[k] = k % 2 == 0 ? 0 : 255;              /* columns, black and white: nowhere quiet */
    }
    print("grain", measure(grain, WIDTH, HEIGHT));
    print("stripes", measure(stripes, WIDTH, HEIGHT));
    return 0;
}
