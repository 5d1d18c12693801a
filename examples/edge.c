/* The width of an edge, from C. It is built with what pkg-config says, and with nothing else:

       cc -o edge edge.c $(pkg-config --cflags --libs vuzgari)

   The call looks at the pixels about a centre, 17 by 17, and says how wide the edges there are: the sharper the
   picture, the narrower. It needs no memory but the pixels. */
#include <vuzgari.h>

#include <stdio.h>

enum { WIDTH = 40, HEIGHT = 40, PIXELS = WIDTH * HEIGHT };

/* The origin is (0, 0), so the centre is in the image's own columns and rows. An image that is cut out of a larger one
   is lent with its origin instead, and its places keep their coordinates: pixel (x, y) is at x - ox, y - oy. */
static void measure(const char *name, const uint8_t *pixels, int32_t cx, int32_t cy)
{
    uint64_t returned = vuzgari_edge_width(pixels, PIXELS, WIDTH, HEIGHT, 0, 0, cx, cy);
    uint32_t number = vuzgari_number_of(returned);
    if (number == VUZGARI_GIVEN) {
        printf("%s: %.6f pixels wide\n", name, (double)vuzgari_width_of(returned));
    } else {
        printf("%s: no figure, number %u: %s\n", name, (unsigned)number, vuzgari_reason(number));
    }
}

int main(void)
{
    static uint8_t step[PIXELS], flat[PIXELS];
    for (size_t k = 0; k < PIXELS; k++) {
        step[k] = k % WIDTH < 20 ? 60 : 180; /* dark on the left, bright from column 20 on */
        flat[k] = 128;
    }
    measure("step", step, 17, 20); /* the edge need not be at the centre */
    measure("flat", flat, 20, 20);
    return 0;
}
