/* reasons: prints what vuzgari_reason says, a line for each of the numbers 0 to 40 and of a few larger ones: the number,
   a tab, the sentence. */
#include "vuzgari.h"

#include <inttypes.h>
#include <stdio.h>

enum { LAST = 40 };

static void print_reason(uint32_t number)
{
    printf("%" PRIu32 "\t%s\n", number, vuzgari_reason(number));
}

int main(void)
{
    static const uint32_t larger[] = {255, 256, 65536 + VUZGARI_FEW, INT32_MAX, (uint32_t)INT32_MAX + 1, UINT32_MAX};
    for (uint32_t number = 0; number <= LAST; number++) {
        print_reason(number);
    }
    for (size_t k = 0; k < sizeof larger / sizeof *larger; k++) {
        print_reason(larger[k]);
    }
    return fflush(stdout) == 0 ? 0 : 2;
}
