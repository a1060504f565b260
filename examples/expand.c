/* P1 of the scope paper: Expand modulo 7 of the curve 3 0 1, on the family of the rows 1 0 1 and 2 3 5. Prints 1 3 2. */
#include <stdio.h>
#include "zahupnik.h"

int main(void) {
    uint32_t a[] = {1, 2}, b[] = {0, 3}, c[] = {1, 5}, curve[] = {3, 0, 1}, output[3] = {0};
    uint32_t number = zahupnik_plain_expand(7, a, 2, b, 2, c, 2, curve, 3, output, 3);
    if (number == ZAHUPNIK_FINISHED)
        printf("%u %u %u\n", (unsigned)output[0], (unsigned)output[1], (unsigned)output[2]);
    else
        printf("refused=%u\n", (unsigned)number);
    return 0;
}
