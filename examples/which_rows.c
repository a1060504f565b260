/* Which a of a family have no inverse modulo 15, and why: zero, or a factor shared with 15. Prints
 * row 2: 6 shares 3 with 15
 * row 4: zero */
#include <stdio.h>
#include "zahupnik.h"

int main(void) {
    const uint32_t m = 15, a[] = {1, 6, 2, 0};
    for (unsigned i = 0; i < 4; i++) {
        uint32_t inverse = 0, factor = 0;
        uint32_t number = zahupnik_invert(m, a[i], &inverse, &factor);
        if (number == ZAHUPNIK_REFUSED_NO_INVERSE && factor == m)
            printf("row %u: zero\n", i + 1);
        else if (number == ZAHUPNIK_REFUSED_NO_INVERSE)
            printf("row %u: %u shares %u with %u\n", i + 1, (unsigned)a[i], (unsigned)factor, (unsigned)m);
        else if (number != ZAHUPNIK_FINISHED)
            printf("row %u: refused=%u\n", i + 1, (unsigned)number);
    }
    return 0;
}
