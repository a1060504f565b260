/* The family of the rows 1 0 1 and 2 3 5 modulo 7, prepared once: Expand of the curve 3 0 1 on its record, and Decompose of what that
 * gave. Prints 1 3 2 and 3 0 1. */
#include <stdio.h>
#include "zahupnik.h"

int main(void) {
    static const uint32_t rows[2][3] = {{1, 0, 1}, {2, 3, 5}};
    uint32_t curve[3] = {3, 0, 1}, powers[3] = {0}, back[3] = {0};
    struct zahupnik_change made = zahupnik_prepared_empty(7);
    for (int i = 0; i < 2 && made.answer == ZAHUPNIK_FINISHED; i++)
        made = zahupnik_prepared_append(made.family, rows[i][0], rows[i][1], rows[i][2]);
    uint32_t number = made.answer;
    if (number == ZAHUPNIK_FINISHED) number = zahupnik_prepared_plain_expand(made.family, curve, 3, powers, 3);
    if (number == ZAHUPNIK_FINISHED) number = zahupnik_prepared_plain_decompose(made.family, powers, 3, back, 3);
    if (number != ZAHUPNIK_FINISHED) {
        printf("refused=%u\n", (unsigned)number);
        return 1;
    }
    printf("%u %u %u\n", (unsigned)powers[0], (unsigned)powers[1], (unsigned)powers[2]);
    printf("%u %u %u\n", (unsigned)back[0], (unsigned)back[1], (unsigned)back[2]);
    return 0;
}
