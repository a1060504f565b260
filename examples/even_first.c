/* The store's round for a curve on Chebyshev's family modulo 101, whose b are all zero: T_0 + T_2 + T_4 in powers, even powers first, and
 * back. An even curve has no odd powers, so the odd part is zeros. Prints
 * 1 95 8 0 0
 * 1 0 95 0 8 */
#include <stdio.h>
#include "zahupnik.h"

static void print_list(const uint32_t *list, size_t length) {
    for (size_t k = 0; k < length; k++) printf("%u%c", (unsigned)list[k], k + 1 < length ? ' ' : '\n');
}

int main(void) {
    const uint32_t a[] = {1, 2, 2, 2}, b[] = {0, 0, 0, 0}, c[] = {0, 100, 100, 100}, curve[] = {1, 0, 1, 0, 1};
    uint32_t powers[5] = {0}, stored[5] = {0}, back[5] = {0};
    uint32_t number = zahupnik_plain_expand(101, a, 4, b, 4, c, 4, curve, 5, powers, 5);
    if (number == ZAHUPNIK_FINISHED) number = zahupnik_even_first(powers, 5, stored, 5);
    if (number == ZAHUPNIK_FINISHED) number = zahupnik_even_back(stored, 5, back, 5);
    if (number != ZAHUPNIK_FINISHED) {
        printf("refused=%u\n", (unsigned)number);
        return 1;
    }
    print_list(stored, 5);
    print_list(back, 5);
    return 0;
}
