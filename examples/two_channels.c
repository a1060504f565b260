/* A receiver of two channels, 101 and 103: together they hold whole numbers from -5201 to 5201. F_3 of the family i! L_i, L_i being
 * Laguerre's, is expanded on both channels and joined; then two lists that came from the two channels are joined. Prints
 * 6 -18 9 -1
 * -6 18 -9 1 */
#include <inttypes.h>
#include <stdio.h>
#include "zahupnik.h"

static void print_curve(uint32_t number, const int64_t *curve, size_t length) {
    if (number != ZAHUPNIK_FINISHED) {
        printf("refused=%u\n", (unsigned)number);
        return;
    }
    for (size_t k = 0; k < length; k++) printf("%" PRId64 "%c", curve[k], k + 1 < length ? ' ' : '\n');
}

int main(void) {
    const int32_t a[] = {-1, -1, -1}, b[] = {1, 3, 5}, c[] = {0, -1, -4}, curve[] = {0, 0, 0, 1};
    const uint32_t first[] = {95, 18, 92, 1}, second[] = {97, 18, 94, 1};
    int64_t output[4] = {0};
    uint32_t number = zahupnik_expand_join(101, 103, a, 3, b, 3, c, 3, curve, 4, output, 4);
    print_curve(number, output, 4);
    number = zahupnik_join(101, 103, first, 4, second, 4, output, 4);
    print_curve(number, output, 4);
    return 0;
}
