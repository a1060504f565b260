/* What ordering_model.h declares. The list is gone through twice, and what is met is appended: each second entry from the first on, then
 * each second from the second on. The way back goes so too, and puts the entries of the list, one by one, where those met stood. */
#include "ordering_model.h"

uint32_t ordering_refusal(const struct ordering *x) {
    if (x->list.length > MOST_ENTRIES) return 5;
    return x->output_length != x->list.length ? 7 : 0;
}

/* Appends what one pass meets; how many numbers are there then. */
static size_t append_pass(const struct ordering *x, size_t first, size_t count, uint32_t *result) {
    for (size_t met = first; met < x->list.length; met += 2, count++) {
        if (x->back)
            result[met] = x->list.entries[count];
        else
            result[count] = x->list.entries[met];
    }
    return count;
}

void hand_out_ordered(const struct ordering *x, uint32_t *result) { append_pass(x, 1, append_pass(x, 0, 0, result), result); }

size_t even_count(size_t length) {
    size_t count = 0;
    for (size_t index = 0; index < length; index += 2) count++;
    return count;
}
