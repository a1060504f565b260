/* What ordering_figures.h declares. */
#include "ordering_figures.h"

#include <string.h>

#define TEN_TO_FIFTY {10, 20, 30, 40, 50}, {10, 30, 50, 20, 40}
#define RISING {0}, {0}

const struct ordering_figure ORDERING_FIGURES[] = {
    {"3 numbers", 3, 3, 0, {3, 0, 1}, {3, 1, 0}},
    {"4 numbers", 4, 4, 0, {10, 20, 30, 40}, {10, 30, 20, 40}},
    {"5 numbers", 5, 5, 0, TEN_TO_FIFTY},
    {"8 numbers", 8, 8, 0, {1, 2, 3, 4, 5, 6, 7, 8}, {1, 3, 5, 7, 2, 4, 6, 8}},
    {"no numbers", 0, 0, 0, {0}, {0}},
    {"1 number", 1, 1, 0, {7}, {7}},
    {"2 numbers", 2, 2, 0, {10, 20}, {10, 20}},
    {"zeros at odd indices", 5, 5, 0, {3, 0, 1, 0, 2}, {3, 1, 2, 0, 0}},
    {"zeros at even indices", 4, 4, 0, {0, 92, 0, 15}, {0, 0, 92, 15}},
    {"zeros at the end", 6, 6, 0, {1, 2, 3, 4, 0, 0}, {1, 3, 0, 2, 4, 0}},
    {"numbers of 32 bits", 5, 5, 0, {4294967295, 2147483648, 2147483647, 0, 65536}, {4294967295, 2147483647, 65536, 2147483648, 0}},
    {"9 numbers", 9, 9, 0, RISING},
    {"65 numbers", 65, 65, 0, RISING},
    {"127 numbers", 127, 127, 0, RISING},
    {"128 numbers", 128, 128, 0, RISING},
    {"129 numbers", 129, 129, 5, RISING},
    {"130 numbers", 130, 130, 5, RISING},
    {"129 numbers and an output of 128", 129, 128, 5, RISING},
    {"129 numbers and an output of 130", 129, 130, 5, RISING},
    {"261 numbers and an output of 5", 261, 5, 5, RISING},
    {"128 numbers and an output of 129", 128, 129, 7, RISING},
    {"an output one longer", 5, 6, 7, TEN_TO_FIFTY},
    {"an output one shorter", 5, 4, 7, TEN_TO_FIFTY},
    {"an output longer by 256", 5, 261, 7, TEN_TO_FIFTY},
    {"no numbers and an output of 1", 0, 1, 7, {0}, {0}},
    {"1 number and no output", 1, 0, 7, {7}, {7}},
    {.name = NULL},
};

/* The figure's list, or the same with even indices first. */
static const uint32_t *stated(const struct ordering_figure *figure, bool even_first, uint32_t *room) {
    size_t length = figure->length, place = 0;
    if (length <= MOST_ORDERED) {
        memcpy(room, even_first ? figure->even_first : figure->list, sizeof figure->list);
        return room;
    }
    for (uint32_t first = 1; first <= (even_first ? 2 : 1); first++)
        for (uint32_t number = first; number <= length; number += even_first ? 2 : 1) room[place++] = number;
    return room;
}

struct ordering ordering_figure_lent(const struct ordering_figure *figure, bool back) {
    static uint32_t room[ORDERING_ROOM];
    stated(figure, back, room);
    return (struct ordering){back, {room, figure->length}, figure->output_length};
}

const uint32_t *ordering_figure_result(const struct ordering_figure *figure, bool back) {
    static uint32_t room[ORDERING_ROOM];
    return stated(figure, !back, room);
}

bool is_ordering_figure(const struct ordering *x) {
    uint32_t room[ORDERING_ROOM];
    for (const struct ordering_figure *figure = ORDERING_FIGURES; figure->name; figure++) {
        size_t length = figure->length;
        if (length != x->list.length) continue;
        if (!length || memcmp(stated(figure, x->back, room), x->list.entries, length * sizeof *room) == 0) return true;
    }
    return false;
}
