/* Compares words as people misspell them. */
#include <string.h>
#include "likeness.h"

static uint8_t small(uint8_t letter) { return letter >= 'A' && letter <= 'Z' ? (uint8_t)(letter + ('a' - 'A')) : letter; }

int is_word(const uint8_t *word, size_t length, const char *other) {
    return length == strlen(other) && distance(word, length, other) == 0;
}

enum { LONGEST_WORD = 16 };

size_t distance(const uint8_t *word, size_t length, const char *other) {
    size_t other_length = strlen(other), rows[LONGEST_WORD + 1][LONGEST_WORD + 1];
    if (length > LONGEST_WORD || other_length > LONGEST_WORD) return length + other_length;
    for (size_t i = 0; i <= length; i++)
        for (size_t j = 0; j <= other_length; j++) {
            if (i == 0 || j == 0) {
                rows[i][j] = i + j;
                continue;
            }
            uint8_t letter = small(word[i - 1]), other_letter = (uint8_t)other[j - 1];
            size_t least = rows[i - 1][j - 1] + (letter != other_letter);
            if (rows[i - 1][j] + 1 < least) least = rows[i - 1][j] + 1;
            if (rows[i][j - 1] + 1 < least) least = rows[i][j - 1] + 1;
            if (i > 1 && j > 1 && letter == (uint8_t)other[j - 2] && small(word[i - 2]) == other_letter && rows[i - 2][j - 2] + 1 < least)
                least = rows[i - 2][j - 2] + 1;
            rows[i][j] = least;
        }
    return rows[length][other_length];
}

uint32_t operation_like(const uint8_t *word, size_t length) {
    uint32_t nearest = OPERATIONS;
    size_t least = 3; /* three letters wrong are too many, but for a word that is cut short */
    for (uint32_t i = 0; i < OPERATIONS; i++) {
        size_t here = distance(word, length, operations[i]);
        if (length >= 2 && length < strlen(operations[i])) {
            size_t cut = 0;
            while (cut < length && small(word[cut]) == (uint8_t)operations[i][cut]) cut++;
            if (cut == length) here = 1;
        }
        if (here < least) {
            least = here;
            nearest = i;
        }
    }
    return nearest;
}
