/* Keeps the first bytes of a text and counts all of them, piece by piece. */
#include "input.h"

void take_piece(struct input *input, const uint8_t *piece, size_t length) {
    for (size_t i = 0; i < length; i++) {
        if (input->length < KEPT) input->text[input->length++] = piece[i];
        input->bytes++;
        input->open_line++;
        if (input->open_line > input->longest_line_bytes) {
            input->longest_line_bytes = input->open_line;
            input->longest_line = input->ended_lines + 1;
        }
        if (piece[i] == '\n') {
            input->ended_lines++;
            input->open_line = 0;
        }
    }
}
