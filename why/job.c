/* Reads a job from a text that the text call has found to be of the form. */
#include <string.h>
#include "job.h"

const char *const keys[LINES] = {"mod=", "a=", "b=", "c=", "op=", "v="};
const char *const operations[OPERATIONS] = {
    [ZAHUPNIK_EXPAND] = "expand",   [ZAHUPNIK_ADJOINT] = "adjoint", [ZAHUPNIK_DECOMPOSE] = "decompose",
    [ZAHUPNIK_MOMENTS] = "moments", [ZAHUPNIK_NORMS] = "norms",
};

uint32_t operation_named(const uint8_t *name, size_t length) {
    uint32_t i = 0;
    while (i < OPERATIONS && !(strlen(operations[i]) == length && memcmp(operations[i], name, length) == 0)) i++;
    return i;
}

int takes_curve(uint32_t operation) { return operation != ZAHUPNIK_MOMENTS && operation != ZAHUPNIK_NORMS; }

static int read_list(const uint8_t *line, size_t start, size_t end, struct list *list) {
    list->length = 0;
    for (size_t at = start; at < end; at++) {
        uint64_t number = 0;
        size_t first = at;
        for (; at < end && line[at] >= '0' && line[at] <= '9' && number <= UINT32_MAX; at++) number = 10 * number + (line[at] - '0');
        if (at == first || number > UINT32_MAX || (at < end && line[at] != ' ')) return 0;
        if (list->length == sizeof list->numbers / sizeof *list->numbers) return 0;
        list->numbers[list->length] = (uint32_t)number;
        list->places[list->length++] = first + 1;
    }
    return 1;
}

int read_job(const uint8_t *text, size_t length, struct job *job) {
    const uint8_t *line = text, *text_end = text + length;
    for (int i = 0; i < LINES; i++) {
        size_t left = (size_t)(text_end - line), key = strlen(keys[i]);
        const uint8_t *end = left ? memchr(line, '\n', left) : NULL;
        if (!end || (size_t)(end - line) < key || memcmp(line, keys[i], key) != 0) return 0;
        job->lines[i].length = 0;
        if (i == OP) {
            job->operation = operation_named(line + key, (size_t)(end - line) - key);
            if (job->operation == OPERATIONS) return 0;
        } else if (!read_list(line, key, (size_t)(end - line), &job->lines[i]))
            return 0;
        line = end + 1;
    }
    return line == text_end && job->lines[MOD].length == 1;
}
