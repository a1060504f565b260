/* What text_model.h declares: a reader that goes through the bytes once, and texts put together line by line. */
#include "text_model.h"

#include <inttypes.h>
#include <stdio.h>
#include <string.h>

const char *const WORDS[] = {
    [EXPAND] = "expand", [ADJOINT] = "adjoint", [DECOMPOSE] = "decompose", [NORMS] = "norms", [MOMENTS] = "moments",
};

enum operation operation_of(uint32_t number) {
    static const enum operation in_order[OPERATIONS] = {EXPAND, ADJOINT, DECOMPOSE, MOMENTS, NORMS};
    return number < OPERATIONS ? in_order[number] : EXPAND;
}

/* What is left of the text. */
struct rest {
    const uint8_t *at;
    size_t length;
};

/* Whether the text goes on with these bytes, which are then passed. */
static bool pass(struct rest *rest, const char *bytes) {
    size_t length = strlen(bytes);
    if (rest->length < length || memcmp(rest->at, bytes, length)) return false;
    rest->at += length;
    rest->length -= length;
    return true;
}

static bool at_digit(const struct rest *rest) { return rest->length && rest->at[0] >= '0' && rest->at[0] <= '9'; }

/* A decimal number that fits into 32 bits; one that opens with 0 has no other digit. */
static bool read_number(struct rest *rest, uint32_t *number) {
    uint64_t value = 0;
    if (!at_digit(rest)) return false;
    if (pass(rest, "0")) {
        *number = 0;
        return !at_digit(rest);
    }
    for (; at_digit(rest); rest->at++, rest->length--) {
        value = 10 * value + (rest->at[0] - (uint64_t)'0');
        if (value > UINT32_MAX) return false;
    }
    *number = (uint32_t)value;
    return true;
}

/* No number, or numbers with one space between two, and the line's end. A list has room for as many as a text has place for. */
static bool read_list(struct rest *rest, struct list *list) {
    list->length = 0;
    if (pass(rest, "\n")) return true;
    do {
        if (!read_number(rest, &list->entries[list->length++])) return false;
    } while (pass(rest, " "));
    return pass(rest, "\n");
}

static bool read_operation(struct rest *rest, enum operation *operation) {
    for (*operation = EXPAND; *operation <= MOMENTS; ++*operation)
        if (pass(rest, WORDS[*operation])) return pass(rest, "\n");
    return false;
}

static bool read_job(struct rest rest, struct lent *x) {
    static uint32_t room[4][LONGEST_TEXT / 2];
    x->way = TEXT;
    x->a.entries = room[0];
    x->b.entries = room[1];
    x->c.entries = room[2];
    x->curve.entries = room[3];
    return pass(&rest, "mod=") && read_number(&rest, &x->m) && pass(&rest, "\n") && pass(&rest, "a=") &&
           read_list(&rest, &x->a) && pass(&rest, "b=") && read_list(&rest, &x->b) && pass(&rest, "c=") &&
           read_list(&rest, &x->c) && pass(&rest, "op=") && read_operation(&rest, &x->operation) && pass(&rest, "v=") &&
           read_list(&rest, &x->curve) && rest.length == 0;
}

uint32_t read_text(const uint8_t *text, size_t length, struct lent *x) {
    if (length > LONGEST_TEXT) return 1;
    return read_job((struct rest){text, length}, x) ? 0 : 2;
}

uint32_t writing_refusal(uint32_t operation, const struct lent *x) { return operation < OPERATIONS ? refusal(x) : 2; }

/* A line of numbers; where it ends. Its last byte takes the place of the zero byte that sprintf leaves, so that nothing is
 * written past it. */
static char *write_line(char *at, const char *key, struct list list) {
    at += sprintf(at, "%s", key);
    for (size_t i = 0; i < list.length; i++) at += sprintf(at, i ? " %" PRIu32 : "%" PRIu32, list.entries[i]);
    *at = '\n';
    return at + 1;
}

uint32_t write_job(const struct lent *x, uint8_t *job) {
    uint32_t m = x->m;
    char *at = write_line((char *)job, "mod=", (struct list){&m, 1});
    at = write_line(at, "a=", x->a);
    at = write_line(at, "b=", x->b);
    at = write_line(at, "c=", x->c);
    at += sprintf(at, "op=%s\n", WORDS[x->operation]);
    at = write_line(at, "v=", x->curve);
    return (uint32_t)(at - (char *)job);
}

uint32_t write_result(enum operation operation, struct list result, uint8_t *answer) {
    char *at = (char *)answer;
    at += sprintf(at, "op=%s\n", WORDS[operation]);
    return (uint32_t)(write_line(at, "out=", result) - (char *)answer);
}

/* The answer text of 127 rows is longest for the moments: 255 numbers of at most 10 digits, which fit. */
uint32_t write_answer(const struct lent *x, uint8_t answer[ANSWER_ROOM]) {
    uint32_t result[MOST_RESULTS];
    hand_out(x, result);
    return write_result(x->operation, (struct list){result, result_length(x)}, answer);
}
