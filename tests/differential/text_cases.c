/* What text_cases.h declares. A text is written from a random case (cases.h), which may be refused by its numbers; some texts are
 * then damaged once or more. Uses of the model only how a job is written: what the call has to answer is read in the bytes. */
#include "text_cases.h"

#include <string.h>

#include "text_model.h"

/* Takes out bytes at a place and puts others there; a text for which there is no room stays as it is. */
static void splice(struct text *text, size_t at, size_t taken, const void *bytes, size_t count) {
    if (text->length - taken + count > TEXT_ROOM) return;
    memmove(text->bytes + at + count, text->bytes + at + taken, text->length - at - taken);
    memcpy(text->bytes + at, bytes, count);
    text->length += count - taken;
}

static void splice_word(struct text *text, size_t at, size_t taken, const char *word) {
    splice(text, at, taken, word, strlen(word));
}

/* A place with this byte, chosen among all of them; the text's length if there is none. */
static size_t some_place_of(struct random *random, const struct text *text, uint8_t byte) {
    size_t count = 0, place = text->length;
    for (size_t i = 0; i < text->length; i++)
        if (text->bytes[i] == byte && one_in(random, (uint32_t)++count)) place = i;
    return place;
}

/* A byte that is there becomes other bytes. */
static void replace_byte(struct random *random, struct text *text, uint8_t byte, const char *by) {
    size_t place = some_place_of(random, text, byte);
    if (place < text->length) splice_word(text, place, 1, by);
}

/* Where a line begins: the place after a byte 10, or the text's beginning. */
static size_t some_line(struct random *random, const struct text *text) {
    size_t place = some_place_of(random, text, '\n');
    return place + 1 < text->length && !one_in(random, 6) ? place + 1 : 0;
}

static size_t line_length(const struct text *text, size_t at) {
    const uint8_t *end = memchr(text->bytes + at, '\n', text->length - at);
    return end ? (size_t)(end - text->bytes) + 1 - at : text->length - at;
}

/* The damages. */

static uint8_t some_byte(struct random *random) {
    static const uint8_t telling[] = "\0\t\n\v\r =+-,.0179abcmovxME_\x7f\x80\xa0\xff";
    return one_in(random, 4) ? (uint8_t)below(random, 256) : telling[below(random, sizeof telling - 1)];
}

static void change_byte(struct random *random, struct text *text) {
    if (text->length) text->bytes[below(random, text->length)] = some_byte(random);
}

static void flip_bit(struct random *random, struct text *text) {
    if (text->length) text->bytes[below(random, text->length)] ^= (uint8_t)(1 << below(random, 8));
}

static void delete_byte(struct random *random, struct text *text) {
    if (text->length) splice_word(text, below(random, text->length), 1, "");
}

static void insert_byte(struct random *random, struct text *text) {
    uint8_t byte = some_byte(random);
    splice(text, below(random, text->length + 1), 0, &byte, 1);
}

static void change_line_end(struct random *random, struct text *text) {
    static const char *const ends[] = {"\r\n", "\r", "\n\n", " \n", "\t\n", "\n ", "", "\\n", "=\n", "\f\n"};
    replace_byte(random, text, '\n', ONE_OF(random, ends));
}

static void change_every_line_end(struct random *random, struct text *text) {
    (void)random;
    for (size_t i = 0; i < text->length; i++)
        if (text->bytes[i] == '\n') splice_word(text, i++, 0, "\r");
}

static void change_space(struct random *random, struct text *text) {
    static const char *const spaces[] = {"\t", "  ", "", ",", "\xc2\xa0", " +", " -", " 0", " 00", "0 ", "\n", "=", "\r"};
    replace_byte(random, text, ' ', ONE_OF(random, spaces));
}

static void change_equals(struct random *random, struct text *text) {
    static const char *const signs[] = {"", "==", "= ", " =", ":", "=0", "=00", "=+", "=0x", "=\t", "=\n"};
    replace_byte(random, text, '=', ONE_OF(random, signs));
}

static void change_letter(struct random *random, struct text *text) {
    static const char *const letters[] = {"", "E", "ee", "e "};
    replace_byte(random, text, 'e', ONE_OF(random, letters));
}

/* A number is put before what stands after a space or an equals sign, or takes the place of its first digit. */
static void put_number(struct random *random, struct text *text, const char *digits) {
    size_t place = some_place_of(random, text, one_in(random, 3) ? '=' : ' ');
    if (place < text->length) splice_word(text, place + 1, place + 1 < text->length && one_in(random, 2), digits);
}

static void great_number(struct random *random, struct text *text) {
    static const char *const numbers[] = {
        "4294967295 ", "4294967296 ",           "4294967297 ",           "9999999999 ", "42949672950 ", "18446744073709551615 ",
        "0 ",          "18446744073709551616 ", "18446744073709551617 ", "2147483648 ", "4294967295",   "4294967296"};
    put_number(random, text, ONE_OF(random, numbers));
}

/* Digits by the thousand; zeros too. */
static void very_great_number(struct random *random, struct text *text) {
    static char digits[8001];
    size_t count = one_in(random, 4) ? 8000 : 1000;
    memset(digits, one_in(random, 4) ? '0' : '1' + (int)below(random, 9), count);
    digits[count] = 0;
    put_number(random, text, digits);
}

static void no_last_line_end(struct random *random, struct text *text) {
    (void)random;
    if (text->length) text->length--;
}

static void cut(struct random *random, struct text *text) {
    text->length = one_in(random, 4) ? 0 : below(random, text->length + 1);
}

static void more_lines(struct random *random, struct text *text) {
    static const char *const ends[] = {"v", "v=\n", "\n", "w=1\n", " ", "mod=7\n"};
    splice_word(text, text->length, 0, ONE_OF(random, ends));
}

static void more_bytes(struct random *random, struct text *text) {
    do {
        uint8_t byte = some_byte(random);
        splice(text, text->length, 0, &byte, 1);
    } while (one_in(random, 2));
}

static void remove_line(struct random *random, struct text *text) {
    size_t at = some_line(random, text);
    splice_word(text, at, line_length(text, at), "");
}

static void double_line(struct random *random, struct text *text) {
    static uint8_t line[TEXT_ROOM];
    size_t at = some_line(random, text), length = line_length(text, at);
    memcpy(line, text->bytes + at, length);
    splice(text, at, 0, line, length);
}

/* A line goes to the place of another. */
static void move_line(struct random *random, struct text *text) {
    static uint8_t line[TEXT_ROOM];
    size_t at = some_line(random, text), length = line_length(text, at);
    memcpy(line, text->bytes + at, length);
    splice_word(text, at, length, "");
    splice(text, some_line(random, text), 0, line, length);
}

/* The list of some line goes on until the text has as many bytes as stated, if it is shorter. */
static void lengthen(struct random *random, struct text *text, size_t length) {
    size_t at = some_line(random, text);
    at += line_length(text, at);
    if (at) at--;
    if (text->length < length && (length - text->length) % 2) splice_word(text, at, 0, one_in(random, 2) ? "0" : "1");
    while (text->length < length) splice_word(text, at, 0, " 1");
}

static void far_longer_list(struct random *random, struct text *text) { lengthen(random, text, 500 + below(random, 6000)); }

static void longest_text(struct random *random, struct text *text) { lengthen(random, text, LONGEST_TEXT); }

static void too_long_text(struct random *random, struct text *text) {
    lengthen(random, text, LONGEST_TEXT + 1 + below(random, one_in(random, 2) ? 1 : 9000));
}

static void any_bytes(struct random *random, struct text *text) {
    text->length = below(random, 80);
    for (size_t i = 0; i < text->length; i++) text->bytes[i] = some_byte(random);
}

typedef void text_damage(struct random *random, struct text *text);

static text_damage *const DAMAGES[] = {
    change_byte,     flip_bit,      delete_byte,      insert_byte,  change_line_end,   change_every_line_end,
    change_space,    change_equals, change_letter,    great_number, very_great_number, cut,
    more_lines,      more_bytes,    no_last_line_end, remove_line,  double_line,       move_line,
    far_longer_list, longest_text,  too_long_text,    any_bytes,
};

void make_text(struct random *random, struct text *text, size_t *output_length, size_t *work_length) {
    static const enum operation operations[] = {EXPAND, ADJOINT, DECOMPOSE, NORMS, MOMENTS};
    struct lent x = make_case(random, ONE_OF(random, operations), TEXT);
    text->length = write_job(&x, text->bytes);
    *output_length = x.output_length;
    *work_length = x.work_length;
    if (one_in(random, 3)) {
        ONE_OF(random, DAMAGES)(random, text);
        while (one_in(random, 4)) ONE_OF(random, DAMAGES)(random, text);
    }
}
