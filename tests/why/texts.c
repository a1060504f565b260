/* Has texts explained, all in one process: the reference's vectors, accepted ones of these with random damage, and long ones of two
 * characters.
 *
 * usage: texts IN OUT     what tests/reference/texts.py writes
 *
 * Of each text: the number is the text call's own, and for a vector the reference's; slips are told exactly where it is 2; every slip
 * has a line and a place of the text, and under the line that is shown, which is that line, the mark stands at that place. Prints how
 * many texts agree, by their numbers. Exits with 1 at the first text that is explained otherwise, and with 2 if a file cannot be used.
 */
#define PROGRAM "texts"
#include "../library/vector_files.h"
#include "../differential/random.h"
#include "explain.h"
#include "slips.h"

enum { DAMAGED = 50000, MOST_BASES = 400, LONGEST_BASE = 600, LONGEST_TEXT = 3 * ZAHUPNIK_MOST_TEXT, MOST_NUMBER = 20, SEED = 23 };

struct text {
    uint8_t bytes[LONGEST_TEXT];
    size_t length;
};
static struct text bases[MOST_BASES];
static size_t base_count;
static unsigned long tally[MOST_NUMBER + 1];

static _Noreturn void differs(const struct text *text, const char *words, const char *why) {
    fprintf(stderr, PROGRAM ": %s. The text:\n", why);
    for (size_t i = 0; i < text->length; i++) {
        uint8_t byte = text->bytes[i];
        fprintf(stderr, byte == '\n' ? "\\n" : byte >= ' ' && byte < 127 ? "%c" : "\\x%02x", byte);
    }
    fprintf(stderr, "\nwhat is said of it:\n%s", words);
    exit(1);
}

static uint32_t number_of(const struct text *text) {
    static uint8_t answer[ZAHUPNIK_LEAST_TEXT_OUTPUT];
    static uint32_t work[ZAHUPNIK_LEAST_WORK];
    uint32_t length = 0;
    return zahupnik_convert_text(text->bytes, text->length, answer, sizeof answer, work, ZAHUPNIK_LEAST_WORK, &length);
}

/* The line that is shown under a slip is the text's line of that number, byte for byte but for those that cannot be shown, spaces at
 * fault and what is cut; the first mark under it stands at the place. */
static void check_shown(const struct text *text, const char *words, const char *slip, size_t line, size_t place) {
    size_t start = 0, end;
    for (size_t i = 1; i < line; i++) {
        const uint8_t *found = start < text->length ? memchr(text->bytes + start, '\n', text->length - start) : NULL;
        if (!found) differs(text, words, "a slip is told in a line that the text has not");
        start = (size_t)(found - text->bytes) + 1;
    }
    for (end = start; end < text->length && text->bytes[end] != '\n';) end++;
    if (place < 1 || place > end - start + 1) differs(text, words, "a slip is told at a place that its line has not");
    const char *shown = strchr(slip, '\n') + 1;
    if (strncmp(shown, "    ", 4) != 0) {
        if (end > start) differs(text, words, "the line of a slip is not shown");
        return;
    }
    shown += 4;
    const char *marks = strchr(shown, '\n') + 1 + 4;
    size_t length = (size_t)(marks - shown) - 5, mark = strspn(marks, " "), first = 0, last = length;
    if (marks[mark] != '^' || mark > place + 2) differs(text, words, "the mark does not stand at the place of its slip");
    if (mark + 1 != place) first = 3;
    if (place + length != mark + 1 + (end - start)) last = length - 3;
    if ((first && strncmp(shown, "...", 3) != 0) || (last < length && strncmp(shown + last, "...", 3) != 0))
        differs(text, words, "the mark does not stand at the place of its slip");
    for (size_t i = first; i < last; i++) {
        uint8_t byte = text->bytes[start + place - 1 + i - mark];
        char plain = byte >= ' ' && byte < 127 ? (char)byte : '?';
        if (shown[i] != plain && !(byte == ' ' && shown[i] == '_')) differs(text, words, "another line is shown than that of a slip");
    }
}

static void check_slips(const struct text *text, const char *words, size_t told) {
    size_t printed = 0, line, place;
    int found;
    for (const char *at = words; *at; at = strchr(at, '\n') + 1) {
        found = 0;
        if (sscanf(at, "line %zu, place %zu: found %n", &line, &place, &found) != 2 || !found) continue;
        printed++;
        const char *end = strchr(at, '\n'), *expected = strstr(at, "; expected ");
        if (!expected || expected > end || expected == at + found || end == expected + strlen("; expected "))
            differs(text, words, "a slip does not say what was found and what is expected");
        if (!memchr(text->bytes, '\r', text->length)) check_shown(text, words, at, line, place); /* byte 13 may end a line too */
    }
    if (printed != told) differs(text, words, "another number of slips is printed than is counted");
}

/* Has a text explained that the text call answers with a number; it comes in pieces of this length. */
static void check_text(const struct text *text, uint32_t number, size_t piece) {
    static struct input input;
    char *words = NULL, opening[40];
    size_t size = 0;
    FILE *stream = open_memstream(&words, &size);
    if (!stream) unusable(&in, "no memory for the words");
    memset(&input, 0, sizeof input);
    for (size_t at = 0; at < text->length; at += piece)
        take_piece(&input, text->bytes + at, piece < text->length - at ? piece : text->length - at);
    uint32_t explained = explain(stream, &input);
    if (fclose(stream) != 0) unusable(&in, "no memory for the words");
    size_t told = text->length <= ZAHUPNIK_MOST_TEXT ? tell_slips(NULL, text->bytes, text->length) : 0;
    snprintf(opening, sizeof opening, number == ZAHUPNIK_FINISHED ? "accepted: " : "refused=%u: ", (unsigned)number);
    if (explained != number || strncmp(words, opening, strlen(opening)) != 0) differs(text, words, "the number is not the text call's");
    if (words[size - 1] != '\n') differs(text, words, "the last line is not ended");
    if (strstr(words, "this program does not see")) differs(text, words, "it does not see what is wrong");
    if ((told > 0) != (number == ZAHUPNIK_REFUSED_TEXT_FORM))
        differs(text, words, "slips are told, and the number is not 2, or the other way round");
    check_slips(text, words, number == ZAHUPNIK_REFUSED_TEXT_FORM ? told : 0);
    free(words);
    if (number <= MOST_NUMBER) tally[number]++;
}

static void check_vector(void) {
    static struct text text;
    uint32_t output = next_number(&in), work = next_number(&in);
    read_text(&in);
    uint32_t number = next_number(&out);
    if (in.length > sizeof text.bytes) unusable(&in, "a text that is too long");
    memcpy(text.bytes, in.bytes, in.length);
    text.length = in.length;
    if (output < ZAHUPNIK_LEAST_TEXT_OUTPUT || work < ZAHUPNIK_LEAST_WORK) number = number_of(&text);
    check_text(&text, number, 1 + in.line % 700);
    if (number == ZAHUPNIK_FINISHED && text.length <= LONGEST_BASE && base_count < MOST_BASES) bases[base_count++] = text;
}

/* Puts some bytes in the place of others; a text that would become too long stays as it is. */
static void replace(struct text *text, size_t at, size_t bytes, const void *by, size_t length) {
    static uint8_t copy[LONGEST_TEXT];
    if (text->length - bytes + length > LONGEST_TEXT || length > LONGEST_TEXT) return;
    memcpy(copy, by, length);
    memmove(text->bytes + at + length, text->bytes + at + bytes, text->length - at - bytes);
    memcpy(text->bytes + at, copy, length);
    text->length += length - bytes;
}

/* A line of the text, with its byte 10. */
static void random_line(struct random *random, const struct text *text, size_t *start, size_t *length) {
    size_t at = below(random, text->length), end = at;
    while (at > 0 && text->bytes[at - 1] != '\n') at--;
    while (end < text->length && text->bytes[end] != '\n') end++;
    *start = at;
    *length = (end < text->length ? end + 1 : end) - at;
}

static void damage(struct random *random, struct text *text) {
    static const char *const words[] = {
        " ",    "  ",  "\t",  ",",     ", ",     ";",      ".",    "-",      "+",        "=",            ":",
        "\r",   "\n",  "\n\n", "\r\n",  "0",      "00",     "7",    "1 2",    "A",        "x",            "#",
        "\"",   "a=",  "v=",  "op=",   "mod=",   "B =",    "C:",   "put=",   "refused=", "\nmod=7\n",    "norms",
        "\x80", "expand", "\xff", "\xc2\xa0", "\xd9\xa3", "9999999999", "4294967296", "\xef\xbb\xbf", "\xe2\x88\x92",
        "\xe2\x80\x93", "> ", "1. ", "\n  ", "a2=", "v1=", "1,000", "1 000", "'000", "\x1a", "none", "m0d=", "c+=", "a=a=",
    };
    const char *word = ONE_OF(random, words);
    size_t at = below(random, text->length + 1), start, length, other, other_length;
    uint8_t byte = (uint8_t)below(random, 256);
    if (text->length == 0) return;
    random_line(random, text, &start, &length);
    random_line(random, text, &other, &other_length);
    switch (below(random, 11)) {
    case 0: replace(text, at, 0, word, strlen(word)); break;
    case 1: replace(text, at, 0, &byte, 1); break;
    case 2: replace(text, at, at < text->length, "", 0); break;
    case 3: replace(text, at, at < text->length, word, strlen(word)); break;
    case 4: replace(text, at, at < text->length, &byte, 1); break;
    case 5: replace(text, start, length, "", 0); break;
    case 6: replace(text, other, 0, text->bytes + start, length); break;
    case 7: /* exchanges two lines */
        if (start + length <= other) {
            static uint8_t line[LONGEST_TEXT];
            memcpy(line, text->bytes + start, length);
            replace(text, start, length, text->bytes + other, other_length);
            replace(text, other - length + other_length, other_length, line, length);
        }
        break;
    case 8: replace(text, at, below(random, text->length - at + 1), "", 0); break;
    case 9: /* another line end, for one line or for all */
        for (size_t i = text->length; i-- > 0;)
            if (text->bytes[i] == '\n' && (byte < 128 || i == start + length - 1)) replace(text, i, 1, "\r\n", byte % 2 ? 2 : 1);
        break;
    default: replace(text, start, length - 1, word, strlen(word));
    }
}

static void print_tally(const char *what) {
    unsigned long all = 0;
    for (size_t i = 0; i <= MOST_NUMBER; i++) all += tally[i];
    printf("why: %s: %lu agree, by their numbers:", what, all);
    for (size_t i = 0; i <= MOST_NUMBER; i++)
        if (tally[i]) printf(" %zu: %lu;", i, tally[i]);
    printf("\n");
    memset(tally, 0, sizeof tally);
}

int main(int argc, char **argv) {
    static struct text text;
    run_files(argc, argv, check_vector);
    print_tally("the reference's texts");
    for (unsigned long i = 0; i < DAMAGED; i++) {
        struct random random = random_of_case(SEED, i);
        text = bases[below(&random, base_count)];
        for (uint32_t slips = 1 + below(&random, 3); slips > 0; slips--) damage(&random, &text);
        check_text(&text, number_of(&text), 1 + below(&random, 300));
    }
    print_tally("damaged texts");
    static const char characters[] = "\n\r\t ,=0a1vm-\0\xff";
    for (size_t i = 0; i < sizeof characters - 1; i++)
        for (size_t j = 0; j < sizeof characters - 1; j++) {
            struct random random = random_of_case(SEED, DAMAGED + i * sizeof characters + j);
            text.length = ZAHUPNIK_MOST_TEXT;
            for (size_t at = 0; at < text.length; at++) text.bytes[at] = (uint8_t)characters[one_in(&random, 3) ? i : j];
            check_text(&text, number_of(&text), text.length);
        }
    print_tally("long texts of two characters");
    return 0;
}
