/* Reads a text as its writer meant it, and notes each place where it is not of the form: what was found, what is expected.
 *
 * After a slip it goes on behind it, so that a text full of slips can be mended at once. Every line, its key, its contents and its ending
 * are compared with the form, so a text without a slip is of the form, and a text of the form has none. */
#include <inttypes.h>
#include <stdarg.h>
#include <stdlib.h>
#include <string.h>
#include "characters.h"
#include "likeness.h"
#include "lines.h"
#include "slips.h"

enum { MOST_PLACES = 12, WORDS = 160, SHOWN = 72 };

/* A slip. The same one several times in a line is one slip with several places. */
struct slip {
    size_t line, line_start;                           /* the line's number, and where it begins */
    size_t count, at[MOST_PLACES], bytes[MOST_PLACES]; /* how often; where, and how many bytes, for the first of these */
    char found[WORDS], expected[WORDS], more[WORDS];   /* `more` stands in brackets behind the others */
};
struct slips {
    const uint8_t *text;
    size_t length, count, room;
    struct slip *slip;
    uint32_t m;         /* the channel number, or 0 if it cannot be read */
    uint32_t operation; /* or what it seems to be; OPERATIONS if that is not known */
};

static const char *const a_job = "a job of six lines: mod=, a=, b=, c=, op= and v=";
static const char *const five_operations = "expand, adjoint, decompose, moments or norms";

static struct slip *new_slip(struct slips *slips) {
    if (slips->count == slips->room) {
        slips->room = slips->room ? 2 * slips->room : 64;
        struct slip *grown = realloc(slips->slip, slips->room * sizeof *grown);
        if (!grown) {
            fprintf(stderr, "why: there is not enough memory\n");
            exit(1);
        }
        slips->slip = grown;
    }
    return &slips->slip[slips->count++];
}

/* Notes a slip in a line: where, over how many bytes, what is expected, and what was found, as printf takes it. */
static struct slip *note(struct slips *slips, const struct line *line, size_t at, size_t bytes, const char *expected,
                         const char *found, ...) {
    char words[WORDS];
    va_list arguments;
    va_start(arguments, found);
    vsnprintf(words, sizeof words, found, arguments);
    va_end(arguments);
    for (size_t i = slips->count; i-- > 0 && slips->slip[i].line == line->number;) {
        struct slip *same = &slips->slip[i];
        if (strcmp(same->found, words) != 0 || strcmp(same->expected, expected) != 0) continue;
        if (same->count < MOST_PLACES) {
            same->at[same->count] = at;
            same->bytes[same->count] = bytes;
        }
        same->count++;
        return same;
    }
    struct slip *slip = new_slip(slips);
    *slip = (struct slip){.line = line->number, .line_start = line->line_start, .count = 1, .at = {at}, .bytes = {bytes}};
    memcpy(slip->found, words, sizeof words);
    snprintf(slip->expected, sizeof slip->expected, "%s", expected);
    return slip;
}

/* Adds words to a text in a room of WORDS bytes, as far as they fit. */
static void append(char *text, const char *format, ...) {
    size_t length = strlen(text);
    va_list arguments;
    va_start(arguments, format);
    vsnprintf(text + length, WORDS - length, format, arguments);
    va_end(arguments);
}

/* A separator before the item `i` of `count`. */
static const char *between(size_t i, size_t count) { return i == 0 ? "" : i + 1 == count ? " and " : ", "; }

/* What stands from one place to another, in words: two spaces, a comma and a space. */
static void name_run(const struct slips *slips, size_t start, size_t end, char name[WORDS]) {
    enum { MOST_NAMED = 3 };
    char names[MOST_NAMED][NAME_ROOM];
    size_t count = 0, spaces = 0, characters = 0, distinct = 0;
    for (size_t at = start; at < end; at += character_at(slips->text, at, end).bytes) {
        characters++;
        spaces += slips->text[at] == ' ';
        char here[NAME_ROOM];
        name_character(slips->text, at, end, here);
        size_t i = 0;
        while (i < count && strcmp(names[i], here) != 0) i++;
        if (i < count) continue;
        distinct++;
        if (count < MOST_NAMED) memcpy(names[count++], here, sizeof here);
    }
    *name = 0;
    if (spaces == characters && spaces > 1) {
        if (spaces == 2)
            append(name, "two spaces");
        else
            append(name, "%zu spaces", spaces);
        return;
    }
    for (size_t i = 0; i < count; i++) append(name, "%s%s", between(i, distinct > count ? count + 1 : count), names[i]);
    if (distinct > count) append(name, " and more");
    if (distinct == 1 && characters > 1) append(name, ", %zu times", characters);
}

static size_t skip(const struct slips *slips, size_t at, size_t end, int (*belongs)(struct character)) {
    while (at < end && belongs(character_at(slips->text, at, end))) at += character_at(slips->text, at, end).bytes;
    return at;
}
static size_t skip_word(const struct slips *slips, size_t at, size_t end, int (*separates)(struct character)) {
    while (at < end && !separates(character_at(slips->text, at, end))) at += character_at(slips->text, at, end).bytes;
    return at;
}

/* Reads one or more digits as a number. Returns whether they are a number of 32 bits. */
static int read_number(const uint8_t *text, size_t start, size_t end, uint32_t *number) {
    uint64_t value = 0;
    size_t at = start;
    for (; at < end && is_digit(text[at]) && value <= UINT32_MAX; at++) value = 10 * value + (text[at] - '0');
    *number = (uint32_t)value;
    return start < end && at == end && value <= UINT32_MAX;
}

/* A word that should be a number. */
static void check_number(struct slips *slips, const struct line *line, size_t start, size_t end) {
    const uint8_t *text = slips->text;
    char word[QUOTE_ROOM], sign[NAME_ROOM], expected[WORDS];
    size_t other = start, digits = start;
    quote(text, start, end, word);
    while (other < end && is_digit(text[other])) other++;
    if (other < end) {
        uint32_t code = character_at(text, other, end).code;
        name_character(text, other, end, sign);
        if (other == start && (code == '-' || code == 0x2013 || code == 0x2212)) {
            uint32_t number = 0;
            snprintf(expected, sizeof expected, "a number without a sign%s", line->meant == MOD ? "" : ", the remainder modulo m");
            if (slips->m && line->meant != MOD && read_number(text, other + character_at(text, other, end).bytes, end, &number))
                snprintf(expected, sizeof expected, "%" PRIu32 ", which is -%" PRIu32 " modulo %" PRIu32,
                         (slips->m - number % slips->m) % slips->m, number, slips->m);
            note(slips, line, other, end - other, expected, "%s in %s", sign, word);
        } else if (other == start && code == '+')
            note(slips, line, other, end - other, "a number without a sign", "%s in %s", sign, word);
        else if (other > start && code == '.')
            note(slips, line, other, end - other, "a whole number", "%s in %s", sign, word);
        else
            note(slips, line, other, end - other, "a number, of the digits 0 to 9 only", "%s in %s", sign, word);
        return;
    }
    while (digits + 1 < end && text[digits] == '0') digits++;
    if (digits > start) {
        char right[QUOTE_ROOM];
        quote(text, digits, end, right);
        snprintf(expected, sizeof expected, "%s, without a zero before it", right);
        note(slips, line, start, digits - start, expected, "a leading zero in %s", word);
    }
    uint32_t number;
    if (!read_number(text, digits, end, &number)) {
        snprintf(expected, sizeof expected, "a number of at most %" PRIu32, line->meant == MOD ? ZAHUPNIK_GREATEST_MODULUS : UINT32_MAX);
        note(slips, line, start, end - start, expected, "the number %s", word);
    }
}

static size_t skip_digits(const struct slips *slips, size_t at, size_t end) {
    while (at < end && is_digit(slips->text[at])) at++;
    return at;
}

/* Where a number ends that is written in groups of three digits with the same mark between each two, as 1,000,003; its start, if none
 * stands there, or if it may be something else: a number that is not whole, as 1.000, or, unless it is to be the only one of its line,
 * several, as 1,234 and 1 000. */
static size_t skip_groups(const struct slips *slips, size_t start, size_t end, int only) {
    const uint8_t *text = slips->text;
    size_t at = skip_digits(slips, start, end), groups = 0;
    int begins_with_zero = 0;
    if (at == start || at > start + 3 || at == end || text[start] == '0') return start;
    const struct character mark = character_at(text, at, end);
    uint32_t code = mark.code;
    while (at < end && character_at(text, at, end).code == code) {
        size_t group = at + mark.bytes, group_end = skip_digits(slips, group, end);
        if (group_end != group + 3) break;
        begins_with_zero |= text[group] == '0';
        groups++;
        at = group_end;
    }
    if (groups == 0 || (at < end && !is_separator(character_at(text, at, end)))) return start;
    int is_one;
    if (code == '\'' || code == '_' || code == 0x2019)
        is_one = 1;
    else if (code == '.')
        is_one = groups > 1;
    else if (code == ',')
        is_one = only || begins_with_zero;
    else
        is_one = is_blank(mark) && (only ? groups > 1 || begins_with_zero : begins_with_zero && code != ' ');
    return is_one ? at : start;
}

/* The channel number that a line seems to say, or 0 if it says none. */
static uint32_t read_modulus(const struct slips *slips, const struct line *line) {
    uint8_t digits[WORDS];
    uint32_t m = 0;
    size_t length = 0, start = skip(slips, line->contents, line->end, is_separator), at = skip_groups(slips, start, line->end, 1);
    if (at == start) at = skip_digits(slips, start, line->end);
    size_t next = skip(slips, at, line->end, is_separator);
    if (next < line->end && (next == at || is_digit(slips->text[next]))) return 0;
    for (size_t i = start; i < at && length < sizeof digits; i++)
        if (is_digit(slips->text[i])) digits[length++] = slips->text[i];
    return read_number(digits, 0, length, &m) && m >= 2 && m <= ZAHUPNIK_GREATEST_MODULUS ? m : 0;
}

/* A number in groups of digits, and what it is without the marks. */
static void note_grouped(struct slips *slips, const struct line *line, size_t start, size_t end) {
    char found[QUOTE_ROOM], expected[WORDS] = "\"";
    quote(slips->text, start, end, found);
    for (size_t at = start; at < end; at++)
        if (is_digit(slips->text[at])) append(expected, "%c", slips->text[at]);
    append(expected, "\", without a mark between its digits");
    note(slips, line, start, end - start, expected, "groups of digits in %s", found);
}

/* What follows the number after mod=: other numbers, or something else. */
static void check_after_modulus(struct slips *slips, const struct line *line, size_t start) {
    size_t end = line->end, gap = start, numbers = 1, at = skip(slips, start, end, is_separator), second = at;
    char found[QUOTE_ROOM];
    while (at < end) {
        size_t word = at;
        at = skip_digits(slips, at, end);
        numbers += at > word;
        if (at == word || (at < end && !is_separator(character_at(slips->text, at, end)))) break;
        at = skip(slips, at, end, is_separator);
    }
    if (at == end) {
        note(slips, line, second, end - second, "one number after mod=, the channel number", "%zu numbers", numbers);
        return;
    }
    quote(slips->text, second, end, found);
    note(slips, line, gap, end - gap, "byte 10, the line end, right after the number", "%s after the number", found);
}

static int opened_by_equals(const struct slips *slips, const struct line *line) {
    return line->key_end > line->key && slips->text[line->key_end - 1] == '=';
}

/* Something that is no number after v= where the operation takes no curve. Returns whether it is so. */
static int check_no_curve(struct slips *slips, const struct line *line) {
    size_t at = skip(slips, line->contents, line->end, is_separator);
    char found[QUOTE_ROOM], expected[WORDS];
    if (line->meant != V || slips->operation == OPERATIONS || takes_curve(slips->operation)) return 0;
    if (at == line->end || is_digit(slips->text[at])) return 0;
    quote(slips->text, line->contents, line->end, found);
    snprintf(expected, sizeof expected, "nothing after v= for %s", operations[slips->operation]);
    note(slips, line, line->contents, line->end - line->contents, expected, "%s", found);
    return 1;
}

/* The numbers of a line: one if it is the line mod=, else any number of them with one space between two. */
static void check_numbers(struct slips *slips, const struct line *line) {
    const uint8_t *text = slips->text;
    size_t end = line->end, at = line->contents, words = 0;
    char run[WORDS];
    int one = line->meant == MOD;
    if (check_no_curve(slips, line)) return;
    for (;;) {
        size_t gap = at;
        at = skip(slips, at, end, is_separator);
        name_run(slips, gap, at, run);
        if (words == 0 && at > gap)
            note(slips, line, gap, at - gap,
                 at < end || one ? "the first number right after =" : "byte 10, the line end, right after =",
                 opened_by_equals(slips, line) ? "%s after =" : "%s before the first number", run);
        else if (at == end && at > gap && line->ending != JOINED)
            note(slips, line, gap, at - gap, "byte 10, the line end, right after the last number", "%s at the end of the line", run);
        else if (at < end && words > 0 && !one && !(at == gap + 1 && text[gap] == ' ')) {
            size_t wrong = gap;
            while (wrong < at && text[wrong] == ' ') wrong++;
            if (wrong == at) wrong = gap + 1;
            size_t last = gap, group = skip_digits(slips, at, end);
            while (last > line->contents && is_digit(text[last - 1])) last--;
            const char *expected = at == gap + 1 && text[gap] == ',' && group == at + 3 && last < gap && gap - last <= 3
                                       ? "one space between two numbers, or nothing inside one number"
                                       : "one space between two numbers";
            note(slips, line, wrong, at > wrong ? at - wrong : 1, expected, "%s", run);
        }
        if (at == end) break;
        size_t word = at;
        at = skip_groups(slips, word, end, one);
        if (at > word)
            note_grouped(slips, line, word, at);
        else {
            at = skip_word(slips, word, end, is_separator);
            check_number(slips, line, word, at);
        }
        words++;
        if (one && skip(slips, at, end, is_separator) < end) {
            check_after_modulus(slips, line, at);
            break;
        }
    }
    if (one && words == 0) note(slips, line, end, 1, "one number after mod=, the channel number", "no number");
}

/* The operation. */
static void check_operation(struct slips *slips, const struct line *line) {
    const uint8_t *text = slips->text;
    size_t end = line->end, at = skip(slips, line->contents, end, is_blank);
    char run[WORDS], word[QUOTE_ROOM];
    name_run(slips, line->contents, at, run);
    if (at > line->contents)
        note(slips, line, line->contents, at - line->contents, "the operation right after =",
             opened_by_equals(slips, line) ? "%s after =" : "%s before the operation", run);
    if (at == end) {
        note(slips, line, end, 1, five_operations, "no operation");
        return;
    }
    size_t name = at, like;
    at = skip_word(slips, at, end, is_blank);
    quote(text, name, at, word);
    if (operation_named(text + name, at - name) == OPERATIONS) {
        like = operation_like(text + name, at - name);
        note(slips, line, name, at - name, like < OPERATIONS ? operations[like] : five_operations, "the operation %s", word);
    }
    size_t gap = at;
    at = skip(slips, at, end, is_blank);
    name_run(slips, gap, at, run);
    if (at < end) {
        quote(text, at, end, word);
        note(slips, line, gap, end - gap, "byte 10, the line end, right after the operation", "%s after the operation", word);
    } else if (at > gap && line->ending != JOINED)
        note(slips, line, gap, at - gap, "byte 10, the line end, right after the operation", "%s at the end of the line", run);
}

static int begins_number(uint8_t byte) { return is_digit(byte) || byte == '-' || byte == '+'; }

/* A line without anything that is seen. */
static void name_empty(const struct slips *slips, const struct line *line, char name[WORDS]) {
    size_t at = line->start;
    *name = 0;
    while (at < line->end && (slips->text[at] == ' ' || slips->text[at] == '\t')) at++;
    if (at < line->end)
        name_run(slips, line->start, line->end, name);
    else
        append(name, line->end > line->start ? "a line of blanks only" : "an empty line");
}

/* What a line opens with. Returns whether the rest of it can be read as the contents of the line that is meant. */
static int check_key(struct slips *slips, const struct line *line) {
    const uint8_t *text = slips->text;
    char expected[WORDS], found[QUOTE_ROOM], run[WORDS];
    const char *key = keys[line->meant];
    size_t letters = strlen(key) - 1;
    if (line->key == line->end) {
        snprintf(expected, sizeof expected, "the line %s", key);
        name_empty(slips, line, run);
        note(slips, line, line->start, 1, expected, "%s", run);
        return 0;
    }
    if (line->key > line->start) {
        size_t first = line->start + character_at(text, line->start, line->key).bytes;
        quote(text, line->start, line->key, found);
        name_run(slips, line->start, line->key, run);
        snprintf(expected, sizeof expected, "%s at the start of the line", key);
        note(slips, line, line->start, line->key - line->start, expected, "%s before the key",
             first == line->key || skip(slips, line->start, line->key, is_blank) == line->key ? run : found);
    }
    size_t behind = line->key + letters;
    int is_written = line->key_end >= behind && memcmp(text + line->key, key, letters) == 0;
    if (is_written && line->key_end == behind + 1 && text[behind] == '=') {
        size_t times = (line->contents - line->key) / (letters + 1);
        if (times == 2) note(slips, line, line->key_end, letters + 1, "it once", "%s twice", key);
        if (times > 2) note(slips, line, line->key_end, line->contents - line->key_end, "it once", "%s %zu times", key, times);
        return 1;
    }
    if (is_written && line->key_end > behind + 1 && text[line->key_end - 1] == '=' &&
        skip(slips, behind, line->key_end, is_blank) == line->key_end - 1) {
        name_run(slips, behind, line->key_end - 1, run);
        note(slips, line, behind, line->key_end - 1 - behind, key, "%s between %.*s and =", run, (int)letters, key);
        return 1;
    }
    if (is_written && line->key_end == behind) {
        note(slips, line, line->key, letters, key, "%.*s without =", (int)letters, key);
        return 1;
    }
    if (line->key_end > line->key) {
        quote(text, line->key, line->key_end, found);
        note(slips, line, line->key, line->key_end - line->key, key, "%s", found);
        return 1;
    }
    quote(text, line->key, line->end, found);
    if (begins_number(text[line->key]) || (line->meant == OP && line->role != REPLACED)) {
        snprintf(expected, sizeof expected, "%s before it", key);
        note(slips, line, line->key, 1, expected, "%s without a key", found);
        return 1;
    }
    snprintf(expected, sizeof expected, "the line %s", key);
    note(slips, line, line->key, 1, expected, "%s", found);
    return 0;
}

/* A key in the middle of a line, and what is to give way to the line end before it. */
static void note_joined(struct slips *slips, const struct line *line) {
    char expected[WORDS] = "byte 10, the line end, ", run[WORDS];
    size_t gap = line->end;
    while (gap > line->contents && skip(slips, gap - 1, line->end, is_separator) == line->end) gap--;
    name_run(slips, gap, line->end, run);
    if (gap + 1 == line->end && slips->text[gap] == ' ')
        append(expected, "in place of the space before it");
    else if (gap < line->end)
        append(expected, "in place of what stands before it: %s", run);
    else
        append(expected, "before it");
    note(slips, line, line->end, 1, expected, "the next key in the middle of the line");
}

/* Where a line that is not in its place belongs. */
static void note_moved(struct slips *slips, const struct line *line) {
    char expected[WORDS] = "";
    append(expected, "it as line %d", line->meant + 1);
    if (line->meant > 0) append(expected, ", after %s", keys[line->meant - 1]);
    note(slips, line, line->key, line->key_end > line->key ? line->key_end - line->key : 1, expected, "the line %s out of order",
         keys[line->meant]);
}

/* The lines from `from` on and before `to` that are missing, noted at a place once. */
static void note_missing(struct slips *slips, const struct lines *lines, int from, int to, const struct line *next, size_t at) {
    char expected[WORDS] = "", found[WORDS] = "the end of the text";
    size_t count = 0, i = 0;
    for (int line = from; line < to; line++) count += !lines->of[line];
    if (count == 0) return;
    append(expected, count == 1 ? "the line " : "the lines ");
    for (int line = from; line < to; line++)
        if (!lines->of[line]) append(expected, "%s%s", between(i++, count), keys[line]);
    append(expected, " before it");
    if (at < slips->length) snprintf(found, sizeof found, "the line %s", keys[next->meant]);
    note(slips, next, at, 1, expected, "%s", found);
}

/* Line numbers in words, of those lines whose ending is this one: 1 to 6, or 1, 3 and 5. */
static size_t number_lines(const struct lines *lines, enum ending ending, char numbers[WORDS]) {
    size_t count = 0, parts = 0, part = 0;
    for (int told = 0; told < 2; told++)
        for (size_t i = 0; i < lines->count; i++) {
            const struct line *line = &lines->line[i];
            if (line->ending != ending) continue;
            size_t last = i;
            for (size_t j = i + 1; j < lines->count && (lines->line[j].ending == ending || lines->line[j].ending == JOINED); j++)
                if (lines->line[j].ending == ending) last = j;
            if (told == 0) {
                parts++;
                for (size_t j = i; j <= last; j++) count += lines->line[j].ending == ending;
            } else {
                append(numbers, "%s%zu", between(part++, parts), line->number);
                if (last > i) append(numbers, " to %zu", lines->line[last].number);
            }
            i = last;
        }
    return count;
}

/* Line ends with byte 13: said once for all lines. */
static void note_endings(struct slips *slips, const struct lines *lines, enum ending ending, const char *found) {
    for (size_t i = 0; i < lines->count; i++) {
        const struct line *line = &lines->line[i];
        if (line->ending != ending) continue;
        struct slip *slip = note(slips, line, line->end, 1, "byte 10 alone", "%s at the end of the line", found);
        char numbers[WORDS] = "";
        size_t count = number_lines(lines, ending, numbers);
        if (count > 1) append(slip->more, "so in %zu lines: %s", count, numbers);
        return;
    }
}

/* Whether a line that is too many goes on with a list of the line before: numbers without a key, or a key with the number of a row. */
static int continues_list(const struct slips *slips, const struct line *line) {
    size_t at = line->key;
    if (line->role == ODD) {
        while (at < line->end && memchr(" \t>|\"", slips->text[at], 5)) at++; /* signs of a mail or a table */
        return at < line->end && begins_number(slips->text[at]);
    }
    if (line->role != DOUBLE || line->exact || line->meant == MOD || line->meant == OP) return 0;
    while (at < line->key_end && !is_digit(slips->text[at])) at++;
    return at < line->key_end;
}

/* Lines that are too many. Those after the last of the six are told together, and so are empty ones. */
static void note_extra(struct slips *slips, const struct lines *lines, size_t from, size_t to, int after_all) {
    const struct line *line = &lines->line[from];
    size_t more = to - from - 1;
    char found[WORDS] = "", quoted[QUOTE_ROOM];
    const char *expected = "the six lines mod=, a=, b=, c=, op= and v= only";
    if (continues_list(slips, line)) {
        quote(slips->text, line->key, line->role == DOUBLE ? line->key_end : line->end, quoted);
        note(slips, line, line->start, 1, "the numbers of a list in one line, after its key",
             line->role == DOUBLE ? "%s" : "%s without a key", quoted);
        return;
    }
    if (line->role == EMPTY) {
        name_empty(slips, line, found);
        expected = "no such line";
    } else if (line->role == DOUBLE) {
        append(found, "a second line %s", keys[line->meant]);
        expected = "one such line only";
    } else {
        size_t at = line->start;
        while (at < line->end && (slips->text[at] < ' ' || slips->text[at] >= 127)) at++;
        quote(slips->text, line->start, line->end, quoted);
        if (at == line->end) name_run(slips, line->start, line->end, found);
        append(found, "%s, which is none of the six lines", at == line->end ? "" : quoted);
    }
    if (after_all) expected = "the end of the text after the line v=";
    if (more) append(found, " and %zu more line%s%s", more, more == 1 ? "" : "s", after_all ? "" : " like it");
    struct slip *slip = note(slips, line, line->start, 1, expected, "%s", found);
    if (line->role == DOUBLE) append(slip->more, "line %zu is %s", lines->of[line->meant]->number, keys[line->meant]);
}

/* A text that is something else than a job. Returns whether it is. */
static int is_other_text(struct slips *slips, size_t start) {
    static const struct {
        const char *opens, *found;
    } others[] = {
        {"refused=", "a refusal"},
        {"put=", "a line for the program store"},
        {"back=", "a line for the program store"},
        {"out=", "an answer without its first line"},
    };
    const struct line line = {.number = 1};
    const uint8_t *text = slips->text + start;
    size_t length = slips->length - start;
    for (size_t i = 0; i < sizeof others / sizeof *others; i++)
        if (length >= strlen(others[i].opens) && memcmp(text, others[i].opens, strlen(others[i].opens)) == 0) {
            note(slips, &line, start, strlen(others[i].opens), a_job, "%s", others[i].found);
            return 1;
        }
    const uint8_t *second = length >= 3 && memcmp(text, "op=", 3) == 0 ? memchr(text, '\n', length) : NULL;
    if (second && length - (size_t)(second - text) > 4 && memcmp(second + 1, "out=", 4) == 0) {
        note(slips, &line, start, 3, a_job, "the answer to a job");
        return 1;
    }
    return 0;
}

/* The encoding of a text that has two or four bytes for each character: it opens with a mark that says so, or has zero bytes beside its
 * first character, and beside the second if these are two bytes each. NULL for any other text. */
static const char *wide_encoding(const uint8_t *text, size_t length) {
    if (length >= 4) {
        int begins = text[0] && !text[1] && !text[2] && !text[3], ends = !text[0] && !text[1] && !text[2] && text[3];
        if (begins || ends || memcmp(text, "\xff\xfe\0\0", 4) == 0 || memcmp(text, "\0\0\xfe\xff", 4) == 0)
            return "UTF-32, four bytes";
        if ((text[0] && !text[1] && text[2] && !text[3]) || (!text[0] && text[1] && !text[2] && text[3])) return "UTF-16, two bytes";
    }
    return length >= 2 && ((text[0] == 255 && text[1] == 254) || (text[0] == 254 && text[1] == 255)) ? "UTF-16, two bytes" : NULL;
}

static void find_slips(struct slips *slips) {
    static struct lines lines;
    const struct line first = {.number = 1};
    size_t start = 0, length = slips->length;
    if (length == 0) {
        note(slips, &first, 0, 1, a_job, "an empty text");
        return;
    }
    const char *encoding = wide_encoding(slips->text, length);
    if (encoding) {
        note(slips, &first, 0, 1, "one byte for each character: save the text as ASCII, or as UTF-8 without a byte order mark",
             "a text in %s for each character, which is read no further", encoding);
        return;
    }
    if (length >= 3 && memcmp(slips->text, "\xef\xbb\xbf", 3) == 0) {
        start = 3;
        note(slips, &first, 0, start, "mod= as the first bytes of the text", "a byte order mark (bytes 239 187 191)");
    }
    if (is_other_text(slips, start)) return;
    take_lines(slips->text, start, length, &lines);
    if (lines.known == 0) {
        char quoted[QUOTE_ROOM];
        quote(slips->text, start, lines.count ? lines.line[0].end : start, quoted);
        note(slips, &first, start, 1, a_job, "%s, and none of the six lines further on", quoted);
        return;
    }
    const struct line *mod = lines.of[MOD], *op = lines.of[OP];
    slips->operation = OPERATIONS;
    if (op) {
        size_t name = skip(slips, op->contents, op->end, is_blank);
        slips->operation = operation_like(slips->text + name, skip_word(slips, name, op->end, is_blank) - name);
    }
    slips->m = mod ? read_modulus(slips, mod) : 0;
    note_endings(slips, &lines, CR_LF, "byte 13 before byte 10 (CR LF)");
    note_endings(slips, &lines, CR, "byte 13 (CR) in place of byte 10");

    size_t last = 0; /* of the six lines */
    for (size_t i = 0; i < lines.count; i++)
        if (lines.line[i].role <= REPLACED) last = i;
    int next = 0; /* the first of the six that was not met in order, nor told to be missing */
    for (size_t i = 0; i < lines.count; i++) {
        const struct line *line = &lines.line[i];
        if (i > last) {
            if (next < LINES) note_missing(slips, &lines, next, LINES, line, line->start);
            next = LINES;
            size_t to = i + 1;
            if (!continues_list(slips, line))
                while (to < lines.count && !continues_list(slips, &lines.line[to])) to++;
            note_extra(slips, &lines, i, to, 1);
            i = to - 1;
            continue;
        }
        if (line->role > REPLACED) {
            size_t to = i + 1;
            while (line->role == EMPTY && to < last && lines.line[to].role == EMPTY) to++;
            note_extra(slips, &lines, i, to, 0);
            i = to - 1;
            continue;
        }
        if (line->role == MOVED)
            note_moved(slips, line);
        else {
            note_missing(slips, &lines, next, line->meant, line, line->start);
            next = line->meant + 1;
        }
        if (check_key(slips, line)) {
            if (line->meant == OP)
                check_operation(slips, line);
            else
                check_numbers(slips, line);
        }
        if (line->ending == JOINED) note_joined(slips, line);
    }
    struct line end = lines.line[lines.count - 1];
    if (end.ending == NOTHING && end.role <= REPLACED)
        note(slips, &end, length, 1, "byte 10, the line end, after the last line too", "the end of the text");
    else if (end.ending != NOTHING) {
        end.number++;
        end.line_start = length;
    }
    note_missing(slips, &lines, next, LINES, &end, length);
}

/* Shows the line of a slip, a byte that cannot be shown as ? and a space at fault as _, with a mark under each place. A long line is cut
 * around the first. */
static void show_line(FILE *out, const struct slips *slips, const struct slip *slip) {
    const uint8_t *text = slips->text;
    size_t places = slip->count < MOST_PLACES ? slip->count : MOST_PLACES, last = slip->at[places - 1], end = slip->line_start;
    while (end < slips->length && text[end] != '\n') end++;
    for (size_t at = last; at < end; at++)
        if (text[at] == '\r') end = at + 1;
    if (end == slip->line_start) return;
    const char *points = "...";
    size_t from = slip->line_start, to = end, least_cut = strlen(points) + 1;
    if (slip->at[0] - from >= SHOWN / 2 + least_cut && to - from >= SHOWN + least_cut) from = slip->at[0] - SHOWN / 2;
    if (to - from >= SHOWN + least_cut) to = from + SHOWN;
    char shown[SHOWN + 8], marks[SHOWN + 8];
    size_t marked = 0;
    for (size_t at = from; at <= to; at++) {
        uint8_t byte = at < to ? text[at] : ' ';
        shown[at - from] = byte >= ' ' && byte < 127 ? (char)byte : '?';
        marks[at - from] = ' ';
        for (size_t i = 0; i < places; i++)
            if (at >= slip->at[i] && at < slip->at[i] + slip->bytes[i]) {
                if (byte == ' ' && at < to) shown[at - from] = '_';
                marks[at - from] = '^';
                marked = at - from + 1;
            }
    }
    const char *cut = from > slip->line_start ? points : "";
    fprintf(out, "    %s%.*s%s\n", cut, (int)(to - from), shown, to < end ? points : "");
    fprintf(out, "    %*s%.*s\n", (int)strlen(cut), "", (int)marked, marks);
}

static void print_slip(FILE *out, const struct slips *slips, const struct slip *slip) {
    fprintf(out, "line %zu, place %zu: found %s; expected %s", slip->line, slip->at[0] - slip->line_start + 1, slip->found, slip->expected);
    size_t places = slip->count < MOST_PLACES ? slip->count : MOST_PLACES, unlisted = slip->count - places;
    if (slip->count > 1) {
        fprintf(out, " (also at place%s ", slip->count > 2 ? "s" : "");
        for (size_t i = 1; i < places; i++)
            fprintf(out, "%s%zu", between(i - 1, places - 1 + (unlisted > 0)), slip->at[i] - slip->line_start + 1);
        if (unlisted) fprintf(out, " and at %zu more", unlisted);
        fprintf(out, ")");
    }
    if (*slip->more) fprintf(out, " (%s)", slip->more);
    fprintf(out, "\n");
    show_line(out, slips, slip);
}

size_t tell_slips(FILE *out, const uint8_t *text, size_t length) {
    struct slips slips = {.text = text, .length = length};
    find_slips(&slips);
    for (size_t i = 0; out && i < slips.count; i++) print_slip(out, &slips, &slips.slip[i]);
    free(slips.slip);
    return slips.count;
}
