/* Takes a text apart into lines as its writer saw them, and finds by what they open with and by their order which lines of a job they
 * are meant to be.
 *
 * A line ends at byte 10; where a text has CR LF or CR in its place, there too; and before a key in the middle of a line. */
#include <string.h>
#include "characters.h"
#include "likeness.h"
#include "lines.h"

static int is_letter(uint8_t byte) { return (byte >= 'a' && byte <= 'z') || (byte >= 'A' && byte <= 'Z'); }

/* The line whose key, byte for byte, begins at this place, or LINES. */
static int key_at(const uint8_t *text, size_t at, size_t end) {
    int i = 0;
    while (i < LINES && !(strlen(keys[i]) <= end - at && memcmp(text + at, keys[i], strlen(keys[i])) == 0)) i++;
    return i;
}

/* Whether a key at this place opens another line in the middle of one: something of a line stands before it, and it is not the end of
 * a longer word, unless that word without it is an operation. */
static int opens_line(const uint8_t *text, size_t start, size_t at, size_t end) {
    if (key_at(text, at, end) == LINES) return 0;
    size_t word = at, before = start;
    while (word > start && is_letter(text[word - 1])) word--;
    while (before < at && !is_letter(text[before]) && !is_digit(text[before])) before++;
    return word == at ? before < at : operation_named(text + word, at - word) < OPERATIONS;
}

static size_t skip_blanks(const uint8_t *text, size_t at, size_t end) {
    while (at < end && is_blank(character_at(text, at, end))) at += character_at(text, at, end).bytes;
    return at;
}

/* The line of a job that a word before = may be meant to open. */
static int key_like(const uint8_t *word, size_t length) {
    static const struct {
        const char *word;
        int line;
    } others[] = {{"m", MOD},        {"modulus", MOD}, {"modulo", MOD}, {"channel", MOD}, {"operation", OP},
                  {"operator", OP}, {"curve", V},     {"vector", V},   {"values", V}};
    static const char *const words[LINES] = {"mod", "a", "b", "c", "op", "v"};
    for (int i = 0; i < LINES; i++)
        if (is_word(word, length, words[i])) return i;
    for (size_t i = 0; i < sizeof others / sizeof *others; i++)
        if (is_word(word, length, others[i].word)) return others[i].line;
    for (int i = 0; i < LINES; i++)
        if (length >= 2 && strlen(words[i]) >= 2 && distance(word, length, words[i]) <= 1) return i;
    return LINES;
}

/* Reads a word with = behind it, or else with a colon, a comma or a semicolon, as a key. Returns the line of a job that it may be meant to
 * open, or LINES; the key ends where it begins if there is none. */
static int read_word(const uint8_t *text, size_t at, size_t end, size_t *key_end) {
    size_t letters = at, word = at, colon = end;
    int has_letter = 0;
    while (letters < end && is_letter(text[letters])) letters++;
    for (; word < end && text[word] != '=' && !is_separator(character_at(text, word, end)); word++) {
        has_letter |= colon == end && (is_letter(text[word]) || text[word] >= 0x80);
        if (text[word] == ':' && colon == end) colon = word;
    }
    size_t sign = skip_blanks(text, word, end);
    int has_equals = sign < end && text[sign] == '=';
    if (!has_equals && colon < end) sign = word = colon;
    int meant = key_like(text + at, word - at);
    if (meant == LINES) meant = key_like(text + at, letters - at);
    int is_key = has_equals || (sign < end && text[sign] == ':') ||
                 (sign < end && meant < LINES && (text[sign] == ',' || text[sign] == ';'));
    *key_end = is_key && (has_letter || word == at) ? sign + 1 : at;
    return *key_end > at ? meant : LINES;
}

/* Behind signs that are no letters or digits. */
static size_t skip_signs(const uint8_t *text, size_t at, size_t end) {
    while (at < end && !is_letter(text[at]) && !is_digit(text[at]) && text[at] != '=') at++;
    return at;
}

/* Where the key of a line begins, behind blanks and behind what mails, tables and numbered lists put before it: signs, a number with a
 * point or bracket after it, or the number of the line; or words without a digit before a key that is exactly written. Behind the blanks
 * only, if no key follows. */
static size_t skip_prefix(const uint8_t *text, const struct line *line) {
    size_t end = line->end, first = skip_blanks(text, line->start, end), key = first, number = 0, key_end;
    while (key < end && is_letter(text[key])) key++;
    if (key_like(text + first, key - first) < LINES || operation_like(text + first, key - first) < OPERATIONS) return first;
    for (; key < end && !is_digit(text[key]) && text[key] != '='; key++)
        if (key > first && !is_letter(text[key - 1]) && key_at(text, key, end) < LINES) return key;
    size_t at = skip_signs(text, first, end);
    if (read_word(text, at, end, &key_end) < LINES) return at;
    if (at == end || !is_digit(text[at]) || (at > first && (text[at - 1] == '-' || text[at - 1] == '+'))) return first;
    for (; at < end && is_digit(text[at]); at++) number = (10 * number + (size_t)(text[at] - '0')) % (10 * MOST_LINES);
    if (at < end && !memchr(".):]", text[at], 4) && !is_letter(text[at]) && number != line->number) return first;
    at = skip_signs(text, at, end);
    return read_word(text, at, end, &key_end) < LINES ? at : first;
}

/* Finds what a line opens with. */
static void read_key(const uint8_t *text, struct line *line) {
    size_t end = line->end, at = line->start;
    line->exact = key_at(text, at, end) < LINES;
    if (!line->exact) at = skip_prefix(text, line);
    line->key = at;
    line->meant = key_at(text, at, end);
    if (line->meant < LINES) {
        line->contents = line->key_end = at + strlen(keys[line->meant]);
        while (key_at(text, line->contents, end) == line->meant) line->contents += strlen(keys[line->meant]);
        return;
    }
    line->meant = read_word(text, at, end, &line->key_end);
    line->contents = line->key_end;
    if (line->key_end > at) return;
    size_t letters = at;
    while (letters < end && is_letter(text[letters])) letters++;
    line->meant = key_like(text + at, letters - at);
    line->key_end = line->meant < LINES ? letters : at;
    line->contents = skip_blanks(text, line->key_end, end);
    if (line->meant == LINES && letters - at >= 4 && operation_like(text + at, letters - at) < OPERATIONS) line->meant = OP;
}

static void add_line(const uint8_t *text, struct lines *lines, struct line line) {
    read_key(text, &line);
    lines->line[lines->count++] = line;
}

/* Adds a line, as several where keys stand in the middle of it, behind the key that it opens with. */
static void add_lines(const uint8_t *text, struct lines *lines, struct line line) {
    struct line part = line;
    read_key(text, &part);
    for (size_t at = line.start; at < line.end; at++) {
        if ((part.meant < LINES && at < part.contents) || !opens_line(text, part.start, at, line.end)) continue;
        part.end = at;
        part.ending = JOINED;
        add_line(text, lines, part);
        part = line;
        part.start = at;
        read_key(text, &part);
    }
    add_line(text, lines, part);
}

static void cut_lines(const uint8_t *text, size_t start, size_t length, struct lines *lines) {
    int only_cr = start < length && memchr(text + start, '\n', length - start) == NULL;
    struct line line = {.number = 1, .line_start = 0, .start = start};
    lines->count = 0;
    for (size_t at = start; at < length; at++) {
        line.end = at;
        line.ending = BYTE_10;
        if (text[at] == '\r') {
            size_t after = at;
            while (after < length && text[after] == '\r') after++;
            if (after < length && text[after] == '\n') {
                line.ending = CR_LF;
                at = after;
            } else if (only_cr || after == length || key_at(text, after, length) < LINES)
                line.ending = CR;
            else
                continue;
        } else if (text[at] != '\n')
            continue;
        add_lines(text, lines, line);
        line.number++;
        line.line_start = line.start = at + 1;
    }
    line.end = length;
    line.ending = NOTHING;
    if (line.start < length) add_lines(text, lines, line);
}

/* Finds the most lines that are in the order of a job, one exactly written counting more than one that is only like it. Of two
 * choices it takes the one with the earlier line. */
static void order_lines(struct lines *lines) {
    static uint16_t most[MOST_LINES + 1][LINES + 1]; /* of the lines from one on, whose keys come at or after another */
    memset(most[lines->count], 0, sizeof *most);
    for (size_t i = lines->count; i-- > 0;)
        for (int least = 0; least <= LINES; least++) {
            const struct line *line = &lines->line[i];
            most[i][least] = most[i + 1][least];
            if (line->meant >= LINES || line->meant < least) continue;
            uint16_t with = (uint16_t)(most[i + 1][line->meant + 1] + (line->exact ? 4 : 3));
            if (with > most[i][least]) most[i][least] = with;
        }
    int least = 0;
    for (size_t i = 0; i < lines->count; i++) {
        struct line *line = &lines->line[i];
        if (line->meant >= LINES || line->meant < least) continue;
        if (most[i + 1][line->meant + 1] + (line->exact ? 4 : 3) < most[i][least]) continue;
        line->role = IN_ORDER;
        lines->of[line->meant] = line;
        least = line->meant + 1;
    }
}

/* Takes a line without a known key for one that is missing at its place. */
static void guess_by_place(struct lines *lines, size_t at) {
    struct line *line = &lines->line[at];
    int from = 0, to = LINES, missing = 0;
    for (int i = 0; i < LINES; i++) missing += !lines->of[i];
    if (!missing) return;
    for (size_t i = 0; i < at; i++)
        if (lines->line[i].role == IN_ORDER || lines->line[i].role == REPLACED) from = lines->line[i].meant + 1;
    for (size_t i = lines->count; i-- > at + 1;)
        if (lines->line[i].role == IN_ORDER) to = lines->line[i].meant;
    for (int i = from; i < to; i++)
        if (!lines->of[i]) {
            line->meant = i;
            line->role = REPLACED;
            lines->of[i] = line;
            return;
        }
}

void take_lines(const uint8_t *text, size_t start, size_t length, struct lines *lines) {
    cut_lines(text, start, length, lines);
    memset(lines->of, 0, sizeof lines->of);
    lines->known = 0;
    for (size_t i = 0; i < lines->count; i++) {
        struct line *line = &lines->line[i];
        line->role = skip_blanks(text, line->start, line->end) == line->end ? EMPTY : ODD;
        lines->known += line->meant < LINES;
    }
    order_lines(lines);
    for (size_t i = 0; i < lines->count; i++) {
        struct line *line = &lines->line[i];
        if (line->role != ODD || line->meant == LINES) continue;
        line->role = lines->of[line->meant] ? DOUBLE : MOVED;
        if (line->role == MOVED) lines->of[line->meant] = line;
    }
    for (int role = ODD; role >= EMPTY; role--)
        for (size_t i = 0; i < lines->count; i++)
            if ((int)lines->line[i].role == role && lines->line[i].meant == LINES) guess_by_place(lines, i);
}
