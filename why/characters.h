/* The characters of a text, in words. */
#ifndef WHY_CHARACTERS_H
#define WHY_CHARACTERS_H

#include <stddef.h>
#include <stdint.h>

/* A character of a text in UTF-8; a byte that is no part of one is a character by itself. */
struct character {
    uint32_t code; /* its Unicode number; NO_CODE and more for such a byte */
    size_t bytes;
};
#define NO_CODE UINT32_C(0x110000)

/* The character that begins at a place before the end. */
struct character character_at(const uint8_t *text, size_t at, size_t end);

int is_digit(uint8_t byte);

/* Whether it is a space, or leaves a gap or nothing at all where it is shown: a tab, a no-break space, byte 13, a zero byte, ... */
int is_blank(struct character character);

/* Whether people write it between two numbers: a blank, a comma or a semicolon. */
int is_separator(struct character character);

/* Writes what the character at this place is, as "a comma" or "byte 128". */
enum { NAME_ROOM = 80 };
void name_character(const uint8_t *text, size_t at, size_t end, char name[NAME_ROOM]);

/* Writes a part of a text between quotes, a byte that cannot be shown as ?; cut where it is long. */
enum { QUOTE_ROOM = 40 };
void quote(const uint8_t *text, size_t start, size_t end, char quoted[QUOTE_ROOM]);

#endif
