/* Tells the characters that are found where others are expected, and names them. */
#include <inttypes.h>
#include <stdio.h>
#include "characters.h"

struct character character_at(const uint8_t *text, size_t at, size_t end) {
    uint8_t first = text[at];
    if (first < 0x80) return (struct character){first, 1};
    struct character alone = {NO_CODE + first, 1};
    size_t bytes = first >= 0xF0 ? 4 : first >= 0xE0 ? 3 : 2;
    if (first < 0xC2 || first > 0xF4 || bytes > end - at) return alone;
    uint32_t code = first & (0x7Fu >> bytes);
    for (size_t i = 1; i < bytes; i++) {
        if ((text[at + i] & 0xC0) != 0x80) return alone;
        code = code << 6 | (text[at + i] & 0x3F);
    }
    return (struct character){code, bytes};
}

int is_digit(uint8_t byte) { return byte >= '0' && byte <= '9'; }

int is_blank(struct character character) {
    uint32_t code = character.code;
    return code == 0 || (code >= 9 && code <= 13) || code == ' ' || code == 0x85 || code == 0xA0 || code == NO_CODE + 0xA0 ||
           (code >= 0x2000 && code <= 0x200F) || code == 0x2028 || code == 0x2029 || code == 0x202F || code == 0x205F || code == 0x2060 ||
           code == 0x3000 || code == 0xFEFF;
}

int is_separator(struct character character) { return is_blank(character) || character.code == ',' || character.code == ';'; }

/* Digits that are not 0 to 9: raised and lowered ones, Arabic, Persian, Devanagari, full width. */
static int is_foreign_digit(uint32_t code) {
    return code == 0xB2 || code == 0xB3 || code == 0xB9 || code == NO_CODE + 0xB2 || code == NO_CODE + 0xB3 || code == NO_CODE + 0xB9 ||
           (code >= 0x660 && code <= 0x669) || (code >= 0x6F0 && code <= 0x6F9) || (code >= 0x966 && code <= 0x96F) ||
           (code >= 0x2070 && code <= 0x2089) || (code >= 0xFF10 && code <= 0xFF19);
}

static const char *known_name(uint32_t code) {
    switch (code) {
    case 0: return "a zero byte";
    case 4: return "byte 4 (Ctrl-D)";
    case 9: return "a tab";
    case 13: return "byte 13 (CR)";
    case 26: return "byte 26 (Ctrl-Z)";
    case ' ': return "a space";
    case ',': return "a comma";
    case ';': return "a semicolon";
    case ':': return "a colon";
    case '.': return "a point";
    case '-': return "a minus sign";
    case '+': return "a plus sign";
    case '"': return "a quotation mark";
    case 0xA0:
    case NO_CODE + 0xA0: return "a no-break space";
    case 0x2013: return "an en dash";
    case 0x2212: return "a minus sign of another kind than -";
    case 0xFEFF: return "a byte order mark";
    default: return NULL;
    }
}

void name_character(const uint8_t *text, size_t at, size_t end, char name[NAME_ROOM]) {
    struct character character = character_at(text, at, end);
    uint32_t code = character.code;
    const char *known = known_name(code);
    if (!known && is_foreign_digit(code)) known = "a digit other than 0 to 9";
    if (!known && code >= 0x80 && is_blank(character)) known = "a blank other than a space";
    int length = 0;
    if (known)
        length = snprintf(name, NAME_ROOM, "%s", known);
    else if ((code >= 'a' && code <= 'z') || (code >= 'A' && code <= 'Z'))
        length = snprintf(name, NAME_ROOM, "the letter %c", (char)code);
    else if (code >= '0' && code <= '9')
        length = snprintf(name, NAME_ROOM, "the digit %c", (char)code);
    else if (code > ' ' && code < 127)
        length = snprintf(name, NAME_ROOM, "the sign %c", (char)code);
    else if (code < 0x80 || code >= NO_CODE)
        length = snprintf(name, NAME_ROOM, "byte %u", text[at]);
    else
        length = snprintf(name, NAME_ROOM, "the character U+%04" PRIX32, code);
    if (code < 0x80 || (code >= NO_CODE && !known)) return;
    for (size_t i = 0; i < character.bytes; i++)
        length += snprintf(name + length, NAME_ROOM - (size_t)length, "%s%u",
                           i ? " " : character.bytes == 1 ? " (byte " : " (bytes ", text[at + i]);
    snprintf(name + length, NAME_ROOM - (size_t)length, ")");
}

void quote(const uint8_t *text, size_t start, size_t end, char quoted[QUOTE_ROOM]) {
    size_t length = 0;
    const size_t most = QUOTE_ROOM - 6; /* two quotes, three points and the end */
    quoted[length++] = '"';
    for (size_t at = start; at < end && length <= most; at++) quoted[length++] = text[at] >= ' ' && text[at] < 127 ? (char)text[at] : '?';
    snprintf(quoted + length, QUOTE_ROOM - length, end - start > most ? "...\"" : "\"");
}
