/* Words for what a call of zahupnik.h answers, for people: what is wrong, a colon, and what to do. Header only: nothing more is linked.
 *
 *     uint32_t number = zahupnik_norms(m, a, r, b, r, c, r, output, r + 1);
 *     if (number != ZAHUPNIK_FINISHED) fprintf(stderr, "refused with %u: %s\n", (unsigned)number, zahupnik_refusal(number));
 */
#ifndef ZAHUPNIK_REFUSAL_H
#define ZAHUPNIK_REFUSAL_H

#include "zahupnik.h"

/* Never NULL: a number that no call answers has words too. */
static inline const char *zahupnik_refusal(uint32_t number) {
    switch (number) {
    case ZAHUPNIK_FINISHED:
        return "finished: the result is written";
    case ZAHUPNIK_REFUSED_TEXT_TOO_LONG:
        return "the text has more than 8192 bytes: send a shorter one";
    case ZAHUPNIK_REFUSED_TEXT_FORM:
        return "the text is not of its form, or no operation has that number: write it as its form is, or name one of the five operations";
    case ZAHUPNIK_REFUSED_MODULUS:
        return "a channel number is below 2 or above 2147483647: choose another";
    case ZAHUPNIK_REFUSED_LENGTHS:
        return "a, b and c are not equally long: give each of them one number for every row";
    case ZAHUPNIK_REFUSED_ROWS:
        return "there are more than 127 rows, or would be, or more than 128 numbers in a list to be ordered: use a shorter family, or list";
    case ZAHUPNIK_REFUSED_CURVE_LENGTH:
        return "the curve, or the list of coefficients, is too short or too long: give one number more than there are rows, or none for moments and norms";
    case ZAHUPNIK_REFUSED_OUTPUT_LENGTH:
        return "the output is not as long as the result, or has too little room for a text: lend one of the length that the header states";
    case ZAHUPNIK_REFUSED_WORK_TOO_SHORT:
        return "the working list has fewer than 16384 numbers: lend a longer one";
    case ZAHUPNIK_REFUSED_ENTRY:
        return "a number of a, b or c is not below the channel number: correct it, or reduce the family";
    case ZAHUPNIK_REFUSED_A_INVERSE:
        return "a number of a shares a factor with the channel number: choose a channel number without that factor, or correct the family";
    case ZAHUPNIK_REFUSED_C_INVERSE:
        return "a number of c, from row 2 on, shares a factor with the channel number: choose a channel number without that factor, or correct the family";
    case ZAHUPNIK_REFUSED_CURVE_ENTRY:
        return "a number of the curve, a coefficient, or a number to be joined or inverted is not below the channel number: correct it, or reduce it";
    case ZAHUPNIK_REFUSED_NO_INVERSE:
        return "the number has no inverse: look at the factor that comes with it, which for zero is the channel number itself";
    case ZAHUPNIK_REFUSED_RECORD:
        return "the prepared family is not the record of its own rows, or these are not accepted: make it anew from its rows";
    case ZAHUPNIK_REFUSED_NO_ROWS:
        return "there is no row to drop: drop no more rows than were appended";
    case ZAHUPNIK_REFUSED_ABSENT_ROW:
        return "there is no such row to replace: name one from 1 to the number of rows";
    case ZAHUPNIK_REFUSED_A_ZERO:
        return "a number of a is zero, or leaves zero, and is the first without an inverse: correct the family, or choose another channel number if it only leaves zero";
    case ZAHUPNIK_REFUSED_C_ZERO:
        return "a number of c, from row 2 on, is zero, or leaves zero, and is the first without an inverse: correct the family, or choose another channel number if it only leaves zero";
    case ZAHUPNIK_REFUSED_SHARED_FACTOR:
        return "the two channel numbers share a factor: choose another one of them";
    case ZAHUPNIK_REFUSED_REMAINDERS:
        return "the two lists of remainders are not equally long: lend as many of the one as of the other";
    default:
        return "no call answers with this number: look where it came from";
    }
}

#endif
