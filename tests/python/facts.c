/* Prints what only a compiler knows of the headers, a fact a line: the words of each number, and where each field of a record stands.
 *
 * usage: facts
 */
#include <inttypes.h>
#include <stddef.h>
#include <stdio.h>
#include "zahupnik_refusal.h"

#define FIELD(type, field) printf("field %s %s %zu\n", #type, #field, offsetof(struct zahupnik_##type, field))

int main(void) {
    for (uint32_t number = 0; number <= 21; number++) printf("words %" PRIu32 " %s\n", number, zahupnik_refusal(number));
    FIELD(prepared, modulus);
    FIELD(prepared, rows);
    FIELD(prepared, a);
    FIELD(prepared, b);
    FIELD(prepared, c);
    FIELD(prepared, a_inverses);
    FIELD(prepared, c_inverses);
    FIELD(prepared, norms);
    FIELD(change, answer);
    FIELD(change, family);
    printf("size prepared %zu\nsize change %zu\n", sizeof(struct zahupnik_prepared), sizeof(struct zahupnik_change));
    printf("version %d\n", ZAHUPNIK_VERSION);
    return 0;
}
