/* The model's record as the library has it, and back: number for number, in the same order. */
#ifndef LIBRARY_RECORD_H
#define LIBRARY_RECORD_H

#include <stddef.h>
#include <string.h>

#include "prepared_model.h"
#include "zahupnik.h"

#define SAME_PLACE(field) \
    _Static_assert(offsetof(struct record, field) == offsetof(struct zahupnik_prepared, field), #field " is elsewhere")
SAME_PLACE(modulus);
SAME_PLACE(rows);
SAME_PLACE(a);
SAME_PLACE(b);
SAME_PLACE(c);
SAME_PLACE(a_inverses);
SAME_PLACE(c_inverses);
SAME_PLACE(norms);
_Static_assert(sizeof(struct record) == sizeof(struct zahupnik_prepared), "the library's record has another size");

static inline struct zahupnik_prepared to_library(const struct record *record) {
    struct zahupnik_prepared prepared;
    memcpy(&prepared, record, sizeof prepared);
    return prepared;
}

static inline struct record from_library(const struct zahupnik_prepared *prepared) {
    struct record record;
    memcpy(&record, prepared, sizeof record);
    return record;
}

#endif
