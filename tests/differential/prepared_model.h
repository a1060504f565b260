/* A prepared family, once more: its record, the changes of one, and which refusal the calls on one give.
 *
 * Follows the requests for a prepared family and for the reason of a refusal, and shares no code, as model.h. A record is right if its
 * rows are accepted and it is the record that they have: so every change is one of the rows alone, and the record after it is worked out
 * from nothing.
 */
#ifndef PREPARED_MODEL_H
#define PREPARED_MODEL_H

#include "model.h"

struct record {
    uint32_t modulus, rows;
    uint32_t a[MOST_ROWS], b[MOST_ROWS], c[MOST_ROWS], a_inverses[MOST_ROWS], c_inverses[MOST_ROWS], norms[MOST_ROWS + 1];
};

/* The lists of a record, by name: where each begins, and how many of its first places its rows use. */
enum { RECORD_LISTS = 6, RECORD_NUMBERS = sizeof(struct record) / sizeof(uint32_t) };
struct record_list {
    const char *name;
    uint32_t *places;
    size_t length, used;
};
struct record_list record_list(struct record *record, unsigned which);

enum kind_of_change { EMPTY, APPEND, DROP_LAST, REPLACE };

/* A change: the empty family takes m alone, and every other kind a record; a row is counted from 1. */
struct change {
    enum kind_of_change kind;
    uint32_t m;
    struct record record;
    uint32_t row, a, b, c;
};

/* What a record of so many rows has to hold beside its modulus, a, b and c. Rows may have to be refused: a number without an inverse has
 * 0 for it, and 0 for its norm. Not for a modulus below 2, and not for too many rows. */
struct record record_of_rows(const struct record *rows);

bool is_right(const struct record *record);

/* The number that a change returns, and the record. */
uint32_t change_record(const struct change *change, struct record *after);

/* An operation on the record's modulus and rows, with no curve and no lengths; too many rows are cut. */
struct lent operation_on(struct record *record, enum operation operation, enum way way);

/* The number of the refusal that an operation gives on a record, or 0. */
uint32_t refusal_on(const struct record *record, const struct lent *x);

#endif
