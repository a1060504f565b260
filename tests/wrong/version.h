/* Wrong versions of the library's calls, wrapped round the right ones (ld --wrap).
 *
 * The environment's WRONG says which: a call by its name in the header without zahupnik_, or `every`, then a colon, then the name of
 * a version of it. Without WRONG the library stands as it is. One that is not known ends the program with 2.
 */
#ifndef VERSION_H
#define VERSION_H

#include "joining_model.h"
#include "ordering_model.h"
#include "prepared_model.h"

/* A call on lists as it was made: what it was lent, and where it writes; the factor is Inverse's. */
struct call {
    struct lent lent;
    uint32_t *output, *work, *factor;
};

/* A job as write_job is lent it, for expand if no operation has its number, and that number. */
struct job {
    struct lent lent;
    uint32_t operation;
};

/* A call that writes a text, as it was made: the text call, or if there is a job, the call that writes it. That one is lent no
 * text and no working list. */
struct text_call {
    const struct job *job;
    const uint8_t *text;
    size_t text_length;
    uint8_t *output;
    size_t output_length;
    uint32_t *work;
    size_t work_length;
    uint32_t *length;
};

/* An operation on a record as it was made; the rows that the call has are the record's. */
struct record_call {
    struct record record;
    struct call call;
};

/* A call on two channels as it was made: what it was lent, and where it writes. */
struct joining_call {
    struct joining lent;
    int64_t *output;
};

/* A call that orders a list as it was made: what it was lent, and where it writes. */
struct ordering_call {
    struct ordering lent;
    uint32_t *output;
};

/* What the library does. A change hands out a record. */
uint32_t right(const struct call *call);
uint32_t right_text(const struct text_call *call);
uint32_t right_change(const struct change *change, struct record *after);
uint32_t right_on_record(const struct record_call *call);
uint32_t right_joined(const struct joining_call *call);
uint32_t right_ordered(const struct ordering_call *call);

/* The calls that a version is a version of. */
enum {
    INVERT = 1 << 0,
    PLAIN_EXPAND = 1 << 1,
    PLAIN_ADJOINT = 1 << 2,
    PLAIN_DECOMPOSE = 1 << 3,
    NORMS_CALL = 1 << 4,
    TREE_EXPAND = 1 << 5,
    TREE_ADJOINT = 1 << 6,
    TREE_DECOMPOSE = 1 << 7,
    MOMENTS_CALL = 1 << 8,
    CONVERT_TEXT = 1 << 9,
    WRITE_JOB = 1 << 10,
    PREPARED_EMPTY = 1 << 11,
    PREPARED_APPEND = 1 << 12,
    PREPARED_DROP_LAST = 1 << 13,
    PREPARED_REPLACE = 1 << 14,
    PREPARED_PLAIN_EXPAND = 1 << 15,
    PREPARED_PLAIN_ADJOINT = 1 << 16,
    PREPARED_PLAIN_DECOMPOSE = 1 << 17,
    PREPARED_NORMS = 1 << 18,
    PREPARED_TREE_EXPAND = 1 << 19,
    PREPARED_TREE_ADJOINT = 1 << 20,
    PREPARED_TREE_DECOMPOSE = 1 << 21,
    PREPARED_MOMENTS = 1 << 22,
    JOIN = 1 << 23,
    EXPAND_JOIN = 1 << 24,
    EVEN_FIRST = 1 << 25,
    EVEN_BACK = 1 << 26,
    CALLS = 27,
    ALL = (1 << CALLS) - 1,
    ON_TWO_CHANNELS = JOIN | EXPAND_JOIN,
    ORDERS = EVEN_FIRST | EVEN_BACK,
    WITHOUT_RECORD = PREPARED_EMPTY - 1,
    CONVERSIONS = WITHOUT_RECORD & ~WRITE_JOB,
    PLAIN_CURVES = PLAIN_EXPAND | PLAIN_ADJOINT | PLAIN_DECOMPOSE,
    TREE_CURVES = TREE_EXPAND | TREE_ADJOINT | TREE_DECOMPOSE,
    BY_THE_TREE = TREE_CURVES | MOMENTS_CALL | CONVERT_TEXT,
    BY_THE_NORMS = NORMS_CALL | TREE_DECOMPOSE | CONVERT_TEXT,
    BY_THE_MOMENTS = MOMENTS_CALL | TREE_DECOMPOSE | CONVERT_TEXT,
    ON_LISTS_ALONE = CONVERSIONS & ~CONVERT_TEXT,
    TO_TEXTS = CONVERT_TEXT | WRITE_JOB,
    WITH_FAMILY = CONVERSIONS & ~INVERT,
    TO_RECORDS = PREPARED_EMPTY | PREPARED_APPEND | PREPARED_DROP_LAST | PREPARED_REPLACE,
    CHANGES = TO_RECORDS & ~PREPARED_EMPTY,
    WITH_NEW_ROW = PREPARED_APPEND | PREPARED_REPLACE,
    ON_RECORDS = ALL & ~WITHOUT_RECORD & ~TO_RECORDS & ~ON_TWO_CHANNELS & ~ORDERS,
    TAKE_RECORD = CHANGES | ON_RECORDS,
    BY_THE_TREE_ON_RECORDS = PREPARED_TREE_EXPAND | PREPARED_TREE_ADJOINT | PREPARED_TREE_DECOMPOSE | PREPARED_MOMENTS,
    BY_TRANSPOSED_PRODUCTS = TREE_ADJOINT | TREE_DECOMPOSE | PREPARED_TREE_ADJOINT | PREPARED_TREE_DECOMPOSE,
    CURVES_ON_RECORDS = ON_RECORDS & ~PREPARED_NORMS & ~PREPARED_MOMENTS
};

/* The calls' names, in the order of the bits. */
extern const char *const CALL_NAMES[CALLS];

/* A version: a function for the calls that write lists, for those that write a text, for the changes of a record, for the operations
 * on one, for the calls on two channels and for those that order a list, or for some of these. One on lists alone, of the text call,
 * converts the job that was read, and of an operation on a record, the rows of one that is right. A control is right: no test may tell it
 * from the library. */
struct version {
    const char *name;
    const char *what;
    unsigned calls;
    uint32_t (*on_lists)(const struct call *call);
    uint32_t (*on_text)(const struct text_call *call);
    uint32_t (*on_change)(const struct change *change, struct record *after);
    uint32_t (*on_record)(const struct record_call *call);
    uint32_t (*on_channels)(const struct joining_call *call);
    uint32_t (*on_orders)(const struct ordering_call *call);
    bool control;
};

/* The table; it ends with a version that has no name. */
extern const struct version VERSIONS[];

/* The text call that reads its job and converts it by a version on lists. */
uint32_t convert_job(const struct text_call *call, uint32_t (*on_lists)(const struct call *call));

#endif
