/* Hollow and wrong versions of the operations on a record; and versions of every call that takes a record, which take one that is
 * damaged. Each is made of the right call.
 */
#ifndef RECORDS_H
#define RECORDS_H

#include "changes.h"

typedef uint32_t record_version(const struct record_call *call);

/* Right: the model's changes, and of the operations its tests and Figures 1 to 3. */
record_version record_without_a_slip;

/* The answer. */
record_version record_refuses;          /* 14, whatever it is lent */
record_version record_last_untried;     /* the last number of its tests in place of finishing: 12, 8 or 7 */
record_version record_finishes;         /* no refusal is told; what it refuses it leaves */

/* What a refusal writes. */
record_version record_touched;          /* a zero in the output */
record_version record_work_refused;     /* the working list cleared */

/* The tests of what is lent, and their order. */
record_version record_after_6;          /* 14 after 6 */
record_version record_last;             /* 14 after 6, 7, 8 and 12 */
record_version output_before_curve;     /* 7 before 6 */
record_version work_before_output;      /* 8 before 7 */
record_version entries_first;           /* 12 before 6 */
record_version curve_length_untested;   /* 6 never given: a curve is cut, or goes on with zeros */
record_version output_untested;         /* 7 never given: as much as there is room for */
record_version work_untested;           /* 8 never given: a short working list is cleared */
record_version entries_untested;        /* 12 never given */

/* The numbers of the tests on lists, 3, 5, 9, 17, 10, 18 and 11, for a record whose rows are not accepted. */
change_version change_as_lists;
record_version record_as_lists;

/* Records that are taken though they are not right: all is tested but what 14 passes over. */
#define DAMAGES(DAMAGE)                                                             \
    DAMAGE(stored_unread, "14 passes over all but the rows")                        \
    DAMAGE(modulus_taken, "14 passes over m")                                       \
    DAMAGE(rows_taken, "14 passes over more than 127 rows")                         \
    DAMAGE(a_entry_taken, "14 passes over an a not below m")                        \
    DAMAGE(b_entry_taken, "14 passes over a b not below m")                         \
    DAMAGE(c_entry_taken, "14 passes over a c not below m")                         \
    DAMAGE(no_a_inverse_taken, "14 passes over an a without an inverse")            \
    DAMAGE(no_c_inverse_taken, "14 passes over a c without an inverse")             \
    DAMAGE(a_inverse_taken, "14 passes over a wrong inverse of an a")               \
    DAMAGE(c_inverse_taken, "14 passes over a wrong inverse of a c")                \
    DAMAGE(a_inverse_plus_m_taken, "14 passes over an inverse of an a plus m")      \
    DAMAGE(c_inverse_plus_m_taken, "14 passes over an inverse of a c plus m")       \
    DAMAGE(c_1_inverse_taken, "14 passes over an inverse of c_1")                   \
    DAMAGE(norm_taken, "14 passes over a wrong norm")                               \
    DAMAGE(last_norm_taken, "14 passes over a wrong last norm")                     \
    DAMAGE(a_past_taken, "14 passes over an a past the rows")                       \
    DAMAGE(b_past_taken, "14 passes over a b past the rows")                        \
    DAMAGE(c_past_taken, "14 passes over a c past the rows")                        \
    DAMAGE(a_inverse_past_taken, "14 passes over an inverse of an a past the rows") \
    DAMAGE(c_inverse_past_taken, "14 passes over an inverse of a c past the rows")  \
    DAMAGE(norm_past_taken, "14 passes over a norm past the rows")                  \
    DAMAGE(last_place_taken, "14 passes over the last places")
#define DECLARED(name, what)      \
    change_version change_##name; \
    record_version record_##name;
DAMAGES(DECLARED)

#endif
