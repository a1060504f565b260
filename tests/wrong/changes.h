/* Hollow and wrong versions of the changes of a record, each made of the right change. */
#ifndef CHANGES_H
#define CHANGES_H

#include "version.h"

typedef uint32_t change_version(const struct change *change, struct record *after);

/* The answer. */
change_version change_refuses;    /* 14, or 3 for an empty family, whatever it is handed */
change_version change_finishes;   /* no refusal is told */

/* The record of a refusal. */
change_version refused_zeros;     /* all zeros */
change_version refused_mended;    /* after 14 the one that its rows have */
change_version refused_written;   /* after 9, 17, 10, 18 and 11 the new row stands in it */
change_version empty_m_kept;      /* m stands in the zeros */

/* The record after a change. */
change_version unchanged;         /* the old one; for an empty family zeros */
change_version empty_norm_zero;   /* without the norm of no rows */
change_version rows_kept;         /* the row count as it was */
change_version norms_kept;        /* the norms as they were */
change_version closing_norm_kept; /* the norm of the old or new closing row as it was */
change_version one_norm;          /* of the norms the replaced row's alone is new */
change_version put_back_norms;    /* the row before the last replacement put back, and the norms as they were */
change_version a_inverses_kept;   /* the inverses as they were */
change_version c_inverses_kept;
change_version c_1_inverted_too;  /* the inverse of a new c_1 stored, if it has one */
change_version a_left;            /* the last place not cleared, in this list */
change_version b_left;
change_version c_left;
change_version a_inverse_left;
change_version c_inverse_left;
change_version norm_left;

/* Which row. */
change_version row_from_0;        /* counted from 0 */
change_version row_0_taken;       /* row 0 taken for row 1 */
change_version row_past_taken;    /* the row after the last appended */

/* The tests of m. */
change_version modulus_untested;  /* 3 never given */
change_version modulus_1_taken;
change_version modulus_past_taken; /* 2147483648 taken */
change_version modulus_2_refused;
change_version greatest_refused;  /* 2147483647 refused */

/* The other tests, and their order. */
change_version new_row_first;     /* 9 before 14 */
change_version no_rows_first;     /* 15 before 14 */
change_version absent_first;      /* 16 before 14 */
change_version absent_last;       /* 16 last */
change_version rows_after_entry;  /* 5 after 9 */
change_version rows_last;         /* 5 last */
change_version a_before_entry;    /* 17 and 10 before 9 */
change_version new_c_before_a;    /* 18 and 11 before 17 and 10 */
change_version rows_untested;     /* 5 never given: a row count of 128, and the row nowhere */
change_version no_rows_untested;  /* 15 never given: the record as it was */
change_version a_unread;          /* 9 for b and c alone */
change_version b_unread;          /* 9 for a and c alone */
change_version c_unread;          /* 9 for a and b alone */
change_version a_untested;        /* 17 and 10 never given */
change_version c_untested;        /* 18 and 11 never given */
change_version non_zero_rows;     /* whatever is not zero taken to have an inverse */
change_version first_c_asked;     /* 18 and 11 look at row 1 too */
change_version second_c_not_asked; /* 18 and 11 from row 3 on */

/* The reason of a refusal for the new row. */
change_version new_a_swapped;     /* 17 for a shared factor, 10 for zero */
change_version new_c_swapped;     /* 18 for a shared factor, 11 for zero */
change_version new_a_zero_untold; /* 10 for zero too */
change_version new_c_zero_untold; /* 11 for zero too */
change_version new_zeros_swapped; /* 18 for a zero a, 17 for a zero c */
change_version new_zeros_first;   /* 18 before 10 */
change_version new_zeros_last;    /* 17 after 11 */
change_version new_zeros_before_entries; /* 17 and 18 before 9 */
change_version first_c_zero_asked; /* 18 looks at row 1 too */

#endif
