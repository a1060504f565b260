/* One call of the library under watch: what it is lent, what it has to leave there, and what it did leave.
 *
 * Whatever is lent ends at a page that nobody may touch, and before it stands a zone whose bytes must not change: the library
 * is compiled without a checker of memory.
 */
#ifndef TRIAL_H
#define TRIAL_H

#include <stddef.h>
#include <stdint.h>

#include "prepared_model.h"
#include "random.h"

enum { MOST_LENDINGS = 6 };

/* What is lent: the bytes of a text, numbers of 32 bits without a sign or with one, or numbers of 64 bits with a sign. */
enum numbers { BYTES, NUMBERS, SIGNED_NUMBERS, WIDE_NUMBERS };

/* Numbers that are lent: which, how many, and what they are before the call. When a call has finished, the
 * first of what it may write are those at front; the others are as before, and so are all of them when it is refused, unless it is with
 * the one number that writes them too, if that is not 0. What it may not write has no front. */
struct lending {
    const char *name;
    enum numbers numbers;
    const void *before;
    size_t length;
    const void *front;
    size_t front_length;
    uint32_t written_with;
};

/* What a family's c_1 is: it has an inverse, or there is no row; it is 0; it is another number that shares a factor with m. */
enum first_c { INVERTIBLE, ZERO, SHARES_FACTOR, KINDS_OF_FIRST_C };

/* Whether a list is an expanded curve of a family whose b are all zero; and then whether the curve has entries at odd indices alone, or at
 * even ones alone, whether it was expanded by the tree, and whether m is composite. */
struct parity {
    bool is, odd, tree, composite;
};
enum { KINDS_OF_PARITY = 8 };

/* A case of a call, or a step of one that is a sequence. Number is what it has to return; a text has no m of its own, a call on two
 * channels has a second one, and only write_job is told the number of an operation. Rows says how long its family is, and mixed, where it
 * is refused for a or for c, whether that list has zeros and other numbers without an inverse both. Of a call on two channels, of_second
 * says whether it is refused for the second of them or the second list, half whether it hands out half of m1 m2, and whole whether all that
 * it hands out was found over the whole numbers. Of a call that orders a list, length is that of the list, and covered says whether it is
 * refused for that and would be for the output too. A call on a record is handed one; a change has returned one besides, and has to
 * return the one wanted. */
struct trial {
    const char *call;
    uint64_t seed, number_of_case;
    uint32_t step;
    const uint32_t *m, *second_m, *operation;
    const struct change *change;
    struct record *handed, *wanted, *returned;
    uint32_t number;
    size_t rows, lendings;
    enum first_c first_c;
    bool mixed, of_second, half, whole, covered;
    size_t length;
    struct parity parity;
    struct lending lending[MOST_LENDINGS];
    unsigned char *at[MOST_LENDINGS];
};

/* To be called once, before the first trial. Any lending of a trial may take so many bytes. */
void prepare_trials(size_t most_bytes);

/* What an output or a working list of so many bytes may hold before a call; never the same for long. */
const void *dirt(struct random *random, size_t bytes);

/* Notes the rows and the c_1 of the trial's family, and by the trial's number whether what it is refused for is mixed. */
void note_family(struct trial *trial, const struct lent *x);

/* From here on to the comparing the library runs, so that a fault is its own. */
void watch(const struct trial *trial);

/* Lends numbers, and returns where they are: for none of them sometimes NULL. Watches too. */
void *lend(struct trial *trial, struct random *random, struct lending lending);

/* Lends a list that the call may not write, and returns it where it was lent. */
struct list lend_list(struct trial *trial, struct random *random, const char *name, struct list list);

/* Lends the lists that the call takes, and returns x with what was lent in their places. */
struct lent lend_lists(struct trial *trial, struct random *random, const struct lent *x);

/* Lends 32-bit numbers that the call may write, dirty, with what a finished call leaves at their front. */
uint32_t *lend_numbers(struct trial *trial, struct random *random, const char *name, size_t length, const uint32_t *front,
                       size_t front_length);

/* Lends the number that Inverse writes its factor to, dirty, with the one that it leaves there if it finishes or is refused with 13. */
uint32_t *lend_factor(struct trial *trial, struct random *random, const uint32_t *factor);

/* Holds the number and the record that the call returned, and all that it was lent, against what has to be. At a difference the case
 * is shown and the program ends with 1. It ends so too if the library touches what it may not while it is watched. */
void compare(const struct trial *trial, uint32_t returned);

/* Shows a case whose call did what the model says and that is wrong all the same, and says why; the program ends with 1. */
void end_trial(const struct trial *trial, const char *why);

#endif
