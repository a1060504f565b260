/* Zahupnik: conversion between orthogonal bases and powers of x, modulo m, and on two moduli, joined into whole numbers with a sign.
 *
 * m need not be prime. All numbers are whole, and lists handed out have remainders from 0 to m - 1, but those of zahupnik_join and
 * zahupnik_expand_join, which have a sign, and of zahupnik_even_first and zahupnik_even_back, which have no m. A family has r rows, and
 * row i (i = 1 to r) is a_i, b_i, c_i, at index i - 1 of the lists a, b and c. Its polynomials are F_{-1} = 0, F_0 = 1 and
 * F_i = (a_i x + b_i) F_{i-1} + c_i F_{i-2}. n is r + 1 throughout. Lists have the lowest index or power first, but for those that
 * zahupnik_even_first writes and zahupnik_even_back is lent.
 * c_1 multiplies F_{-1} = 0 only: it may be any number below m, for zahupnik_expand_join any at all, 0 too, as in Legendre's recurrence, and
 * no converted list depends on it.
 * A number with a sign leaves a remainder from 0 to m - 1 too, from which it differs by a multiple of m: -1 leaves m - 1.
 *
 * What a function returns: ZAHUPNIK_FINISHED, and then the result that its comment states is written; or the number of a
 * refusal, and then nothing is written, so that the output is what it was: look at the number before you use the output. Only
 * zahupnik_invert writes with a refusal, and only the factor, with 13. The changes of a prepared family return such a number and a
 * record. A function tests all that it is lent, so no number and no length is asked of the caller. Its comment lists the refusals
 * that it tests, by name and number, in this order, each over all rows or entries before the next; the first that is the case is
 * returned. A_ZERO 17 and A_INVERSE 10 look at one row: where some a have no inverse modulo m, the lowest row of these decides, 17 if its
 * a is zero, a fault of the family, and 10 if it is not and so shares a factor with m, which another m may mend. Likewise C_ZERO 18 and
 * C_INVERSE 11 for the c from row 2 on. zahupnik_expand_join looks at remainders: there 17 and 18 say that the a or the c of that row
 * leaves zero, and where it is not zero itself, another m may mend that too.
 *
 * Which way to take: the plain way is the quicker one at every size that bench/run measures, and the tree way gives the same list;
 * zahupnik_expand_join goes by the plain way. A prepared family saves Norms much of its time, Decompose and Moments of many rows a little,
 * and costs Expand, Adjoint and families of few rows some, since its test looks at the whole record (docs/PERFORMANCE.md).
 *
 * A function of the tree way, on a record too, zahupnik_moments, zahupnik_prepared_moments and zahupnik_convert_text are lent a working
 * list besides, of any length from ZAHUPNIK_LEAST_WORK on, and what it holds does not matter. When the function has finished, the first
 * ZAHUPNIK_LEAST_WORK numbers of it are zero, and what lies beyond is untouched.
 *
 * What the caller owes: behind a pointer there are as many numbers as the length beside it says, and one behind `inverse`, `factor` and
 * `length`. The lists and the text that are read, and every number of a record that is handed in, are initialised; what is written need not
 * be. A list of length 0 may have any pointer, NULL too. What a call writes (the inverse, the factor, the length, the output, the working
 * list) overlaps nothing else that it is lent, and nobody else touches what is lent while the call runs.
 *
 * Nothing is allocated and nothing is kept, so calls from several threads do not disturb one another.
 *
 * The stack that a call takes at most, in bytes: measured by tests/stack/run on a painted stack and rounded up, not proved. It counts
 * arguments and what is returned, records of 3,060 bytes among them, and memcpy and memset of the C library; a dynamic linker that binds
 * one of these at its first call takes some kilobytes of its own.
 *     zahupnik_version                      64
 *     zahupnik_invert                       64
 *     zahupnik_plain_expand               1536
 *     zahupnik_plain_adjoint              1536
 *     zahupnik_plain_decompose            3072
 *     zahupnik_norms                      1024
 *     zahupnik_tree_expand                2560
 *     zahupnik_tree_adjoint               2560
 *     zahupnik_tree_decompose            11264
 *     zahupnik_moments                    8704
 *     zahupnik_convert_text              15360
 *     zahupnik_write_job                  1024
 *     zahupnik_prepared_empty            15360
 *     zahupnik_prepared_append           19456
 *     zahupnik_prepared_drop_last        19456
 *     zahupnik_prepared_replace          19456
 *     zahupnik_prepared_plain_expand      8704
 *     zahupnik_prepared_plain_adjoint     8704
 *     zahupnik_prepared_plain_decompose   9728
 *     zahupnik_prepared_norms             6656
 *     zahupnik_prepared_tree_expand       9728
 *     zahupnik_prepared_tree_adjoint      9728
 *     zahupnik_prepared_tree_decompose   18432
 *     zahupnik_prepared_moments          15872
 *     zahupnik_join                        128
 *     zahupnik_expand_join                5120
 *     zahupnik_even_first                   64
 *     zahupnik_even_back                    64
 *
 * Where it is installed, `cc program.c $(pkg-config --cflags --libs zahupnik)` compiles and links; in the repository `make
 * target/staticlib/libzahupnik.a` builds it. It is for x86-64 Linux. The functions are proved to do this on every input
 * (crates/zahupnik; that a job that is written is carried out, crates/text_laws; that a record comes back when a row is put back, and that
 * a record answers as the lists do, crates/prepared_laws; that a joined value is the only one with its remainders in the range, and that
 * Expand and join is exact in it, crates/join_laws; that either order comes back by the other, and where the zeros of an expanded curve
 * then lie, crates/order_laws); that these declarations fit them is tested (tests/library).
 */
#ifndef ZAHUPNIK_H
#define ZAHUPNIK_H

#include <stddef.h>
#include <stdint.h>

#ifdef __cplusplus
extern "C" {
#endif

/* The version of this header; zahupnik_version says that of the library that is linked, in the way of ZAHUPNIK_VERSION. The major number
 * grows where a program would have to be changed or compiled anew, the minor where something is added. */
#define ZAHUPNIK_VERSION_MAJOR 1
#define ZAHUPNIK_VERSION_MINOR 0
#define ZAHUPNIK_VERSION_PATCH 0
#define ZAHUPNIK_VERSION (ZAHUPNIK_VERSION_MAJOR * 10000 + ZAHUPNIK_VERSION_MINOR * 100 + ZAHUPNIK_VERSION_PATCH)

/* For a compiler that knows these attributes: it warns where an answer is not looked at, and where a list is shorter than the length that
 * is handed in with it. READS and WRITES name the pointer and its length by their places among the parameters, WRITES_ONE a pointer to one
 * number, which is not NULL. */
#ifdef __has_attribute
#if __has_attribute(__warn_unused_result__)
#define ZAHUPNIK_ANSWERS __attribute__((__warn_unused_result__))
#endif
#if __has_attribute(__access__)
#define ZAHUPNIK_READS(list, length) __attribute__((__access__(__read_only__, list, length)))
#define ZAHUPNIK_WRITES(list, length) __attribute__((__access__(__write_only__, list, length)))
#define ZAHUPNIK_WRITES_ONE(number) __attribute__((__access__(__write_only__, number), __nonnull__(number)))
#elif __has_attribute(__nonnull__)
#define ZAHUPNIK_WRITES_ONE(number) __attribute__((__nonnull__(number)))
#endif
#endif
#ifndef ZAHUPNIK_ANSWERS
#define ZAHUPNIK_ANSWERS
#endif
#ifndef ZAHUPNIK_READS
#define ZAHUPNIK_READS(list, length)
#define ZAHUPNIK_WRITES(list, length)
#endif
#ifndef ZAHUPNIK_WRITES_ONE
#define ZAHUPNIK_WRITES_ONE(number)
#endif

/* The limits. */
#define ZAHUPNIK_GREATEST_MODULUS UINT32_C(2147483647)
#define ZAHUPNIK_MOST_ROWS 127
#define ZAHUPNIK_MOST_ENTRIES 128
#define ZAHUPNIK_LEAST_WORK 16384
#define ZAHUPNIK_MOST_TEXT 8192
#define ZAHUPNIK_LEAST_TEXT_OUTPUT 4096
#define ZAHUPNIK_LEAST_JOB_OUTPUT 8192

/* The operations of a job, as zahupnik_write_job is told them. */
#define ZAHUPNIK_EXPAND 0
#define ZAHUPNIK_ADJOINT 1
#define ZAHUPNIK_DECOMPOSE 2
#define ZAHUPNIK_MOMENTS 3
#define ZAHUPNIK_NORMS 4

/* What a call answers: that it has finished, or why it refuses. The name of a refusal opens with ZAHUPNIK_REFUSED_, which the comments of
 * the functions leave out; zahupnik_refusal.h has words for each, for people. */
#define ZAHUPNIK_FINISHED 0
#define ZAHUPNIK_REFUSED_TEXT_TOO_LONG 1  /* the job text has more than ZAHUPNIK_MOST_TEXT bytes */
#define ZAHUPNIK_REFUSED_TEXT_FORM 2      /* the job text is not of the form; or no job text has this operation */
#define ZAHUPNIK_REFUSED_MODULUS 3        /* m, or m1 or m2, is below 2 or above ZAHUPNIK_GREATEST_MODULUS */
#define ZAHUPNIK_REFUSED_LENGTHS 4        /* the lists a, b and c are not equally long */
#define ZAHUPNIK_REFUSED_ROWS 5           /* there are more than ZAHUPNIK_MOST_ROWS rows, or an append would make them; or a list that
                                           * is to change its order has more than ZAHUPNIK_MOST_ENTRIES numbers */
#define ZAHUPNIK_REFUSED_CURVE_LENGTH 6   /* the curve, or the list of coefficients, is not n long; or not empty in a job for moments
                                           * or norms */
#define ZAHUPNIK_REFUSED_OUTPUT_LENGTH 7  /* the output is not as long as the result; or shorter than ZAHUPNIK_LEAST_TEXT_OUTPUT bytes
                                           * for an answer text, than ZAHUPNIK_LEAST_JOB_OUTPUT for a job text */
#define ZAHUPNIK_REFUSED_WORK_TOO_SHORT 8 /* the working list is shorter than ZAHUPNIK_LEAST_WORK */
#define ZAHUPNIK_REFUSED_ENTRY 9          /* an entry of a, b or c is not below m */
#define ZAHUPNIK_REFUSED_A_INVERSE 10     /* some a has no inverse modulo m: that of the lowest such row is not zero, and shares a
                                           * factor with m */
#define ZAHUPNIK_REFUSED_C_INVERSE 11     /* some c from row 2 on has no inverse modulo m: that of the lowest such row is not zero, and
                                           * shares a factor with m */
#define ZAHUPNIK_REFUSED_CURVE_ENTRY 12   /* a curve entry, a coefficient, a remainder to join or the number to invert is not below its
                                           * m */
#define ZAHUPNIK_REFUSED_NO_INVERSE 13    /* the number to invert has no inverse modulo m */
#define ZAHUPNIK_REFUSED_RECORD 14        /* the prepared family is not the record of its own rows, or these are not accepted */
#define ZAHUPNIK_REFUSED_NO_ROWS 15       /* there is no row to drop */
#define ZAHUPNIK_REFUSED_ABSENT_ROW 16    /* there is no such row to replace */
#define ZAHUPNIK_REFUSED_A_ZERO 17        /* some a has no inverse modulo m: that of the lowest such row is zero; of
                                           * zahupnik_expand_join, it leaves zero */
#define ZAHUPNIK_REFUSED_C_ZERO 18        /* some c from row 2 on has no inverse modulo m: that of the lowest such row is zero; of
                                           * zahupnik_expand_join, it leaves zero */
#define ZAHUPNIK_REFUSED_SHARED_FACTOR 19 /* m1 and m2 share a factor greater than 1 */
#define ZAHUPNIK_REFUSED_REMAINDERS 20    /* the two lists of remainders are not equally long */

/* The version of the library: its major number times 10000, its minor times 100 and its patch, added up. */
uint32_t zahupnik_version(void);

/* Inverse: *inverse becomes the one number below m that times x leaves 1 modulo m, and *factor the greatest common factor of x and m,
 * which is then 1.
 * Refuses with MODULUS 3, CURVE_ENTRY 12, NO_INVERSE 13. With 13 *inverse is what it was, and *factor becomes the greatest common factor:
 * m where x is zero, above 1 and below m where it is not. With 3 and 12 both are what they were. Both have to be lent, wanted or not. */
ZAHUPNIK_ANSWERS ZAHUPNIK_WRITES_ONE(3) ZAHUPNIK_WRITES_ONE(4)
uint32_t zahupnik_invert(uint32_t m, uint32_t x, uint32_t *inverse, uint32_t *factor);

/* Expand: output[k] becomes the coefficient of x^k in the sum over i of curve[i] F_i, for k and i from 0 to n - 1.
 * Row by row. Lengths: a, b, c r; curve n; output n.
 * Refuses with MODULUS 3, LENGTHS 4, ROWS 5, CURVE_LENGTH 6, OUTPUT_LENGTH 7, ENTRY 9, A_ZERO 17, A_INVERSE 10, C_ZERO 18, C_INVERSE 11,
 * CURVE_ENTRY 12. */
ZAHUPNIK_ANSWERS ZAHUPNIK_READS(2, 3) ZAHUPNIK_READS(4, 5) ZAHUPNIK_READS(6, 7) ZAHUPNIK_READS(8, 9) ZAHUPNIK_WRITES(10, 11)
uint32_t zahupnik_plain_expand(uint32_t m, const uint32_t *a, size_t a_length, const uint32_t *b, size_t b_length,
                               const uint32_t *c, size_t c_length, const uint32_t *curve, size_t curve_length,
                               uint32_t *output, size_t output_length);

/* Adjoint (transposed expand): output[j] becomes the sum over i of curve[i] times the coefficient of x^i in F_j, for i and j
 * from 0 to n - 1. Row by row. Lengths: a, b, c r; curve n; output n.
 * Refuses with MODULUS 3, LENGTHS 4, ROWS 5, CURVE_LENGTH 6, OUTPUT_LENGTH 7, ENTRY 9, A_ZERO 17, A_INVERSE 10, C_ZERO 18, C_INVERSE 11,
 * CURVE_ENTRY 12. */
ZAHUPNIK_ANSWERS ZAHUPNIK_READS(2, 3) ZAHUPNIK_READS(4, 5) ZAHUPNIK_READS(6, 7) ZAHUPNIK_READS(8, 9) ZAHUPNIK_WRITES(10, 11)
uint32_t zahupnik_plain_adjoint(uint32_t m, const uint32_t *a, size_t a_length, const uint32_t *b, size_t b_length,
                                const uint32_t *c, size_t c_length, const uint32_t *curve, size_t curve_length,
                                uint32_t *output, size_t output_length);

/* Decompose: output becomes the one curve that Expand turns into the coefficients. From the top power.
 * Lengths: a, b, c r; coefficients n; output n.
 * Refuses with MODULUS 3, LENGTHS 4, ROWS 5, CURVE_LENGTH 6, OUTPUT_LENGTH 7, ENTRY 9, A_ZERO 17, A_INVERSE 10, C_ZERO 18, C_INVERSE 11,
 * CURVE_ENTRY 12. */
ZAHUPNIK_ANSWERS ZAHUPNIK_READS(2, 3) ZAHUPNIK_READS(4, 5) ZAHUPNIK_READS(6, 7) ZAHUPNIK_READS(8, 9) ZAHUPNIK_WRITES(10, 11)
uint32_t zahupnik_plain_decompose(uint32_t m, const uint32_t *a, size_t a_length, const uint32_t *b, size_t b_length,
                                  const uint32_t *c, size_t c_length, const uint32_t *coefficients,
                                  size_t coefficients_length, uint32_t *output, size_t output_length);

/* Norms: output[i] becomes (-1)^i c_2 .. c_{i+1} / a_{i+1}, for i from 0 to n - 1, where row n, the closing row, is 1 1 1.
 * Lengths: a, b, c r; output n.
 * Refuses with MODULUS 3, LENGTHS 4, ROWS 5, OUTPUT_LENGTH 7, ENTRY 9, A_ZERO 17, A_INVERSE 10, C_ZERO 18, C_INVERSE 11. */
ZAHUPNIK_ANSWERS ZAHUPNIK_READS(2, 3) ZAHUPNIK_READS(4, 5) ZAHUPNIK_READS(6, 7) ZAHUPNIK_WRITES(8, 9)
uint32_t zahupnik_norms(uint32_t m, const uint32_t *a, size_t a_length, const uint32_t *b, size_t b_length,
                        const uint32_t *c, size_t c_length, uint32_t *output, size_t output_length);

/* Expand by the subproduct tree: output becomes what zahupnik_plain_expand makes it.
 * Lengths: a, b, c r; curve n; output n; work ZAHUPNIK_LEAST_WORK or more.
 * Refuses with MODULUS 3, LENGTHS 4, ROWS 5, CURVE_LENGTH 6, OUTPUT_LENGTH 7, WORK_TOO_SHORT 8, ENTRY 9, A_ZERO 17, A_INVERSE 10, C_ZERO
 * 18, C_INVERSE 11, CURVE_ENTRY 12. */
ZAHUPNIK_ANSWERS ZAHUPNIK_READS(2, 3) ZAHUPNIK_READS(4, 5) ZAHUPNIK_READS(6, 7) ZAHUPNIK_READS(8, 9) ZAHUPNIK_WRITES(10, 11)
ZAHUPNIK_WRITES(12, 13)
uint32_t zahupnik_tree_expand(uint32_t m, const uint32_t *a, size_t a_length, const uint32_t *b, size_t b_length,
                              const uint32_t *c, size_t c_length, const uint32_t *curve, size_t curve_length,
                              uint32_t *output, size_t output_length, uint32_t *work, size_t work_length);

/* Adjoint by the subproduct tree: output becomes what zahupnik_plain_adjoint makes it.
 * Lengths: a, b, c r; curve n; output n; work ZAHUPNIK_LEAST_WORK or more.
 * Refuses with MODULUS 3, LENGTHS 4, ROWS 5, CURVE_LENGTH 6, OUTPUT_LENGTH 7, WORK_TOO_SHORT 8, ENTRY 9, A_ZERO 17, A_INVERSE 10, C_ZERO
 * 18, C_INVERSE 11, CURVE_ENTRY 12. */
ZAHUPNIK_ANSWERS ZAHUPNIK_READS(2, 3) ZAHUPNIK_READS(4, 5) ZAHUPNIK_READS(6, 7) ZAHUPNIK_READS(8, 9) ZAHUPNIK_WRITES(10, 11)
ZAHUPNIK_WRITES(12, 13)
uint32_t zahupnik_tree_adjoint(uint32_t m, const uint32_t *a, size_t a_length, const uint32_t *b, size_t b_length,
                               const uint32_t *c, size_t c_length, const uint32_t *curve, size_t curve_length,
                               uint32_t *output, size_t output_length, uint32_t *work, size_t work_length);

/* Decompose by the subproduct tree: output becomes what zahupnik_plain_decompose makes it.
 * Lengths: a, b, c r; coefficients n; output n; work ZAHUPNIK_LEAST_WORK or more.
 * Refuses with MODULUS 3, LENGTHS 4, ROWS 5, CURVE_LENGTH 6, OUTPUT_LENGTH 7, WORK_TOO_SHORT 8, ENTRY 9, A_ZERO 17, A_INVERSE 10, C_ZERO
 * 18, C_INVERSE 11, CURVE_ENTRY 12. */
ZAHUPNIK_ANSWERS ZAHUPNIK_READS(2, 3) ZAHUPNIK_READS(4, 5) ZAHUPNIK_READS(6, 7) ZAHUPNIK_READS(8, 9) ZAHUPNIK_WRITES(10, 11)
ZAHUPNIK_WRITES(12, 13)
uint32_t zahupnik_tree_decompose(uint32_t m, const uint32_t *a, size_t a_length, const uint32_t *b, size_t b_length,
                                 const uint32_t *c, size_t c_length, const uint32_t *coefficients,
                                 size_t coefficients_length, uint32_t *output, size_t output_length, uint32_t *work,
                                 size_t work_length);

/* Moments: output[k] becomes the coefficient of x^k in the power series rev(G_{n-1}, n) / rev(F_n, n + 1), for k from 0 to 2n - 2,
 * where rev(P, k) = x^(k-1) P(1/x), row n, the closing row, is 1 1 1, and G is F begun with row 2: G_{-1} = 0, G_0 = 1 and
 * G_i = (a_{i+1} x + b_{i+1}) G_{i-1} + c_{i+1} G_{i-2}.
 * The product law: if Expand turns the curves u and v into s and t, then modulo m the sum over k of output[k] times the
 * coefficient of x^k in the product of s and t is the sum over i of u[i] v[i] d[i], where d is what zahupnik_norms gives.
 * Lengths: a, b, c r; output 2n - 1; work ZAHUPNIK_LEAST_WORK or more.
 * Refuses with MODULUS 3, LENGTHS 4, ROWS 5, OUTPUT_LENGTH 7, WORK_TOO_SHORT 8, ENTRY 9, A_ZERO 17, A_INVERSE 10, C_ZERO 18,
 * C_INVERSE 11. */
ZAHUPNIK_ANSWERS ZAHUPNIK_READS(2, 3) ZAHUPNIK_READS(4, 5) ZAHUPNIK_READS(6, 7) ZAHUPNIK_WRITES(8, 9) ZAHUPNIK_WRITES(10, 11)
uint32_t zahupnik_moments(uint32_t m, const uint32_t *a, size_t a_length, const uint32_t *b, size_t b_length,
                          const uint32_t *c, size_t c_length, uint32_t *output, size_t output_length, uint32_t *work,
                          size_t work_length);

/* The text call: does the job that stands in a text, by the tree way; output becomes the answer text and *length its length. What
 * output holds past the answer text is untouched.
 * A job text is six lines, each ended by byte 10: mod= and m; a=, b= and c= with the rows; op= and expand, adjoint, decompose,
 * moments or norms; v= with the curve, which is empty for moments and norms. Between two numbers stands one space. A number is
 * decimal, without a leading zero (0 itself excepted), at most 4294967295. Nothing else may follow.
 * An answer text is two lines: op= and the operation; out= and the result. It has no zero byte at its end.
 * Lengths: text ZAHUPNIK_MOST_TEXT or less; output ZAHUPNIK_LEAST_TEXT_OUTPUT or more; work ZAHUPNIK_LEAST_WORK or more.
 * Refuses with TEXT_TOO_LONG 1, TEXT_FORM 2, MODULUS 3, LENGTHS 4, ROWS 5, CURVE_LENGTH 6, OUTPUT_LENGTH 7, WORK_TOO_SHORT 8, ENTRY 9,
 * A_ZERO 17, A_INVERSE 10, C_ZERO 18, C_INVERSE 11, CURVE_ENTRY 12. */
ZAHUPNIK_ANSWERS ZAHUPNIK_READS(1, 2) ZAHUPNIK_WRITES(3, 4) ZAHUPNIK_WRITES(5, 6) ZAHUPNIK_WRITES_ONE(7)
uint32_t zahupnik_convert_text(const uint8_t *text, size_t text_length, uint8_t *output, size_t output_length, uint32_t *work,
                               size_t work_length, uint32_t *length);

/* Writes a job: output becomes the job text that says m, the rows, the operation (one of ZAHUPNIK_EXPAND to ZAHUPNIK_NORMS) and the
 * curve, or for ZAHUPNIK_DECOMPOSE the coefficients, in the form that zahupnik_convert_text takes, and *length its length, 5635 at
 * most. What output holds past the text is untouched, and no part of it: the text has no zero byte at its end. A job that is written
 * is carried out: on these *length bytes zahupnik_convert_text, lent what it asks for, finishes, and its answer is that operation's
 * result on these very lists.
 * Lengths: a, b, c r; curve n, and 0 for ZAHUPNIK_MOMENTS and ZAHUPNIK_NORMS; output ZAHUPNIK_LEAST_JOB_OUTPUT or more.
 * Refuses with TEXT_FORM 2, MODULUS 3, LENGTHS 4, ROWS 5, CURVE_LENGTH 6, OUTPUT_LENGTH 7, ENTRY 9, A_ZERO 17, A_INVERSE 10, C_ZERO 18,
 * C_INVERSE 11, CURVE_ENTRY 12. It is 2 if the operation is none of the five. */
ZAHUPNIK_ANSWERS ZAHUPNIK_READS(2, 3) ZAHUPNIK_READS(4, 5) ZAHUPNIK_READS(6, 7) ZAHUPNIK_READS(9, 10) ZAHUPNIK_WRITES(11, 12)
ZAHUPNIK_WRITES_ONE(13)
uint32_t zahupnik_write_job(uint32_t m, const uint32_t *a, size_t a_length, const uint32_t *b, size_t b_length,
                            const uint32_t *c, size_t c_length, uint32_t operation, const uint32_t *curve, size_t curve_length,
                            uint8_t *output, size_t output_length, uint32_t *length);

/* A prepared family: the rows with their inverses and the norms, worked out once. It holds
 *     modulus      m
 *     rows         r, from 0 to ZAHUPNIK_MOST_ROWS
 *     a, b, c      row i at index i - 1
 *     a_inverses   at index i - 1 the inverse of a_i modulo m
 *     c_inverses   at index i - 1 the inverse of c_i, and 0 for c_1, which needs none
 *     norms        the n numbers of zahupnik_norms
 * and zeros in every place past these. A record that holds anything else, or whose rows zahupnik_norms would refuse, is not right.
 * It is a plain struct of numbers in this machine's byte order, without a pointer and without padding: whoever likes may copy it, compare it
 * byte for byte, store it or send it. Nobody is trusted with it: every function that takes one tests all of it, and refuses with 14 where
 * it is not right. That is no checksum: a record that was changed into the right one of another family is taken. Another number below m
 * for the b of one of its rows, or for c_1 where it has a row, always makes such a one, and another m may.
 * Whether a record is right, and nothing else: zahupnik_prepared_norms(family, NULL, 0) returns 7 if it is, since no list of norms is empty,
 * and 14 if it is not. Whether its rows are at fault, and by what: zahupnik_norms on its m, its rows and an output of n numbers says so, if
 * it has no more than ZAHUPNIK_MOST_ROWS. */
struct zahupnik_prepared {
    uint32_t modulus, rows;
    uint32_t a[ZAHUPNIK_MOST_ROWS], b[ZAHUPNIK_MOST_ROWS], c[ZAHUPNIK_MOST_ROWS];
    uint32_t a_inverses[ZAHUPNIK_MOST_ROWS], c_inverses[ZAHUPNIK_MOST_ROWS];
    uint32_t norms[ZAHUPNIK_MOST_ROWS + 1];
};

/* What a change returns: its number, and the record after it. When it refuses, the record is the one that it was handed, whatever that
 * holds: so look at the number before the next change, or a row that was refused is missing and nothing says so later. */
struct zahupnik_change {
    uint32_t answer;
    struct zahupnik_prepared family;
};

/* The record of the family without rows.
 * Refuses with MODULUS 3, and then the record is all zeros. */
ZAHUPNIK_ANSWERS
struct zahupnik_change zahupnik_prepared_empty(uint32_t m);

/* The record with the row a, b, c behind its last.
 * Refuses with RECORD 14, ROWS 5, ENTRY 9, A_ZERO 17, A_INVERSE 10, C_ZERO 18, C_INVERSE 11; 5 and those after it are of the new row, and
 * 18 and 11 pass over it where it is row 1. */
ZAHUPNIK_ANSWERS
struct zahupnik_change zahupnik_prepared_append(struct zahupnik_prepared family, uint32_t a, uint32_t b, uint32_t c);

/* The record without its last row. After an append it is the record before it.
 * Refuses with RECORD 14, NO_ROWS 15. */
ZAHUPNIK_ANSWERS
struct zahupnik_change zahupnik_prepared_drop_last(struct zahupnik_prepared family);

/* The record with a, b, c in the place of a row, counted from 1. With the old row put back it is the old record.
 * Refuses with RECORD 14, ABSENT_ROW 16, ENTRY 9, A_ZERO 17, A_INVERSE 10, C_ZERO 18, C_INVERSE 11; 9 and those after it are of the new
 * row, and 18 and 11 pass over it where it is row 1. */
ZAHUPNIK_ANSWERS
struct zahupnik_change zahupnik_prepared_replace(struct zahupnik_prepared family, uint32_t row, uint32_t a, uint32_t b, uint32_t c);

/* The conversions, Norms and Moments on a record: output and work become what the function of the same name without prepared_ makes them
 * with the record's m and its r numbers of a, of b and of c. r is family.rows, and n is r + 1. */

/* Lengths: curve or coefficients n; output n.
 * Refuse with RECORD 14, CURVE_LENGTH 6, OUTPUT_LENGTH 7, CURVE_ENTRY 12. */
ZAHUPNIK_ANSWERS ZAHUPNIK_READS(2, 3) ZAHUPNIK_WRITES(4, 5)
uint32_t zahupnik_prepared_plain_expand(struct zahupnik_prepared family, const uint32_t *curve, size_t curve_length,
                                        uint32_t *output, size_t output_length);
ZAHUPNIK_ANSWERS ZAHUPNIK_READS(2, 3) ZAHUPNIK_WRITES(4, 5)
uint32_t zahupnik_prepared_plain_adjoint(struct zahupnik_prepared family, const uint32_t *curve, size_t curve_length,
                                         uint32_t *output, size_t output_length);
ZAHUPNIK_ANSWERS ZAHUPNIK_READS(2, 3) ZAHUPNIK_WRITES(4, 5)
uint32_t zahupnik_prepared_plain_decompose(struct zahupnik_prepared family, const uint32_t *coefficients, size_t coefficients_length,
                                           uint32_t *output, size_t output_length);

/* Length: output n.
 * Refuses with RECORD 14, OUTPUT_LENGTH 7. */
ZAHUPNIK_ANSWERS ZAHUPNIK_WRITES(2, 3)
uint32_t zahupnik_prepared_norms(struct zahupnik_prepared family, uint32_t *output, size_t output_length);

/* Lengths: curve or coefficients n; output n; work ZAHUPNIK_LEAST_WORK or more.
 * Refuse with RECORD 14, CURVE_LENGTH 6, OUTPUT_LENGTH 7, WORK_TOO_SHORT 8, CURVE_ENTRY 12. */
ZAHUPNIK_ANSWERS ZAHUPNIK_READS(2, 3) ZAHUPNIK_WRITES(4, 5) ZAHUPNIK_WRITES(6, 7)
uint32_t zahupnik_prepared_tree_expand(struct zahupnik_prepared family, const uint32_t *curve, size_t curve_length,
                                       uint32_t *output, size_t output_length, uint32_t *work, size_t work_length);
ZAHUPNIK_ANSWERS ZAHUPNIK_READS(2, 3) ZAHUPNIK_WRITES(4, 5) ZAHUPNIK_WRITES(6, 7)
uint32_t zahupnik_prepared_tree_adjoint(struct zahupnik_prepared family, const uint32_t *curve, size_t curve_length,
                                        uint32_t *output, size_t output_length, uint32_t *work, size_t work_length);
ZAHUPNIK_ANSWERS ZAHUPNIK_READS(2, 3) ZAHUPNIK_WRITES(4, 5) ZAHUPNIK_WRITES(6, 7)
uint32_t zahupnik_prepared_tree_decompose(struct zahupnik_prepared family, const uint32_t *coefficients, size_t coefficients_length,
                                          uint32_t *output, size_t output_length, uint32_t *work, size_t work_length);

/* Lengths: output 2n - 1; work ZAHUPNIK_LEAST_WORK or more.
 * Refuses with RECORD 14, OUTPUT_LENGTH 7, WORK_TOO_SHORT 8. */
ZAHUPNIK_ANSWERS ZAHUPNIK_WRITES(2, 3) ZAHUPNIK_WRITES(4, 5)
uint32_t zahupnik_prepared_moments(struct zahupnik_prepared family, uint32_t *output, size_t output_length, uint32_t *work,
                                   size_t work_length);

/* Two channels, that is two moduli, m1 and m2, without a common factor greater than 1. For every two remainders there is exactly one whole
 * number v that leaves the first modulo m1 and the second modulo m2 and has 2 v greater than -(m1 m2) and at most m1 m2 (the range): the
 * joined value. Where m1 m2 is even, its half is a joined value, and the negative of its half is none. A joined value is never below
 * -2305843005992468480 nor above 2305843005992468481. Of 3, 12, 17, 10, 18 and 11 the number does not say which of the two it was. Whether
 * 17, 10, 18 or 11 was of m1: zahupnik_norms on m1, the remainders of the rows modulo m1 and an output of n numbers returns the same number
 * if it was, and another if it was of m2. */

/* Join: output[i] becomes the joined value of first[i] modulo m1 and second[i] modulo m2. Lengths: first and second the same, any;
 * output the same.
 * Refuses with MODULUS 3, MODULUS 3, SHARED_FACTOR 19, REMAINDERS 20, OUTPUT_LENGTH 7, CURVE_ENTRY 12, CURVE_ENTRY 12: 3 of m1 and then of
 * m2, 12 of first, all of it, and then of second. */
ZAHUPNIK_ANSWERS ZAHUPNIK_READS(3, 4) ZAHUPNIK_READS(5, 6) ZAHUPNIK_WRITES(7, 8)
uint32_t zahupnik_join(uint32_t m1, uint32_t m2, const uint32_t *first, size_t first_length, const uint32_t *second,
                       size_t second_length, int64_t *output, size_t output_length);

/* Expand and join: rows and curve are whole numbers with a sign, any that the type holds, and each channel takes their remainders; c_1 may
 * be any of them. output[k] becomes the joined value of two remainders: what zahupnik_plain_expand writes at k for m1 and the remainders of
 * rows and curve modulo m1, and what it writes there for m2 and those modulo m2. So where the coefficient of x^k in the sum over i of
 * curve[i] F_i, over the whole numbers, is in the range, output[k] is that coefficient; where it is not, output[k] differs from it by a
 * multiple of m1 m2, and nothing says so. Row by row. Lengths: a, b, c r; curve n; output n.
 * Refuses with MODULUS 3, MODULUS 3, SHARED_FACTOR 19, LENGTHS 4, ROWS 5, CURVE_LENGTH 6, OUTPUT_LENGTH 7, A_ZERO 17, A_INVERSE 10, A_ZERO
 * 17, A_INVERSE 10, C_ZERO 18, C_INVERSE 11, C_ZERO 18, C_INVERSE 11: 3 of m1 and then of m2; 17 and 10 of the remainders modulo m1 and
 * then modulo m2, and likewise 18 and 11. */
ZAHUPNIK_ANSWERS ZAHUPNIK_READS(3, 4) ZAHUPNIK_READS(5, 6) ZAHUPNIK_READS(7, 8) ZAHUPNIK_READS(9, 10) ZAHUPNIK_WRITES(11, 12)
uint32_t zahupnik_expand_join(uint32_t m1, uint32_t m2, const int32_t *a, size_t a_length, const int32_t *b, size_t b_length,
                              const int32_t *c, size_t c_length, const int32_t *curve, size_t curve_length,
                              int64_t *output, size_t output_length);

/* Even powers first, as a store of expanded curves keeps them: the entries of a list at even indices rising, then those at odd indices
 * rising; and the way back. The numbers are any of 32 bits. Quotients are rounded down, and `half` is (list_length + 1) / 2: how many
 * indices are even. Of what either function writes the other makes the list again. Where every b of a family is zero, F_0 to F_r have
 * only even powers for an even index and only odd ones for an odd one. So where a curve is expanded on such a family and put even powers
 * first, the entries from `half` on are zero if the curve's entries at odd indices are, and those before `half` are zero if the curve's
 * entries at even indices are.
 * Lengths: list at most ZAHUPNIK_MOST_ENTRIES, 0 too; output the same. The output overlaps the list nowhere.
 * Refuse with ROWS 5, OUTPUT_LENGTH 7. */

/* Even first: list[i] goes to output[i / 2] for an even i, and to output[half + i / 2] for an odd i. */
ZAHUPNIK_ANSWERS ZAHUPNIK_READS(1, 2) ZAHUPNIK_WRITES(3, 4)
uint32_t zahupnik_even_first(const uint32_t *list, size_t list_length, uint32_t *output, size_t output_length);

/* Even back: output[i] becomes list[i / 2] for an even i, and list[half + i / 2] for an odd i. */
ZAHUPNIK_ANSWERS ZAHUPNIK_READS(1, 2) ZAHUPNIK_WRITES(3, 4)
uint32_t zahupnik_even_back(const uint32_t *list, size_t list_length, uint32_t *output, size_t output_length);

#undef ZAHUPNIK_ANSWERS
#undef ZAHUPNIK_READS
#undef ZAHUPNIK_WRITES
#undef ZAHUPNIK_WRITES_ONE

#ifdef __cplusplus
}
#endif

#endif
