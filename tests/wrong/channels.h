/* Hollow and wrong versions of the calls on two channels, each made of the model's tests, of the joined value once more, and of the right call.
 */
#ifndef CHANNELS_H
#define CHANNELS_H

#include "version.h"

/* The answer and what is written. */
#define HOLLOW_CHANNELS(VERSION)                                                                       \
    VERSION(refuses, "refuses whatever it is lent", ON_TWO_CHANNELS)                                   \
    VERSION(last_untried, "its last refusal untried", ON_TWO_CHANNELS)                                 \
    VERSION(finishes, "no refusal told", ON_TWO_CHANNELS)                                              \
    VERSION(constant, "a constant", ON_TWO_CHANNELS)                                                   \
    VERSION(figures_only, "right on the figures alone", ON_TWO_CHANNELS)                               \
    VERSION(copied, "a copy of the first list, or of the curve", ON_TWO_CHANNELS)                      \
    VERSION(untouched, "an untouched output", ON_TWO_CHANNELS)                                         \
    VERSION(touched, "an output touched by a refusal", ON_TWO_CHANNELS)                                \
    VERSION(last_left, "the last number left as it was", ON_TWO_CHANNELS)                              \
    VERSION(in_reverse, "the list from its end", ON_TWO_CHANNELS)

/* The channel numbers. */
#define CHANNEL_NUMBERS(VERSION)                                                                       \
    VERSION(m1_untested, "3 of m1 untested", ON_TWO_CHANNELS)                                          \
    VERSION(m2_untested, "3 of m2 untested", ON_TWO_CHANNELS)                                          \
    VERSION(m1_of_1_taken, "m1 = 1 taken", ON_TWO_CHANNELS)                                            \
    VERSION(m2_of_1_taken, "m2 = 1 taken", ON_TWO_CHANNELS)                                            \
    VERSION(m1_of_2_refused, "m1 = 2 refused", ON_TWO_CHANNELS)                                        \
    VERSION(m2_of_2_refused, "m2 = 2 refused", ON_TWO_CHANNELS)                                        \
    VERSION(m1_past_taken, "m1 = 2147483648 taken", ON_TWO_CHANNELS)                                   \
    VERSION(m2_past_taken, "m2 = 2147483648 taken", ON_TWO_CHANNELS)                                   \
    VERSION(m1_greatest_refused, "m1 = 2147483647 refused", ON_TWO_CHANNELS)                           \
    VERSION(m2_greatest_refused, "m2 = 2147483647 refused", ON_TWO_CHANNELS)                           \
    VERSION(shared_untested, "19 untested", ON_TWO_CHANNELS)                                           \
    VERSION(shared_if_equal, "19 only if m1 is m2", ON_TWO_CHANNELS)                                   \
    VERSION(shared_if_divides, "19 only if one divides the other", ON_TWO_CHANNELS)                    \
    VERSION(shared_if_even, "19 only if both are even", ON_TWO_CHANNELS)                               \
    VERSION(shared_unless_prime, "19 unless both are prime", ON_TWO_CHANNELS)                          \
    VERSION(shared_as_20, "20 for 19, 19 for 20", ON_TWO_CHANNELS)                                     \
    VERSION(shared_as_13, "13 for 19", ON_TWO_CHANNELS)

/* The order of the tests, and those left out. */
#define CHANNEL_TESTS(VERSION)                                                                         \
    VERSION(shared_before_m1, "19 tested before both 3", ON_TWO_CHANNELS)                              \
    VERSION(shared_before_m2, "19 tested before the second 3", ON_TWO_CHANNELS)                        \
    VERSION(m1_last, "3 of m1 tested last", ON_TWO_CHANNELS)                                           \
    VERSION(m2_last, "3 of m2 tested last", ON_TWO_CHANNELS)                                           \
    VERSION(m2_after_lengths, "3 of m2 tested after the lengths", ON_TWO_CHANNELS)                     \
    VERSION(lengths_before_shared, "20, or 4, tested before 19", ON_TWO_CHANNELS)                      \
    VERSION(shared_last, "19 tested last", ON_TWO_CHANNELS)                                            \
    VERSION(output_before_shared, "7 tested before 19", ON_TWO_CHANNELS)                               \
    VERSION(output_before_lengths, "7 tested before 20, or before 4", ON_TWO_CHANNELS)                 \
    VERSION(output_untested, "7 untested", ON_TWO_CHANNELS)                                            \
    VERSION(output_longer, "a longer output taken", ON_TWO_CHANNELS)                                   \
    VERSION(output_shorter, "a shorter output filled", ON_TWO_CHANNELS)                                \
    VERSION(output_last, "7 tested last", ON_TWO_CHANNELS)                                             \
    VERSION(lengths_as_other, "4 for 20, 20 for 4", ON_TWO_CHANNELS)                                   \
    VERSION(shorter_list, "20 untested: it stops at the shorter list", JOIN)                           \
    VERSION(longer_second, "a longer second list taken", JOIN)                                         \
    VERSION(longer_first, "a longer first list taken, up to the second", JOIN)                         \
    VERSION(output_of_second, "7 against the second list, before 20", JOIN)                            \
    VERSION(entries_before_output, "12 tested before 7", JOIN)                                         \
    VERSION(entries_before_20, "12 tested before 20", JOIN)                                            \
    VERSION(second_before_output, "12 of the second list tested before 7", JOIN)                       \
    VERSION(second_before_20, "12 of the second list tested before 20", JOIN)                          \
    VERSION(second_before_shared, "12 of the second list tested before 19", JOIN)                      \
    VERSION(entries_untested, "12 untested", JOIN)                                                     \
    VERSION(first_untested, "12 of the first list untested", JOIN)                                     \
    VERSION(second_untested, "12 of the second list untested", JOIN)                                   \
    VERSION(entries_swapped, "12 by the other channel number", JOIN)                                   \
    VERSION(entries_by_greater, "12 by the greater channel number", JOIN)                              \
    VERSION(entry_of_m_taken, "12 above m only: m itself taken", JOIN)                                 \
    VERSION(last_entry_untested, "12 passes over the last remainders", JOIN)                           \
    VERSION(more_than_128, "more than 128 remainders refused with 5", JOIN)                            \
    VERSION(none_refused, "no remainders refused with 20", JOIN)                                       \
    VERSION(rows_before_lengths, "5 tested before 4", EXPAND_JOIN)                                     \
    VERSION(curve_before_rows, "6 tested before 5", EXPAND_JOIN)                                       \
    VERSION(curve_before_lengths, "6 tested before 4", EXPAND_JOIN)                                    \
    VERSION(output_before_rows, "7 tested before 5", EXPAND_JOIN)                                      \
    VERSION(output_before_curve, "7 tested before 6", EXPAND_JOIN)                                     \
    VERSION(lengths_untested, "4 untested", EXPAND_JOIN)                                               \
    VERSION(rows_untested, "5 untested", EXPAND_JOIN)                                                  \
    VERSION(rows_127_refused, "127 rows refused", EXPAND_JOIN)                                         \
    VERSION(curve_untested, "6 untested", EXPAND_JOIN)                                                 \
    VERSION(rows_before_output, "17 and 10 tested before 7", EXPAND_JOIN)                              \
    VERSION(rows_before_curve, "17, 10, 18 and 11 tested before 6", EXPAND_JOIN)                       \
    VERSION(entries_asked, "9 and 12 for what is not below m", EXPAND_JOIN)                            \
    VERSION(range_asked, "12 if a true coefficient is out of range", EXPAND_JOIN)

/* Of rows without an inverse: which of 17, 10, 18 and 11. */
#define CHANNEL_REASONS(VERSION)                                                                       \
    VERSION(a_second_first, "17 and 10 of the second channel first", EXPAND_JOIN)                      \
    VERSION(c_second_first, "18 and 11 of the second channel first", EXPAND_JOIN)                      \
    VERSION(channel_by_channel, "18 and 11 of the first before 17 and 10 of the second", EXPAND_JOIN)  \
    VERSION(second_channel_first, "the second channel before the first", EXPAND_JOIN)                  \
    VERSION(c_before_a, "18 and 11 tested before 17 and 10", EXPAND_JOIN)                              \
    VERSION(zeros_before_factors, "17 of the second tested before 10 of the first", EXPAND_JOIN)       \
    VERSION(c_zeros_before_factors, "18 of the second tested before 11 of the first", EXPAND_JOIN)     \
    VERSION(lowest_of_both, "17 and 10 by the lowest row of both channels", EXPAND_JOIN)               \
    VERSION(c_lowest_of_both, "18 and 11 by the lowest row of both channels", EXPAND_JOIN)             \
    VERSION(row_by_row, "17, 10, 18 and 11 tested row by row", EXPAND_JOIN)                            \
    VERSION(a_zero_untold_first, "10 for zero too on the first channel", EXPAND_JOIN)                  \
    VERSION(a_zero_untold_second, "10 for zero too on the second channel", EXPAND_JOIN)                \
    VERSION(c_zero_untold_first, "11 for zero too on the first channel", EXPAND_JOIN)                  \
    VERSION(c_zero_untold_second, "11 for zero too on the second channel", EXPAND_JOIN)                \
    VERSION(a_zero_by_number, "17 for an a that is 0 itself alone", EXPAND_JOIN)                       \
    VERSION(c_zero_by_number, "18 for a c that is 0 itself alone", EXPAND_JOIN)                        \
    VERSION(a_zero_on_both, "17 for an a that is 0 on both channels alone", EXPAND_JOIN)               \
    VERSION(c_zero_on_both, "18 for a c that is 0 on both channels alone", EXPAND_JOIN)                \
    VERSION(a_highest, "17 or 10 by the highest row", EXPAND_JOIN)                                     \
    VERSION(c_highest, "18 or 11 by the highest row", EXPAND_JOIN)                                     \
    VERSION(a_highest_second, "17 or 10 by the highest row, second channel", EXPAND_JOIN)              \
    VERSION(c_highest_second, "18 or 11 by the highest row, second channel", EXPAND_JOIN)              \
    VERSION(a_zero_anywhere, "17 for a zero a, whichever row is lowest", EXPAND_JOIN)                  \
    VERSION(c_zero_anywhere, "18 for a zero c, whichever row is lowest", EXPAND_JOIN)                  \
    VERSION(a_swapped, "17 for a shared factor, 10 for zero", EXPAND_JOIN)                             \
    VERSION(c_swapped, "18 for a shared factor, 11 for zero", EXPAND_JOIN)                             \
    VERSION(c_1_asked, "18 and 11 from row 1 on", EXPAND_JOIN)                                         \
    VERSION(c_1_asked_second, "18 and 11 from row 1 on, second channel", EXPAND_JOIN)                  \
    VERSION(c_2_not_asked, "18 and 11 from row 3 on", EXPAND_JOIN)                                     \
    VERSION(a_1_not_asked, "17 and 10 from row 2 on", EXPAND_JOIN)                                     \
    VERSION(a_first_untested, "17 and 10 of the first channel untested", EXPAND_JOIN)                  \
    VERSION(a_second_untested, "17 and 10 of the second channel untested", EXPAND_JOIN)                \
    VERSION(c_first_untested, "18 and 11 of the first channel untested", EXPAND_JOIN)                  \
    VERSION(c_second_untested, "18 and 11 of the second channel untested", EXPAND_JOIN)                \
    VERSION(non_zero, "non-zero for invertible", EXPAND_JOIN)                                          \
    VERSION(non_zero_second, "non-zero for invertible, second channel", EXPAND_JOIN)

/* The joined value. */
#define JOINED_VALUES(VERSION)                                                                         \
    VERSION(half_negative, "half taken to the negative side", ON_TWO_CHANNELS)                         \
    VERSION(past_half, "the number after half left positive", ON_TWO_CHANNELS)                         \
    VERSION(greatest_negative, "the greatest value taken to the negative side", ON_TWO_CHANNELS)       \
    VERSION(never_negative, "always from 0 to m1 m2 - 1", ON_TWO_CHANNELS)                             \
    VERSION(never_positive, "always from 1 - m1 m2 to 0", ON_TWO_CHANNELS)                             \
    VERSION(sign_lost, "its sign lost", ON_TWO_CHANNELS)                                               \
    VERSION(channels_swapped, "the lists swapped, not the channels", ON_TWO_CHANNELS)                  \
    VERSION(inverse_of_m2, "the inverse of m2 modulo m1", ON_TWO_CHANNELS)                             \
    VERSION(inverse_left_out, "no inverse of m1 modulo m2", ON_TWO_CHANNELS)                           \
    VERSION(product_wraps_32, "m1 times its factor wraps at 32 bits", ON_TWO_CHANNELS)                 \
    VERSION(product_wraps_64, "the sum of two products wraps at 64 bits", ON_TWO_CHANNELS)             \
    VERSION(factor_wraps_32, "the product with the inverse wraps at 32 bits", ON_TWO_CHANNELS)         \
    VERSION(m1_m2_wraps_32, "m1 m2 wraps at 32 bits", ON_TWO_CHANNELS)                                 \
    VERSION(difference_wraps, "the difference wraps at 32 bits", ON_TWO_CHANNELS)                      \
    VERSION(difference_negative, "a negative difference not lifted", ON_TWO_CHANNELS)                  \
    VERSION(by_doubles, "a value of 53 bits", ON_TWO_CHANNELS)                                         \
    VERSION(low_32_bits, "a value of 32 bits", ON_TWO_CHANNELS)                                        \
    VERSION(first_channel_alone, "the first channel alone", ON_TWO_CHANNELS)                           \
    VERSION(second_channel_alone, "the second channel alone", ON_TWO_CHANNELS)

/* The remainders of rows and curve, and what is expanded. */
#define CHANNEL_REMAINDERS(VERSION)                                                                    \
    VERSION(c_remainder, "a negative remainder, as C has it", EXPAND_JOIN)                             \
    VERSION(sign_dropped, "a number's sign lost", EXPAND_JOIN)                                         \
    VERSION(as_unsigned, "a number without a sign", EXPAND_JOIN)                                       \
    VERSION(min_negated, "-2147483648 negated: itself with no sign", EXPAND_JOIN)                      \
    VERSION(min_raised, "-2147483648 taken for -2147483647", EXPAND_JOIN)                              \
    VERSION(off_by_one, "negative numbers one too low", EXPAND_JOIN)                                   \
    VERSION(multiple_as_m, "m for a negative multiple of it", EXPAND_JOIN)                             \
    VERSION(reduced_by_m1, "reduced modulo m1 only, then m2", EXPAND_JOIN)                             \
    VERSION(sixteen_bits, "numbers of 16 bits", EXPAND_JOIN)                                           \
    VERSION(curve_by_m1, "the curve reduced modulo m1 only, then m2", EXPAND_JOIN)                     \
    VERSION(curve_as_unsigned, "the curve without a sign", EXPAND_JOIN)                                \
    VERSION(as_adjoint, "Adjoint's list", EXPAND_JOIN)                                                 \
    VERSION(b_and_c_swapped, "b for c and c for b", EXPAND_JOIN)                                       \
    VERSION(wraps_64, "coefficients of 64 bits, with no channels", EXPAND_JOIN)                        \
    VERSION(zeros_out_of_range, "zeros if a true coefficient is out of range", EXPAND_JOIN)

#define ALL_CHANNELS(VERSION) \
    HOLLOW_CHANNELS(VERSION)  \
    CHANNEL_NUMBERS(VERSION)  \
    CHANNEL_TESTS(VERSION)    \
    CHANNEL_REASONS(VERSION)  \
    JOINED_VALUES(VERSION)    \
    CHANNEL_REMAINDERS(VERSION)

#define CHANNELS_DECLARED(name, what, calls) uint32_t channels_##name(const struct joining_call *call);
ALL_CHANNELS(CHANNELS_DECLARED)

/* The model in the call's place: the control. */
uint32_t channels_without_a_slip(const struct joining_call *call);

/* ---- what they are made of */

/* The joined value of two remainders, or a wrong one. It is a number for all that is lent: with no channel number and for remainders that
 * are too great as well. */
typedef int64_t value(const uint32_t m[CHANNELS], uint32_t first, uint32_t second);
value right_value;

/* Writes the list that a call has to hand out, by a value, whatever tests it passed: as many numbers as there are, and as there is room for. */
void write_values(const struct joining_call *call, value *value);

#endif
