/* Hollow and wrong versions of the calls that order a list by even and odd indices, each made of the model, of where an index stands, and
 * of the right call. What is said of places and indices is of even_first; even_back goes the same wrong way back.
 */
#ifndef ORDERS_H
#define ORDERS_H

#include "version.h"

/* The answer and what is written. */
#define HOLLOW_ORDERS(VERSION)                                                                         \
    VERSION(refuses, "refuses whatever it is lent", ORDERS)                                            \
    VERSION(last_untried, "its last refusal untried", ORDERS)                                          \
    VERSION(finishes, "no refusal told", ORDERS)                                                       \
    VERSION(constant, "a constant", ORDERS)                                                            \
    VERSION(figures_only, "right on the figures alone", ORDERS)                                        \
    VERSION(untouched, "an untouched output", ORDERS)                                                  \
    VERSION(touched, "an output touched by a refusal", ORDERS)                                         \
    VERSION(touched_by_5, "the first 128 numbers written with 5", ORDERS)                              \
    VERSION(touched_by_7, "as much as fits written with 7", ORDERS)                                    \
    VERSION(partly_by_7, "the even indices written with 7", ORDERS)

/* Which of 5 and 7, and for what. */
#define ORDER_TESTS(VERSION)                                                                           \
    VERSION(length_untested, "5 untested", ORDERS)                                                     \
    VERSION(limit_127, "128 numbers refused", ORDERS)                                                  \
    VERSION(limit_129, "129 numbers taken", ORDERS)                                                    \
    VERSION(cut_to_128, "of more than 128 numbers the first 128 taken", ORDERS)                        \
    VERSION(limit_of_output, "5 by the length of the output", ORDERS)                                  \
    VERSION(length_of_8_bits, "the list's length taken for 8 bits", ORDERS)                            \
    VERSION(output_of_8_bits, "the output's length taken for 8 bits", ORDERS)                          \
    VERSION(none_refused, "no numbers refused with 6", ORDERS)                                         \
    VERSION(output_untested, "7 untested", ORDERS)                                                     \
    VERSION(output_longer, "a longer output taken", ORDERS)                                            \
    VERSION(output_shorter, "a shorter output filled", ORDERS)                                         \
    VERSION(output_first, "7 tested before 5", ORDERS)                                                 \
    VERSION(swapped, "5 for 7, 7 for 5", ORDERS)                                                       \
    VERSION(length_as_6, "6 for 5", ORDERS)                                                            \
    VERSION(output_as_6, "6 for 7", ORDERS)                                                            \
    VERSION(numbers_asked, "12 for 2147483647 and what is greater", ORDERS)

/* Where an entry stands. */
#define ORDER_PLACES(VERSION)                                                                          \
    VERSION(copied, "a copy of the list", ORDERS)                                                      \
    VERSION(odd_first, "odd indices first", ORDERS)                                                    \
    VERSION(even_falling, "even indices falling", ORDERS)                                              \
    VERSION(odd_falling, "odd indices falling", ORDERS)                                                \
    VERSION(both_falling, "even and odd indices falling", ORDERS)                                      \
    VERSION(in_reverse, "the places from the end", ORDERS)                                             \
    VERSION(indices_in_reverse, "the indices from the end", ORDERS)                                    \
    VERSION(last_even_last, "of an odd length the last index at the end", ORDERS)                      \
    VERSION(half_down, "half rounded down", ORDERS)                                                    \
    VERSION(half_up, "half one more for an even length", ORDERS)                                       \
    VERSION(odd_part_late, "the odd part one place late", ORDERS)                                      \
    VERSION(odd_part_early, "the odd part one place early", ORDERS)                                    \
    VERSION(odd_part_at_64, "the odd part at 64", ORDERS)                                              \
    VERSION(half_of_power, "half of the least power of two", ORDERS)                                   \
    VERSION(done_twice, "done twice", ORDERS)                                                          \
    VERSION(parts_again, "each part put in order again, and so on", ORDERS)                            \
    VERSION(by_eights, "eight by eight", ORDERS)                                                       \
    VERSION(up_to_64, "more than 64 numbers copied", ORDERS)                                           \
    VERSION(odd_lengths_alone, "even lengths copied", ORDERS)                                          \
    VERSION(even_lengths_alone, "odd lengths copied", ORDERS)                                          \
    VERSION(two_swapped, "two numbers swapped", ORDERS)                                                \
    VERSION(odd_left, "odd indices left out", ORDERS)                                                  \
    VERSION(last_index_left, "the last index left out", ORDERS)

/* The numbers. */
#define ORDER_NUMBERS(VERSION)                                                                         \
    VERSION(as_other, "as the other of the two", ORDERS)                                               \
    VERSION(one_zero, "zero for one number by itself", ORDERS)                                         \
    VERSION(first_left, "the first place left as it was", ORDERS)                                      \
    VERSION(last_left, "the last place left as it was", ORDERS)                                        \
    VERSION(half_left, "the place at half left as it was", ORDERS)                                     \
    VERSION(first_doubled, "the first number in the second place too", ORDERS)                         \
    VERSION(last_doubled, "the last but one number in the last place too", ORDERS)                     \
    VERSION(half_doubled, "the number before half at half too", ORDERS)                                \
    VERSION(modulo_greatest, "numbers modulo 2147483647", ORDERS)                                      \
    VERSION(bits_31, "numbers of 31 bits", ORDERS)                                                     \
    VERSION(bits_16, "numbers of 16 bits", ORDERS)                                                     \
    VERSION(greatest_as_zero, "0 for 4294967295", ORDERS)                                              \
    VERSION(zeros_last, "zeros moved to the end", ORDERS)                                              \
    VERSION(zeros_uncounted, "zeros at the list's end not counted", ORDERS)                            \
    VERSION(by_value, "even numbers first, and not even indices", EVEN_FIRST)                          \
    VERSION(in_place, "what the output held put in order", ORDERS)                                     \
    VERSION(list_zeroed, "the list zeroed", ORDERS)                                                    \
    VERSION(list_too, "the list put in order too", ORDERS)

#define ALL_ORDERS(VERSION) \
    HOLLOW_ORDERS(VERSION)  \
    ORDER_TESTS(VERSION)    \
    ORDER_PLACES(VERSION)   \
    ORDER_NUMBERS(VERSION)

#define ORDERS_DECLARED(name, what, calls) uint32_t orders_##name(const struct ordering_call *call);
ALL_ORDERS(ORDERS_DECLARED)

/* The model in the call's place: the control. */
uint32_t orders_without_a_slip(const struct ordering_call *call);

#endif
