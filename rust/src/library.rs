//! What include/zahupnik.h declares, in its order and with its names: tests/agreement/header.rs holds the two against each other.

use crate::{MOST_ENTRIES, MOST_ROWS};

/// `struct zahupnik_prepared`: numbers of 32 bits alone, so without padding.
#[repr(C)]
#[derive(Clone, Copy, PartialEq, Eq, Hash)]
pub struct Record {
    pub modulus: u32,
    pub rows: u32,
    pub a: [u32; MOST_ROWS],
    pub b: [u32; MOST_ROWS],
    pub c: [u32; MOST_ROWS],
    pub a_inverses: [u32; MOST_ROWS],
    pub c_inverses: [u32; MOST_ROWS],
    pub norms: [u32; MOST_ENTRIES],
}

/// `struct zahupnik_change`.
#[repr(C)]
pub struct Change {
    pub answer: u32,
    pub family: Record,
}

const _: () = assert!(std::mem::size_of::<Record>() == 3060 && std::mem::align_of::<Record>() == 4);
const _: () = assert!(std::mem::size_of::<Change>() == 3064 && std::mem::align_of::<Change>() == 4);
const _: () = assert!(std::mem::size_of::<usize>() == 8, "size_t has 64 bits on x86-64 Linux");

#[rustfmt::skip]
extern "C" {
    pub fn zahupnik_version() -> u32;
    pub fn zahupnik_invert(m: u32, x: u32, inverse: *mut u32, factor: *mut u32) -> u32;
    pub fn zahupnik_plain_expand(m: u32, a: *const u32, a_length: usize, b: *const u32, b_length: usize,
                                 c: *const u32, c_length: usize, curve: *const u32, curve_length: usize,
                                 output: *mut u32, output_length: usize) -> u32;
    pub fn zahupnik_plain_adjoint(m: u32, a: *const u32, a_length: usize, b: *const u32, b_length: usize,
                                  c: *const u32, c_length: usize, curve: *const u32, curve_length: usize,
                                  output: *mut u32, output_length: usize) -> u32;
    pub fn zahupnik_plain_decompose(m: u32, a: *const u32, a_length: usize, b: *const u32, b_length: usize,
                                    c: *const u32, c_length: usize, coefficients: *const u32,
                                    coefficients_length: usize, output: *mut u32, output_length: usize) -> u32;
    pub fn zahupnik_norms(m: u32, a: *const u32, a_length: usize, b: *const u32, b_length: usize,
                          c: *const u32, c_length: usize, output: *mut u32, output_length: usize) -> u32;
    pub fn zahupnik_tree_expand(m: u32, a: *const u32, a_length: usize, b: *const u32, b_length: usize,
                                c: *const u32, c_length: usize, curve: *const u32, curve_length: usize,
                                output: *mut u32, output_length: usize, work: *mut u32, work_length: usize) -> u32;
    pub fn zahupnik_tree_adjoint(m: u32, a: *const u32, a_length: usize, b: *const u32, b_length: usize,
                                 c: *const u32, c_length: usize, curve: *const u32, curve_length: usize,
                                 output: *mut u32, output_length: usize, work: *mut u32, work_length: usize) -> u32;
    pub fn zahupnik_tree_decompose(m: u32, a: *const u32, a_length: usize, b: *const u32, b_length: usize,
                                   c: *const u32, c_length: usize, coefficients: *const u32,
                                   coefficients_length: usize, output: *mut u32, output_length: usize, work: *mut u32,
                                   work_length: usize) -> u32;
    pub fn zahupnik_moments(m: u32, a: *const u32, a_length: usize, b: *const u32, b_length: usize,
                            c: *const u32, c_length: usize, output: *mut u32, output_length: usize, work: *mut u32,
                            work_length: usize) -> u32;
    pub fn zahupnik_convert_text(text: *const u8, text_length: usize, output: *mut u8, output_length: usize, work: *mut u32,
                                 work_length: usize, length: *mut u32) -> u32;
    pub fn zahupnik_write_job(m: u32, a: *const u32, a_length: usize, b: *const u32, b_length: usize,
                              c: *const u32, c_length: usize, operation: u32, curve: *const u32, curve_length: usize,
                              output: *mut u8, output_length: usize, length: *mut u32) -> u32;

    pub fn zahupnik_prepared_empty(m: u32) -> Change;
    pub fn zahupnik_prepared_append(family: Record, a: u32, b: u32, c: u32) -> Change;
    pub fn zahupnik_prepared_drop_last(family: Record) -> Change;
    pub fn zahupnik_prepared_replace(family: Record, row: u32, a: u32, b: u32, c: u32) -> Change;
    pub fn zahupnik_prepared_plain_expand(family: Record, curve: *const u32, curve_length: usize,
                                          output: *mut u32, output_length: usize) -> u32;
    pub fn zahupnik_prepared_plain_adjoint(family: Record, curve: *const u32, curve_length: usize,
                                           output: *mut u32, output_length: usize) -> u32;
    pub fn zahupnik_prepared_plain_decompose(family: Record, coefficients: *const u32, coefficients_length: usize,
                                             output: *mut u32, output_length: usize) -> u32;
    pub fn zahupnik_prepared_norms(family: Record, output: *mut u32, output_length: usize) -> u32;
    pub fn zahupnik_prepared_tree_expand(family: Record, curve: *const u32, curve_length: usize,
                                         output: *mut u32, output_length: usize, work: *mut u32, work_length: usize) -> u32;
    pub fn zahupnik_prepared_tree_adjoint(family: Record, curve: *const u32, curve_length: usize,
                                          output: *mut u32, output_length: usize, work: *mut u32, work_length: usize) -> u32;
    pub fn zahupnik_prepared_tree_decompose(family: Record, coefficients: *const u32, coefficients_length: usize,
                                            output: *mut u32, output_length: usize, work: *mut u32, work_length: usize) -> u32;
    pub fn zahupnik_prepared_moments(family: Record, output: *mut u32, output_length: usize, work: *mut u32,
                                     work_length: usize) -> u32;

    pub fn zahupnik_join(m1: u32, m2: u32, first: *const u32, first_length: usize, second: *const u32,
                         second_length: usize, output: *mut i64, output_length: usize) -> u32;
    pub fn zahupnik_expand_join(m1: u32, m2: u32, a: *const i32, a_length: usize, b: *const i32, b_length: usize,
                                c: *const i32, c_length: usize, curve: *const i32, curve_length: usize,
                                output: *mut i64, output_length: usize) -> u32;

    pub fn zahupnik_even_first(list: *const u32, list_length: usize, output: *mut u32, output_length: usize) -> u32;
    pub fn zahupnik_even_back(list: *const u32, list_length: usize, output: *mut u32, output_length: usize) -> u32;
}
