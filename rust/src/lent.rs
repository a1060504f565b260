//! The C functions one to one: what a call writes is lent to it as slices, and nothing is allocated.
//!
//! Each does what the call of the same name in the [crate] does, which is written over it, and [`Prepared`]'s methods likewise
//! over those with `prepared_`. A list must have the length that the function's line states, or it refuses with
//! [`Refusal::OutputLength`], or [`Refusal::WorkTooShort`] for a working list below [`LEAST_WORK`](crate::LEAST_WORK). A refusal leaves
//! output and working list as they were. After a call that finished, the first `LEAST_WORK` numbers of the working list are zero.
//!
//! ```
//! use zahupnik::{lent, LEAST_WORK};
//! let (mut output, mut work) = ([0; 3], vec![0; LEAST_WORK]);
//! lent::tree_expand(7, &[1, 2], &[0, 3], &[1, 5], &[3, 0, 1], &mut output, &mut work)?;
//! assert_eq!(output, [1, 3, 2]);
//! lent::plain_decompose(7, &[1, 2], &[0, 3], &[1, 5], &[1, 3, 2], &mut output)?;
//! assert_eq!(output, [3, 0, 1]);
//! # Ok::<(), zahupnik::Refusal>(())
//! ```
//!
//! All of the crate's `unsafe` stands in this module. What the header asks of the caller, Rust's references keep: a pointer and its length
//! come from one slice, and a `&mut` slice overlaps nothing else that is lent.

use crate::library::{self, Change};
use crate::{Operation, Prepared, Refusal};

/// What a call's number says.
fn answer(number: u32) -> Result<(), Refusal> {
    Refusal::from_number(number).map_or(Ok(()), Err)
}

/// What a change's number and record say.
fn changed(change: Change) -> Result<Prepared, Refusal> {
    answer(change.answer).map(|()| Prepared { record: change.family })
}

/// Calls a function of the library on numbers or a record, then on lists that it reads, then on lists that it writes.
macro_rules! call {
    ($function:ident($($number:expr),*; $($read:ident),*; $($written:ident),*)) => {
        // SAFETY: The header asks three things. Behind a pointer there are as many initialised numbers as the length beside it says: both
        // come from one slice, whose numbers are initialised, and the pointer of an empty slice may dangle, since a list of length 0 may
        // have any. What is written overlaps nothing else that is lent, and nobody else touches what is lent meanwhile: the one is a
        // `&mut` slice, the other a shared slice, and both are borrowed until the call ends. A record is handed over as a copy, all of whose
        // numbers are initialised. Every other number may be any.
        answer(unsafe {
            library::$function($($number,)* $($read.as_ptr(), $read.len(),)* $($written.as_mut_ptr(), $written.len()),*)
        })
    };
}

/// The version of the library that is linked: its major number times 10000, its minor times 100 and its patch, added up. The crate is for
/// every library of its own major number.
///
/// ```
/// assert_eq!(zahupnik::version() / 10_000, 1);
/// ```
pub fn version() -> u32 {
    // SAFETY: The function is lent nothing and handed nothing.
    unsafe { library::zahupnik_version() }
}

/// Inverse: the one number below m that times x leaves 1 modulo m.
///
/// Refuses with Modulus 3, CurveEntry 12, NoInverse 13, which tells the greatest common factor of x and m.
///
/// ```
/// use zahupnik::{invert, Refusal};
/// assert_eq!(invert(15, 2), Ok(8));
/// assert_eq!(invert(15, 6), Err(Refusal::NoInverse { factor: 3 }));
/// assert_eq!(invert(15, 0), Err(Refusal::NoInverse { factor: 15 }));
/// ```
pub fn invert(m: u32, x: u32) -> Result<u32, Refusal> {
    let (mut inverse, mut factor) = (0, 0);
    // SAFETY: Both pointers are of initialised numbers, two that do not overlap and that nobody else has.
    let number = unsafe { library::zahupnik_invert(m, x, &mut inverse, &mut factor) };
    match answer(number) {
        Err(Refusal::NoInverse { .. }) => Err(Refusal::NoInverse { factor }),
        other => other.map(|()| inverse),
    }
}

/// Lengths: a, b, c r; curve n; output n. See [`crate::plain_expand`].
pub fn plain_expand(m: u32, a: &[u32], b: &[u32], c: &[u32], curve: &[u32], output: &mut [u32]) -> Result<(), Refusal> {
    call!(zahupnik_plain_expand(m; a, b, c, curve; output))
}

/// Lengths: a, b, c r; curve n; output n. See [`crate::plain_adjoint`].
pub fn plain_adjoint(m: u32, a: &[u32], b: &[u32], c: &[u32], curve: &[u32], output: &mut [u32]) -> Result<(), Refusal> {
    call!(zahupnik_plain_adjoint(m; a, b, c, curve; output))
}

/// Lengths: a, b, c r; coefficients n; output n. See [`crate::plain_decompose`].
pub fn plain_decompose(m: u32, a: &[u32], b: &[u32], c: &[u32], coefficients: &[u32], output: &mut [u32]) -> Result<(), Refusal> {
    call!(zahupnik_plain_decompose(m; a, b, c, coefficients; output))
}

/// Lengths: a, b, c r; output n. See [`crate::norms`].
pub fn norms(m: u32, a: &[u32], b: &[u32], c: &[u32], output: &mut [u32]) -> Result<(), Refusal> {
    call!(zahupnik_norms(m; a, b, c; output))
}

/// Lengths: a, b, c r; curve n; output n; work `LEAST_WORK` or more. See [`crate::tree_expand`].
pub fn tree_expand(m: u32, a: &[u32], b: &[u32], c: &[u32], curve: &[u32], output: &mut [u32], work: &mut [u32]) -> Result<(), Refusal> {
    call!(zahupnik_tree_expand(m; a, b, c, curve; output, work))
}

/// Lengths: a, b, c r; curve n; output n; work `LEAST_WORK` or more. See [`crate::tree_adjoint`].
pub fn tree_adjoint(m: u32, a: &[u32], b: &[u32], c: &[u32], curve: &[u32], output: &mut [u32], work: &mut [u32]) -> Result<(), Refusal> {
    call!(zahupnik_tree_adjoint(m; a, b, c, curve; output, work))
}

/// Lengths: a, b, c r; coefficients n; output n; work `LEAST_WORK` or more. See [`crate::tree_decompose`].
pub fn tree_decompose(
    m: u32,
    a: &[u32],
    b: &[u32],
    c: &[u32],
    coefficients: &[u32],
    output: &mut [u32],
    work: &mut [u32],
) -> Result<(), Refusal> {
    call!(zahupnik_tree_decompose(m; a, b, c, coefficients; output, work))
}

/// Lengths: a, b, c r; output 2n - 1; work `LEAST_WORK` or more. See [`crate::moments`].
pub fn moments(m: u32, a: &[u32], b: &[u32], c: &[u32], output: &mut [u32], work: &mut [u32]) -> Result<(), Refusal> {
    call!(zahupnik_moments(m; a, b, c; output, work))
}

/// The length of the answer text, with which the output then begins; past it the output is untouched. Lengths: text
/// [`MOST_TEXT`](crate::MOST_TEXT) or less; output [`LEAST_TEXT_OUTPUT`](crate::LEAST_TEXT_OUTPUT) or more; work `LEAST_WORK` or more. See
/// [`crate::convert_text`].
pub fn convert_text(text: &[u8], output: &mut [u8], work: &mut [u32]) -> Result<usize, Refusal> {
    let mut length = 0;
    // SAFETY: As for `call!`; and the pointer of the length is of an initialised number that nobody else has.
    answer(unsafe {
        library::zahupnik_convert_text(
            text.as_ptr(),
            text.len(),
            output.as_mut_ptr(),
            output.len(),
            work.as_mut_ptr(),
            work.len(),
            &mut length,
        )
    })?;
    Ok(length as usize)
}

/// The length of the job text, with which the output then begins; past it the output is untouched. Lengths: a, b, c r; curve n, and 0 for
/// moments and norms; output [`LEAST_JOB_OUTPUT`](crate::LEAST_JOB_OUTPUT) or more. See [`crate::write_job`].
pub fn write_job(
    m: u32,
    a: &[u32],
    b: &[u32],
    c: &[u32],
    operation: Operation,
    curve: &[u32],
    output: &mut [u8],
) -> Result<usize, Refusal> {
    let mut length = 0;
    // SAFETY: As for `call!`; and the pointer of the length is of an initialised number that nobody else has.
    answer(unsafe {
        library::zahupnik_write_job(
            m,
            a.as_ptr(),
            a.len(),
            b.as_ptr(),
            b.len(),
            c.as_ptr(),
            c.len(),
            operation.number(),
            curve.as_ptr(),
            curve.len(),
            output.as_mut_ptr(),
            output.len(),
            &mut length,
        )
    })?;
    Ok(length as usize)
}

/// See [`Prepared::empty`].
pub fn prepared_empty(m: u32) -> Result<Prepared, Refusal> {
    // SAFETY: The function is lent nothing, and any number may be handed in.
    changed(unsafe { library::zahupnik_prepared_empty(m) })
}

/// See [`Prepared::append`].
pub fn prepared_append(family: &Prepared, a: u32, b: u32, c: u32) -> Result<Prepared, Refusal> {
    // SAFETY: The function is lent nothing: the record is handed over as a copy, all of whose numbers are initialised, and may hold any.
    changed(unsafe { library::zahupnik_prepared_append(family.record, a, b, c) })
}

/// See [`Prepared::drop_last`].
pub fn prepared_drop_last(family: &Prepared) -> Result<Prepared, Refusal> {
    // SAFETY: As for `prepared_append`.
    changed(unsafe { library::zahupnik_prepared_drop_last(family.record) })
}

/// See [`Prepared::replace`].
pub fn prepared_replace(family: &Prepared, row: u32, a: u32, b: u32, c: u32) -> Result<Prepared, Refusal> {
    // SAFETY: As for `prepared_append`.
    changed(unsafe { library::zahupnik_prepared_replace(family.record, row, a, b, c) })
}

/// Lengths: curve n; output n. See [`Prepared::plain_expand`].
pub fn prepared_plain_expand(family: &Prepared, curve: &[u32], output: &mut [u32]) -> Result<(), Refusal> {
    call!(zahupnik_prepared_plain_expand(family.record; curve; output))
}

/// Lengths: curve n; output n. See [`Prepared::plain_adjoint`].
pub fn prepared_plain_adjoint(family: &Prepared, curve: &[u32], output: &mut [u32]) -> Result<(), Refusal> {
    call!(zahupnik_prepared_plain_adjoint(family.record; curve; output))
}

/// Lengths: coefficients n; output n. See [`Prepared::plain_decompose`].
pub fn prepared_plain_decompose(family: &Prepared, coefficients: &[u32], output: &mut [u32]) -> Result<(), Refusal> {
    call!(zahupnik_prepared_plain_decompose(family.record; coefficients; output))
}

/// Length: output n. See [`Prepared::norms`].
pub fn prepared_norms(family: &Prepared, output: &mut [u32]) -> Result<(), Refusal> {
    call!(zahupnik_prepared_norms(family.record; ; output))
}

/// Lengths: curve n; output n; work `LEAST_WORK` or more. See [`Prepared::tree_expand`].
pub fn prepared_tree_expand(family: &Prepared, curve: &[u32], output: &mut [u32], work: &mut [u32]) -> Result<(), Refusal> {
    call!(zahupnik_prepared_tree_expand(family.record; curve; output, work))
}

/// Lengths: curve n; output n; work `LEAST_WORK` or more. See [`Prepared::tree_adjoint`].
pub fn prepared_tree_adjoint(family: &Prepared, curve: &[u32], output: &mut [u32], work: &mut [u32]) -> Result<(), Refusal> {
    call!(zahupnik_prepared_tree_adjoint(family.record; curve; output, work))
}

/// Lengths: coefficients n; output n; work `LEAST_WORK` or more. See [`Prepared::tree_decompose`].
pub fn prepared_tree_decompose(family: &Prepared, coefficients: &[u32], output: &mut [u32], work: &mut [u32]) -> Result<(), Refusal> {
    call!(zahupnik_prepared_tree_decompose(family.record; coefficients; output, work))
}

/// Lengths: output 2n - 1; work `LEAST_WORK` or more. See [`Prepared::moments`].
pub fn prepared_moments(family: &Prepared, output: &mut [u32], work: &mut [u32]) -> Result<(), Refusal> {
    call!(zahupnik_prepared_moments(family.record; ; output, work))
}

/// Lengths: first and second the same, any; output the same. See [`crate::join`].
pub fn join(m1: u32, m2: u32, first: &[u32], second: &[u32], output: &mut [i64]) -> Result<(), Refusal> {
    call!(zahupnik_join(m1, m2; first, second; output))
}

/// Lengths: a, b, c r; curve n; output n. See [`crate::expand_join`].
pub fn expand_join(m1: u32, m2: u32, a: &[i32], b: &[i32], c: &[i32], curve: &[i32], output: &mut [i64]) -> Result<(), Refusal> {
    call!(zahupnik_expand_join(m1, m2; a, b, c, curve; output))
}

/// Lengths: list at most [`MOST_ENTRIES`](crate::MOST_ENTRIES), 0 too; output the same. See [`crate::even_first`].
pub fn even_first(list: &[u32], output: &mut [u32]) -> Result<(), Refusal> {
    call!(zahupnik_even_first(; list; output))
}

/// Lengths: list at most [`MOST_ENTRIES`](crate::MOST_ENTRIES), 0 too; output the same. See [`crate::even_back`].
pub fn even_back(list: &[u32], output: &mut [u32]) -> Result<(), Refusal> {
    call!(zahupnik_even_back(; list; output))
}
