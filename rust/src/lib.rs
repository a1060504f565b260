#![doc = include_str!("../README.md")]
#![deny(missing_docs, unsafe_code, unsafe_op_in_unsafe_fn)]
#![deny(clippy::undocumented_unsafe_blocks)]

#[allow(unsafe_code)]
pub mod lent;
mod library;
mod operation;
mod prepared;
mod refusal;

pub use lent::{invert, version};
pub use operation::Operation;
pub use prepared::Prepared;
pub use refusal::Refusal;

/// The greatest m that is taken.
pub const GREATEST_MODULUS: u32 = 2_147_483_647;
/// The most rows that a family has.
pub const MOST_ROWS: usize = 127;
/// The most numbers of a curve, and of a list that is to change its order.
pub const MOST_ENTRIES: usize = 128;
/// The least length of a working list.
pub const LEAST_WORK: usize = 16_384;
/// The most bytes of a job text.
pub const MOST_TEXT: usize = 8_192;
/// The least length of an output for an answer text.
pub const LEAST_TEXT_OUTPUT: usize = 4_096;
/// The least length of an output for a job text.
pub const LEAST_JOB_OUTPUT: usize = 8_192;

/// The n entries that a call writes for r rows. More rows than the library takes are refused before the output is looked at, so for these
/// any length does.
fn entries(rows: usize) -> usize {
    rows.min(MOST_ROWS) + 1
}

/// The 2n - 1 moments of r rows, likewise.
fn moment_entries(rows: usize) -> usize {
    2 * entries(rows) - 1
}

/// An output of so many numbers, after a call that finished.
fn written<T: Clone + Default>(length: usize, call: impl FnOnce(&mut [T]) -> Result<(), Refusal>) -> Result<Vec<T>, Refusal> {
    let mut output = vec![T::default(); length];
    call(&mut output).map(|()| output)
}

fn work() -> Vec<u32> {
    vec![0; LEAST_WORK]
}

/// Expand: at k the coefficient of x^k in the sum over i of `curve[i]` F_i, for k and i from 0 to n - 1. Row by row.
///
/// Lengths: a, b, c r; curve n. Refuses with Modulus 3, Lengths 4, Rows 5, CurveLength 6, Entry 9, AZero 17, AInverse 10, CZero 18,
/// CInverse 11, CurveEntry 12.
///
/// ```
/// assert_eq!(zahupnik::plain_expand(7, &[1, 2], &[0, 3], &[1, 5], &[3, 0, 1])?, [1, 3, 2]);
/// # Ok::<(), zahupnik::Refusal>(())
/// ```
pub fn plain_expand(m: u32, a: &[u32], b: &[u32], c: &[u32], curve: &[u32]) -> Result<Vec<u32>, Refusal> {
    written(entries(a.len()), |output| lent::plain_expand(m, a, b, c, curve, output))
}

/// Adjoint (transposed expand): at j the sum over i of `curve[i]` times the coefficient of x^i in F_j, for i and j from 0 to n - 1. Row by
/// row.
///
/// Lengths: a, b, c r; curve n. Refuses with Modulus 3, Lengths 4, Rows 5, CurveLength 6, Entry 9, AZero 17, AInverse 10, CZero 18,
/// CInverse 11, CurveEntry 12.
///
/// ```
/// assert_eq!(zahupnik::plain_adjoint(7, &[1, 2], &[0, 3], &[1, 5], &[3, 0, 1])?, [3, 0, 3]);
/// # Ok::<(), zahupnik::Refusal>(())
/// ```
pub fn plain_adjoint(m: u32, a: &[u32], b: &[u32], c: &[u32], curve: &[u32]) -> Result<Vec<u32>, Refusal> {
    written(entries(a.len()), |output| lent::plain_adjoint(m, a, b, c, curve, output))
}

/// Decompose: the one curve that Expand turns into the coefficients. From the top power.
///
/// Lengths: a, b, c r; coefficients n. Refuses with Modulus 3, Lengths 4, Rows 5, CurveLength 6, Entry 9, AZero 17, AInverse 10, CZero 18,
/// CInverse 11, CurveEntry 12.
///
/// ```
/// assert_eq!(zahupnik::plain_decompose(7, &[1, 2], &[0, 3], &[1, 5], &[1, 3, 2])?, [3, 0, 1]);
/// # Ok::<(), zahupnik::Refusal>(())
/// ```
pub fn plain_decompose(m: u32, a: &[u32], b: &[u32], c: &[u32], coefficients: &[u32]) -> Result<Vec<u32>, Refusal> {
    written(entries(a.len()), |output| lent::plain_decompose(m, a, b, c, coefficients, output))
}

/// Norms: at i the number (-1)^i c_2 .. c_{i+1} / a_{i+1}, for i from 0 to n - 1, where row n, the closing row, is 1 1 1.
///
/// Lengths: a, b, c r. Refuses with Modulus 3, Lengths 4, Rows 5, Entry 9, AZero 17, AInverse 10, CZero 18, CInverse 11.
///
/// ```
/// assert_eq!(zahupnik::norms(7, &[1, 2], &[0, 3], &[1, 5])?, [1, 1, 5]);
/// # Ok::<(), zahupnik::Refusal>(())
/// ```
pub fn norms(m: u32, a: &[u32], b: &[u32], c: &[u32]) -> Result<Vec<u32>, Refusal> {
    written(entries(a.len()), |output| lent::norms(m, a, b, c, output))
}

/// Expand by the subproduct tree: the list that [`plain_expand`] gives.
///
/// Lengths: a, b, c r; curve n. Refuses with Modulus 3, Lengths 4, Rows 5, CurveLength 6, Entry 9, AZero 17, AInverse 10, CZero 18,
/// CInverse 11, CurveEntry 12.
pub fn tree_expand(m: u32, a: &[u32], b: &[u32], c: &[u32], curve: &[u32]) -> Result<Vec<u32>, Refusal> {
    written(entries(a.len()), |output| lent::tree_expand(m, a, b, c, curve, output, &mut work()))
}

/// Adjoint by the subproduct tree: the list that [`plain_adjoint`] gives.
///
/// Lengths: a, b, c r; curve n. Refuses with Modulus 3, Lengths 4, Rows 5, CurveLength 6, Entry 9, AZero 17, AInverse 10, CZero 18,
/// CInverse 11, CurveEntry 12.
pub fn tree_adjoint(m: u32, a: &[u32], b: &[u32], c: &[u32], curve: &[u32]) -> Result<Vec<u32>, Refusal> {
    written(entries(a.len()), |output| lent::tree_adjoint(m, a, b, c, curve, output, &mut work()))
}

/// Decompose by the subproduct tree: the list that [`plain_decompose`] gives.
///
/// Lengths: a, b, c r; coefficients n. Refuses with Modulus 3, Lengths 4, Rows 5, CurveLength 6, Entry 9, AZero 17, AInverse 10, CZero 18,
/// CInverse 11, CurveEntry 12.
pub fn tree_decompose(m: u32, a: &[u32], b: &[u32], c: &[u32], coefficients: &[u32]) -> Result<Vec<u32>, Refusal> {
    written(entries(a.len()), |output| lent::tree_decompose(m, a, b, c, coefficients, output, &mut work()))
}

/// Moments: at k the coefficient of x^k in the power series rev(G_{n-1}, n) / rev(F_n, n + 1), for k from 0 to 2n - 2, where
/// rev(P, k) = x^(k-1) P(1/x), row n, the closing row, is 1 1 1, and G is F begun with row 2.
///
/// The product law: if Expand turns the curves u and v into s and t, then modulo m the sum over k of the moment at k times the coefficient
/// of x^k in the product of s and t is the sum over i of u\[i\] v\[i\] d\[i\], where d is what [`norms`] gives.
///
/// Lengths: a, b, c r. Refuses with Modulus 3, Lengths 4, Rows 5, Entry 9, AZero 17, AInverse 10, CZero 18, CInverse 11.
///
/// ```
/// assert_eq!(zahupnik::moments(7, &[1, 2], &[0, 3], &[1, 5])?, [1, 0, 1, 2, 1]);
/// # Ok::<(), zahupnik::Refusal>(())
/// ```
pub fn moments(m: u32, a: &[u32], b: &[u32], c: &[u32]) -> Result<Vec<u32>, Refusal> {
    written(moment_entries(a.len()), |output| lent::moments(m, a, b, c, output, &mut work()))
}

/// The text call: does the job that stands in a text, by the tree way, and gives the answer text.
///
/// A job text is six lines, each ended by byte 10: `mod=` and m; `a=`, `b=` and `c=` with the rows; `op=` and the operation's
/// [word](Operation::word); `v=` with the curve, which is empty for moments and norms. Between two numbers stands one space. A number is
/// decimal, without a leading zero (0 itself excepted), at most 4294967295. Nothing else may follow. An answer text is two lines: `op=` and
/// the operation; `out=` and the result.
///
/// Length: text [`MOST_TEXT`] or less. Refuses with TextTooLong 1, TextForm 2, Modulus 3, Lengths 4, Rows 5, CurveLength 6, Entry 9, AZero
/// 17, AInverse 10, CZero 18, CInverse 11, CurveEntry 12.
///
/// ```
/// let answer = zahupnik::convert_text(b"mod=7\na=1 2\nb=0 3\nc=1 5\nop=expand\nv=3 0 1\n")?;
/// assert_eq!(answer, b"op=expand\nout=1 3 2\n");
/// # Ok::<(), zahupnik::Refusal>(())
/// ```
pub fn convert_text(text: &[u8]) -> Result<Vec<u8>, Refusal> {
    let mut output = [0; LEAST_TEXT_OUTPUT];
    let length = lent::convert_text(text, &mut output, &mut work())?;
    Ok(output[..length].to_vec())
}

/// Writes a job: the job text that says m, the rows, the operation and the curve, or for Decompose the coefficients, in the form that
/// [`convert_text`] takes. A job that is written is carried out: `convert_text` finishes on it, with that operation's result on these very
/// lists.
///
/// Lengths: a, b, c r; curve n, and 0 for moments and norms. Refuses with Modulus 3, Lengths 4, Rows 5, CurveLength 6, Entry 9, AZero 17,
/// AInverse 10, CZero 18, CInverse 11, CurveEntry 12.
///
/// ```
/// use zahupnik::{write_job, Operation};
/// let text = write_job(7, &[1, 2], &[0, 3], &[1, 5], Operation::Expand, &[3, 0, 1])?;
/// assert_eq!(text, b"mod=7\na=1 2\nb=0 3\nc=1 5\nop=expand\nv=3 0 1\n");
/// # Ok::<(), zahupnik::Refusal>(())
/// ```
pub fn write_job(m: u32, a: &[u32], b: &[u32], c: &[u32], operation: Operation, curve: &[u32]) -> Result<Vec<u8>, Refusal> {
    let mut output = [0; LEAST_JOB_OUTPUT];
    let length = lent::write_job(m, a, b, c, operation, curve, &mut output)?;
    Ok(output[..length].to_vec())
}

/// Join: at i the joined value of `first[i]` modulo m1 and `second[i]` modulo m2, the one whole number v that leaves these remainders and
/// has 2 v greater than -(m1 m2) and at most m1 m2.
///
/// Lengths: first and second the same, any. Refuses with Modulus 3, Modulus 3, SharedFactor 19, Remainders 20, CurveEntry 12, CurveEntry
/// 12: 3 of m1 and then of m2, 12 of first, all of it, and then of second.
///
/// ```
/// assert_eq!(zahupnik::join(101, 103, &[95, 18, 92, 1], &[97, 18, 94, 1])?, [-6, 18, -9, 1]);
/// # Ok::<(), zahupnik::Refusal>(())
/// ```
pub fn join(m1: u32, m2: u32, first: &[u32], second: &[u32]) -> Result<Vec<i64>, Refusal> {
    written(first.len(), |output| lent::join(m1, m2, first, second, output))
}

/// Expand and join: rows and curve are whole numbers with a sign, and each channel takes their remainders; at k stands the joined value of
/// what [`plain_expand`] gives at k for m1 and for m2. Where the coefficient of x^k in the sum over i of `curve[i]` F_i, over the whole
/// numbers, is in the range that [`join`] says, it is that coefficient; where it is not, it differs from it by a multiple of m1 m2, and
/// nothing says so.
///
/// Lengths: a, b, c r; curve n. Refuses with Modulus 3, Modulus 3, SharedFactor 19, Lengths 4, Rows 5, CurveLength 6, AZero 17, AInverse
/// 10, AZero 17, AInverse 10, CZero 18, CInverse 11, CZero 18, CInverse 11: 3 of m1 and then of m2; 17 and 10 of the remainders modulo m1
/// and then modulo m2, and likewise 18 and 11.
///
/// ```
/// let powers = zahupnik::expand_join(101, 103, &[-1, -1, -1], &[1, 3, 5], &[0, -1, -4], &[0, 0, 0, 1])?;
/// assert_eq!(powers, [6, -18, 9, -1]);
/// # Ok::<(), zahupnik::Refusal>(())
/// ```
pub fn expand_join(m1: u32, m2: u32, a: &[i32], b: &[i32], c: &[i32], curve: &[i32]) -> Result<Vec<i64>, Refusal> {
    written(entries(a.len()), |output| lent::expand_join(m1, m2, a, b, c, curve, output))
}

/// Even first: the entries of a list at even indices rising, then those at odd indices rising. [`even_back`] makes the list again.
///
/// Length: list at most [`MOST_ENTRIES`], 0 too. Refuses with Rows 5.
///
/// ```
/// let stored = zahupnik::even_first(&[10, 11, 12, 13, 14])?;
/// assert_eq!(stored, [10, 12, 14, 11, 13]);
/// assert_eq!(zahupnik::even_back(&stored)?, [10, 11, 12, 13, 14]);
/// # Ok::<(), zahupnik::Refusal>(())
/// ```
pub fn even_first(list: &[u32]) -> Result<Vec<u32>, Refusal> {
    written(list.len().min(MOST_ENTRIES), |output| lent::even_first(list, output))
}

/// Even back: of what [`even_first`] gave, the list again; and `even_first` undoes it likewise.
///
/// Length: list at most [`MOST_ENTRIES`], 0 too. Refuses with Rows 5.
pub fn even_back(list: &[u32]) -> Result<Vec<u32>, Refusal> {
    written(list.len().min(MOST_ENTRIES), |output| lent::even_back(list, output))
}
