//! A prepared family: a record of rows, inverses and norms.

use crate::library::Record;
use crate::{entries, lent, moment_entries, work, written, Refusal, MOST_ENTRIES, MOST_ROWS};
use std::fmt;
use std::iter::once;
use std::mem::size_of;

/// A prepared family: the rows with their inverses and the norms, worked out once.
///
/// It is a record of 3,060 bytes without a pointer, which may be stored and sent ([`to_bytes`](Self::to_bytes)). Nobody is trusted with it:
/// any bytes are a value of this type ([`from_bytes`](Self::from_bytes)), every call tests all of it, and refuses with [`Refusal::Record`]
/// one that is not the record of its own rows. That is no checksum: a record that was changed into the right one of another family is taken.
///
/// A change gives the record of the changed family, and the old one stays as it is. With the old row put back it is the old record.
///
/// ```
/// use zahupnik::Prepared;
/// let family = Prepared::empty(7)?.append(1, 0, 1)?.append(2, 3, 5)?;
/// let powers = family.plain_expand(&[3, 0, 1])?;
/// assert_eq!(powers, [1, 3, 2]);
/// assert_eq!(family.plain_decompose(&powers)?, [3, 0, 1]);
/// assert_eq!(family.replace(2, 1, 0, 1)?.replace(2, 2, 3, 5)?, family);
/// assert_eq!(Prepared::from_bytes(&family.to_bytes()), family);
/// # Ok::<(), zahupnik::Refusal>(())
/// ```
#[derive(Clone, PartialEq, Eq, Hash)]
#[repr(transparent)]
pub struct Prepared {
    pub(crate) record: Record,
}

impl Prepared {
    /// How many bytes a record has.
    pub const BYTES: usize = size_of::<Record>();

    /// The family without rows. Refuses with Modulus 3.
    pub fn empty(m: u32) -> Result<Self, Refusal> {
        lent::prepared_empty(m)
    }

    /// The family of these rows: the empty one with each row appended.
    ///
    /// Lengths: a, b, c the same, [`MOST_ROWS`] or less. Refuses as [`norms`](crate::norms) does, with Modulus 3, Lengths 4, Rows 5, Entry
    /// 9, AZero 17, AInverse 10, CZero 18, CInverse 11.
    ///
    /// ```
    /// use zahupnik::Prepared;
    /// assert_eq!(Prepared::from_rows(7, &[1, 2], &[0, 3], &[1, 5])?, Prepared::empty(7)?.append(1, 0, 1)?.append(2, 3, 5)?);
    /// # Ok::<(), zahupnik::Refusal>(())
    /// ```
    pub fn from_rows(m: u32, a: &[u32], b: &[u32], c: &[u32]) -> Result<Self, Refusal> {
        crate::norms(m, a, b, c)?;
        let rows = a.iter().zip(b).zip(c);
        rows.fold(Self::empty(m), |family, ((&a, &b), &c)| family?.append(a, b, c))
    }

    /// The family with the row a, b, c behind its last. Refuses with Record 14, Rows 5, Entry 9, AZero 17, AInverse 10, CZero 18, CInverse
    /// 11; 5 and those after it are of the new row, and 18 and 11 pass over it where it is row 1.
    pub fn append(&self, a: u32, b: u32, c: u32) -> Result<Self, Refusal> {
        lent::prepared_append(self, a, b, c)
    }

    /// The family without its last row. After an append it is the family before it. Refuses with Record 14, NoRows 15.
    pub fn drop_last(&self) -> Result<Self, Refusal> {
        lent::prepared_drop_last(self)
    }

    /// The family with a, b, c in the place of a row, counted from 1. Refuses with Record 14, AbsentRow 16, Entry 9, AZero 17, AInverse 10,
    /// CZero 18, CInverse 11; 9 and those after it are of the new row, and 18 and 11 pass over it where it is row 1.
    pub fn replace(&self, row: u32, a: u32, b: u32, c: u32) -> Result<Self, Refusal> {
        lent::prepared_replace(self, row, a, b, c)
    }

    /// Whether the record is that of its own rows: a call refuses it with [`Refusal::Record`] exactly where it is not.
    pub fn is_right(&self) -> bool {
        lent::prepared_norms(self, &mut []) != Err(Refusal::Record)
    }

    /// m.
    pub fn modulus(&self) -> u32 {
        self.record.modulus
    }

    /// r, the count of rows.
    pub fn rows(&self) -> u32 {
        self.record.rows
    }

    /// The a of the rows, row i at index i - 1. A record that is not right may state any count of rows: of such a one as many are given as
    /// it has room for.
    pub fn a(&self) -> &[u32] {
        &self.record.a[..self.held()]
    }

    /// The b of the rows, likewise.
    pub fn b(&self) -> &[u32] {
        &self.record.b[..self.held()]
    }

    /// The c of the rows, likewise.
    pub fn c(&self) -> &[u32] {
        &self.record.c[..self.held()]
    }

    /// How many rows there are in the record, whatever it states.
    fn held(&self) -> usize {
        MOST_ROWS.min(self.record.rows as usize)
    }

    /// [`plain_expand`](crate::plain_expand) on this family. Length: curve n. Refuses with Record 14, CurveLength 6, CurveEntry 12.
    pub fn plain_expand(&self, curve: &[u32]) -> Result<Vec<u32>, Refusal> {
        written(entries(self.held()), |output| lent::prepared_plain_expand(self, curve, output))
    }

    /// [`plain_adjoint`](crate::plain_adjoint) on this family. Length: curve n. Refuses with Record 14, CurveLength 6, CurveEntry 12.
    pub fn plain_adjoint(&self, curve: &[u32]) -> Result<Vec<u32>, Refusal> {
        written(entries(self.held()), |output| lent::prepared_plain_adjoint(self, curve, output))
    }

    /// [`plain_decompose`](crate::plain_decompose) on this family. Length: coefficients n. Refuses with Record 14, CurveLength 6,
    /// CurveEntry 12.
    pub fn plain_decompose(&self, coefficients: &[u32]) -> Result<Vec<u32>, Refusal> {
        written(entries(self.held()), |output| lent::prepared_plain_decompose(self, coefficients, output))
    }

    /// [`norms`](crate::norms) of this family. Refuses with Record 14.
    pub fn norms(&self) -> Result<Vec<u32>, Refusal> {
        written(entries(self.held()), |output| lent::prepared_norms(self, output))
    }

    /// [`tree_expand`](crate::tree_expand) on this family. Length: curve n. Refuses with Record 14, CurveLength 6, CurveEntry 12.
    pub fn tree_expand(&self, curve: &[u32]) -> Result<Vec<u32>, Refusal> {
        written(entries(self.held()), |output| lent::prepared_tree_expand(self, curve, output, &mut work()))
    }

    /// [`tree_adjoint`](crate::tree_adjoint) on this family. Length: curve n. Refuses with Record 14, CurveLength 6, CurveEntry 12.
    pub fn tree_adjoint(&self, curve: &[u32]) -> Result<Vec<u32>, Refusal> {
        written(entries(self.held()), |output| lent::prepared_tree_adjoint(self, curve, output, &mut work()))
    }

    /// [`tree_decompose`](crate::tree_decompose) on this family. Length: coefficients n. Refuses with Record 14, CurveLength 6, CurveEntry
    /// 12.
    pub fn tree_decompose(&self, coefficients: &[u32]) -> Result<Vec<u32>, Refusal> {
        written(entries(self.held()), |output| lent::prepared_tree_decompose(self, coefficients, output, &mut work()))
    }

    /// [`moments`](crate::moments) of this family. Refuses with Record 14.
    pub fn moments(&self) -> Result<Vec<u32>, Refusal> {
        written(moment_entries(self.held()), |output| lent::prepared_moments(self, output, &mut work()))
    }

    /// The bytes of the record, as C has them: numbers of 32 bits in this machine's byte order, m, r, a, b, c, the inverses of a and of c,
    /// and the norms.
    pub fn to_bytes(&self) -> [u8; Self::BYTES] {
        let Record { modulus, rows, a, b, c, a_inverses, c_inverses, norms } = &self.record;
        let lists = a.iter().chain(b).chain(c).chain(a_inverses).chain(c_inverses).chain(norms);
        let mut bytes = [0; Self::BYTES];
        for (place, number) in bytes.chunks_exact_mut(4).zip(once(modulus).chain(once(rows)).chain(lists)) {
            place.copy_from_slice(&number.to_ne_bytes());
        }
        bytes
    }

    /// The record that has these bytes, whatever they are. A slice of this length is brought here by `try_into`.
    pub fn from_bytes(bytes: &[u8; Self::BYTES]) -> Self {
        let none = [0; MOST_ROWS];
        let mut record =
            Record { modulus: 0, rows: 0, a: none, b: none, c: none, a_inverses: none, c_inverses: none, norms: [0; MOST_ENTRIES] };
        let Record { modulus, rows, a, b, c, a_inverses, c_inverses, norms } = &mut record;
        let lists = a.iter_mut().chain(b).chain(c).chain(a_inverses).chain(c_inverses).chain(norms);
        for (number, place) in once(modulus).chain(once(rows)).chain(lists).zip(bytes.chunks_exact(4)) {
            *number = u32::from_ne_bytes([place[0], place[1], place[2], place[3]]);
        }
        Self { record }
    }
}

impl fmt::Debug for Prepared {
    fn fmt(&self, f: &mut fmt::Formatter<'_>) -> fmt::Result {
        f.debug_struct("Prepared").field("modulus", &self.modulus()).field("rows", &self.rows()).finish_non_exhaustive()
    }
}
