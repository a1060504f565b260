//! The numbers that a call refuses with, and their words.

use std::fmt;

/// Makes the refusals from a table: a number, the header's name for it, and the words of include/zahupnik_refusal.h.
macro_rules! refusals {
    ($($(#[$meaning:meta])* $number:literal $name:ident $({ $(#[$told:meta])* $field:ident })? $words:literal;)*) => {
        /// Why a call refused, by the header's names. What was lent is then as it was.
        ///
        /// Its words, by [`Display`](fmt::Display), say what is wrong and what to do.
        ///
        /// ```
        /// use zahupnik::{plain_expand, Refusal};
        /// let refusal = plain_expand(7, &[1, 7], &[0, 3], &[1, 5], &[3, 0, 1]).unwrap_err();
        /// assert_eq!(refusal, Refusal::Entry);
        /// assert_eq!(refusal.number(), 9);
        /// println!("{refusal}");
        /// ```
        #[derive(Clone, Copy, Debug, PartialEq, Eq, Hash)]
        #[non_exhaustive]
        pub enum Refusal {
            $($(#[$meaning])* $name $({ $(#[$told])* $field: u32 })?,)*
            /// A number that this crate has no name for: the library is of a later version than the crate.
            Unknown(u32),
        }

        impl Refusal {
            /// The number that the C function returns.
            pub const fn number(self) -> u32 {
                match self {
                    $(Self::$name $({ $field: _ })? => $number,)*
                    Self::Unknown(number) => number,
                }
            }

            /// What is wrong, and what to do.
            pub const fn words(self) -> &'static str {
                match self {
                    $(Self::$name $({ $field: _ })? => $words,)*
                    Self::Unknown(_) => UNKNOWN,
                }
            }

            /// The refusal of a number, as one stands in the answer `refused=9` of a program; `None` for 0, which is no refusal. Only
            /// the number is told by such an answer, so the factor of [`NoInverse`](Self::NoInverse) is 0 here.
            pub const fn from_number(number: u32) -> Option<Self> {
                Some(match number {
                    0 => return None,
                    $($number => Self::$name $({ $field: 0 })?,)*
                    _ => Self::Unknown(number),
                })
            }
        }
    };
}

const UNKNOWN: &str = "no call answers with this number: look where it came from";

refusals! {
    /// The job text has more than [`MOST_TEXT`](crate::MOST_TEXT) bytes.
    1 TextTooLong "the text has more than 8192 bytes: send a shorter one";
    /// The job text is not of the form; or no job text has this operation.
    2 TextForm "the text is not of its form, or no operation has that number: write it as its form is, or name one of the five operations";
    /// m, or m1 or m2, is below 2 or above [`GREATEST_MODULUS`](crate::GREATEST_MODULUS).
    3 Modulus "a channel number is below 2 or above 2147483647: choose another";
    /// The lists a, b and c are not equally long.
    4 Lengths "a, b and c are not equally long: give each of them one number for every row";
    /// There are more than [`MOST_ROWS`](crate::MOST_ROWS) rows, or an append would make them; or a list that is to change its order has
    /// more than [`MOST_ENTRIES`](crate::MOST_ENTRIES) numbers.
    5 Rows "there are more than 127 rows, or would be, or more than 128 numbers in a list to be ordered: use a shorter family, or list";
    /// The curve, or the list of coefficients, is not n long; or not empty in a job for moments or norms.
    6 CurveLength "the curve, or the list of coefficients, is too short or too long: give one number more than there are rows, or none for moments and norms";
    /// The output is not as long as the result; or too short for an answer text or a job text. Only a call of [`lent`](crate::lent) meets
    /// this: elsewhere the crate makes the output.
    7 OutputLength "the output is not as long as the result, or has too little room for a text: lend one of the length that the header states";
    /// The working list is shorter than [`LEAST_WORK`](crate::LEAST_WORK). Only a call of [`lent`](crate::lent) meets this.
    8 WorkTooShort "the working list has fewer than 16384 numbers: lend a longer one";
    /// An entry of a, b or c is not below m.
    9 Entry "a number of a, b or c is not below the channel number: correct it, or reduce the family";
    /// Some a has no inverse modulo m: that of the lowest such row is not zero, and shares a factor with m.
    10 AInverse "a number of a shares a factor with the channel number: choose a channel number without that factor, or correct the family";
    /// Some c from row 2 on has no inverse modulo m: that of the lowest such row is not zero, and shares a factor with m.
    11 CInverse "a number of c, from row 2 on, shares a factor with the channel number: choose a channel number without that factor, or correct the family";
    /// A curve entry, a coefficient, a remainder to join or the number to invert is not below its m.
    12 CurveEntry "a number of the curve, a coefficient, or a number to be joined or inverted is not below the channel number: correct it, or reduce it";
    /// The number to invert has no inverse modulo m.
    13 NoInverse {
        /// The greatest common factor of the number and m: m where the number is zero, above 1 and below m where it is not.
        factor
    } "the number has no inverse: look at the factor that comes with it, which for zero is the channel number itself";
    /// The prepared family is not the record of its own rows, or these are not accepted.
    14 Record "the prepared family is not the record of its own rows, or these are not accepted: make it anew from its rows";
    /// There is no row to drop.
    15 NoRows "there is no row to drop: drop no more rows than were appended";
    /// There is no such row to replace.
    16 AbsentRow "there is no such row to replace: name one from 1 to the number of rows";
    /// Some a has no inverse modulo m: that of the lowest such row is zero; of [`expand_join`](crate::expand_join), it leaves zero.
    17 AZero "a number of a is zero, or leaves zero, and is the first without an inverse: correct the family, or choose another channel number if it only leaves zero";
    /// Some c from row 2 on has no inverse modulo m: that of the lowest such row is zero; of [`expand_join`](crate::expand_join), it
    /// leaves zero.
    18 CZero "a number of c, from row 2 on, is zero, or leaves zero, and is the first without an inverse: correct the family, or choose another channel number if it only leaves zero";
    /// m1 and m2 share a factor greater than 1.
    19 SharedFactor "the two channel numbers share a factor: choose another one of them";
    /// The two lists of remainders are not equally long.
    20 Remainders "the two lists of remainders are not equally long: lend as many of the one as of the other";
}

impl fmt::Display for Refusal {
    fn fmt(&self, f: &mut fmt::Formatter<'_>) -> fmt::Result {
        match self {
            Self::NoInverse { factor: factor @ 1.. } => write!(f, "{} (the factor is {factor})", self.words()),
            Self::Unknown(number) => write!(f, "{} (the number is {number})", self.words()),
            _ => f.write_str(self.words()),
        }
    }
}

impl std::error::Error for Refusal {}
