//! The operations of a job.

use crate::Refusal;
use std::fmt;

/// The operation of a job that [`write_job`](crate::write_job) writes.
#[derive(Clone, Copy, Debug, PartialEq, Eq, Hash)]
pub enum Operation {
    /// Expand: [`tree_expand`](crate::tree_expand).
    Expand = 0,
    /// Adjoint: [`tree_adjoint`](crate::tree_adjoint).
    Adjoint = 1,
    /// Decompose: [`tree_decompose`](crate::tree_decompose).
    Decompose = 2,
    /// Moments: [`moments`](crate::moments).
    Moments = 3,
    /// Norms: [`norms`](crate::norms).
    Norms = 4,
}

impl Operation {
    /// The operations in the order of their numbers.
    pub const ALL: [Self; 5] = [Self::Expand, Self::Adjoint, Self::Decompose, Self::Moments, Self::Norms];

    /// The number that the C function is told.
    pub const fn number(self) -> u32 {
        self as u32
    }

    /// The word that stands in a job text.
    pub const fn word(self) -> &'static str {
        match self {
            Self::Expand => "expand",
            Self::Adjoint => "adjoint",
            Self::Decompose => "decompose",
            Self::Moments => "moments",
            Self::Norms => "norms",
        }
    }
}

impl fmt::Display for Operation {
    fn fmt(&self, f: &mut fmt::Formatter<'_>) -> fmt::Result {
        f.write_str(self.word())
    }
}

/// The operation of a number; [`Refusal::TextForm`] if no job text has it, as the C function answers.
impl TryFrom<u32> for Operation {
    type Error = Refusal;

    fn try_from(number: u32) -> Result<Self, Refusal> {
        Self::ALL.into_iter().find(|operation| operation.number() == number).ok_or(Refusal::TextForm)
    }
}
