//! Document 01, "Words": combinations, what they include, when two are compatible, what they join to.

use crate::limits::WIDTH;

/// One number a parameter; 0 stands for unbound. The derived order is the document's:
/// parameter 0 first, then 1, 2, 3, as whole numbers.
#[derive(Clone, Copy, Debug, PartialEq, Eq, PartialOrd, Ord, Hash, Default)]
pub struct Combination(pub [u32; WIDTH]);

impl Combination {
    pub const EMPTY: Combination = Combination([0; WIDTH]);

    /// The combination held by the first numbers of a lent row.
    pub fn of_row(row: &[u32]) -> Combination {
        let mut numbers = [0; WIDTH];
        numbers.copy_from_slice(&row[..WIDTH]);
        Combination(numbers)
    }

    pub fn is_empty(&self) -> bool {
        *self == Combination::EMPTY
    }

    /// Agrees with `other` wherever `other` is bound.
    pub fn includes(&self, other: &Combination) -> bool {
        (0..WIDTH).all(|i| other.0[i] == 0 || self.0[i] == other.0[i])
    }

    /// Agrees with `other` wherever both are bound.
    pub fn compatible(&self, other: &Combination) -> bool {
        (0..WIDTH).all(|i| self.0[i] == 0 || other.0[i] == 0 || self.0[i] == other.0[i])
    }

    /// Binds what either binds; meant for compatible combinations.
    pub fn join(&self, other: &Combination) -> Combination {
        let mut joined = *self;
        for (number, &theirs) in joined.0.iter_mut().zip(&other.0) {
            if *number == 0 {
                *number = theirs;
            }
        }
        joined
    }

    /// The set of bound parameters: bit i for parameter i.
    pub fn set(&self) -> u32 {
        (0..WIDTH).filter(|&i| self.0[i] != 0).map(|i| 1 << i).sum()
    }

    /// Some number past the declared parameters is not 0.
    pub fn exceeds(&self, parameters: u32) -> bool {
        (0..WIDTH).any(|i| i as u32 >= parameters && self.0[i] != 0)
    }
}
