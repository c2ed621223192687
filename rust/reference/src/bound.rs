//! "Each pair has a capacity K. K and I may be unbounded."

use crate::limits::UNBOUNDED;

/// A capacity K or an inhibitor I.
#[derive(Clone, Copy, Debug, PartialEq, Eq)]
pub enum Bound {
    /// A number 0..1,000,000.
    Finite(u32),
    /// The value 4,294,967,295.
    Unbounded,
}

impl Bound {
    /// The bound that a 4-byte field holds.
    pub fn of_field(field: u32) -> Bound {
        if field == UNBOUNDED { Bound::Unbounded } else { Bound::Finite(field) }
    }

    /// The 4-byte field that holds the bound.
    pub fn field(self) -> u32 {
        match self {
            Bound::Finite(number) => number,
            Bound::Unbounded => UNBOUNDED,
        }
    }

    /// The least of two bounds.
    pub fn least(self, other: Bound) -> Bound {
        match (self, other) {
            (Bound::Finite(one), Bound::Finite(two)) => Bound::Finite(one.min(two)),
            (Bound::Unbounded, bound) | (bound, Bound::Unbounded) => bound,
        }
    }

    /// Whether a number is above the bound; nothing is above an unbounded one.
    pub fn is_below(self, number: u32) -> bool {
        self.passed_by(number).is_some()
    }

    /// How much a number is above the bound, where it is.
    pub fn passed_by(self, number: u32) -> Option<u32> {
        match self {
            Bound::Finite(most) if number > most => Some(number - most),
            _ => None,
        }
    }

    /// The bound with a number added, unbounded where it is unbounded.
    pub fn plus(self, number: u32) -> Bound {
        match self {
            Bound::Finite(most) => Bound::Finite(most + number),
            Bound::Unbounded => Bound::Unbounded,
        }
    }

    /// The bound less a number, unbounded where it is unbounded; none where the number is above it.
    pub fn less(self, number: u32) -> Option<Bound> {
        match self {
            Bound::Finite(most) => most.checked_sub(number).map(Bound::Finite),
            Bound::Unbounded => Some(Bound::Unbounded),
        }
    }
}
