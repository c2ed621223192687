//! "A pair number is never handed over where a mode number is due": two distinct kinds.

/// A place with one of its colours (PLACE), numbered from 0 across the whole net.
#[derive(Clone, Copy, Debug, PartialEq, Eq, PartialOrd, Ord)]
pub struct Pair(pub u16);

/// A transition with one of its colours (TRANS), numbered from 0 across the whole net.
#[derive(Clone, Copy, Debug, PartialEq, Eq, PartialOrd, Ord)]
pub struct Mode(pub u16);

impl Pair {
    /// The pair's place in a slice of "one for each pair".
    pub fn index(self) -> usize {
        usize::from(self.0)
    }

    /// The pair at a place in such a slice; a net has at most 256 of them, its complement 512.
    pub fn at(index: usize) -> Pair {
        Pair(u16::try_from(index).expect("pairs are few"))
    }
}

impl Mode {
    /// The mode's number as a count.
    pub fn index(self) -> usize {
        usize::from(self.0)
    }
}
