//! Pairs, modes and things.

/// A place with one of its colours, numbered from 0 across the whole net.
#[derive(Clone, Copy, Debug, PartialEq, Eq, PartialOrd, Ord, Hash)]
#[repr(C)]
pub struct Pair(pub u16);

/// A transition with one of its colours, numbered from 0 across the whole net.
#[derive(Clone, Copy, Debug, PartialEq, Eq, PartialOrd, Ord, Hash)]
#[repr(C)]
pub struct Mode(pub u16);

/// What was at fault.
#[derive(Clone, Copy, Debug, PartialEq, Eq, PartialOrd, Ord, Hash)]
#[repr(u8)]
pub enum Thing {
    /// The net; also what a complement cannot have (10, 15), and any number above 18.
    Net = 0,
    /// The weights.
    Weights = 1,
    /// The movements, or one that a run or a certificate refuses.
    Movements = 2,
    /// A marking, a claim, a mode, a pair, a step, a record or a text in PNML.
    Argument = 3,
}

impl Thing {
    /// The things by their numbers.
    pub(crate) const ALL: [Thing; 4] = [Thing::Net, Thing::Weights, Thing::Movements, Thing::Argument];
}

/// The bytes of the largest net sheet, which is of version 1: always room enough for a complement, a stripped net, a conversion and an import.
pub const LARGEST_NET: usize = 35_083;

/// The bytes of the longest text in PNML: always room enough for an export.
pub const LARGEST_PNML: usize = 467_928;

/// Room for any text of `replay`.
pub const TEXT_ROOM: usize = 262_144;
