//! The limits of docs/RULES.md: of sheets, of a step, of a fleet's record and of `replay`'s input.

use std::ops::RangeInclusive;

/// "Numbers in net sheets and markings are 0..1,000,000."
pub const LARGEST: u32 = 1_000_000;

/// "The value 4,294,967,295 means unbounded and is legal for K and I only."
pub const UNBOUNDED: u32 = 4_294_967_295;

/// "Place count S (2 bytes, 1..64); transition count (2 bytes, 0..64)."
pub const PLACES: u16 = 64;

/// "Place count S (2 bytes, 1..64); transition count (2 bytes, 0..64)."
pub const TRANSITIONS: u16 = 64;

/// "Colours of each place (2 bytes each, 1..64); modes of each transition (2 bytes each, 1..64)."
pub const COLOURS: u16 = 64;

/// "Pairs total at most 256, modes at most 256."
pub const TOTAL: u16 = 256;

/// "Arc count (2 bytes, 0..2,048)."
pub const ARCS: u16 = 2_048;

/// "An arc is mode (2 bytes), pair (2), Pre, Post, I (4 each), 16 bytes."
pub const ARC_BYTES: usize = 16;

/// "Arcs of 14 bytes without the mode", of version 2.
pub const SHORT_ARC_BYTES: usize = 14;

/// "Mode numbers, 2 bytes each, at most 8,192."
pub const MOVEMENTS: usize = 8_192;

/// "A step: a list of 1 to 64 modes, repeats allowed."
pub const STEP: RangeInclusive<usize> = 1..=64;

/// "A weight may be negative, from -1000000 to 1000000."
pub const WEIGHT: i32 = 1_000_000;

/// "At most 1,000 ships", and as many refusals by each number.
pub const SHIPS: u64 = 1_000;

/// "Movements above 8,192,000": 8,192 of each ship.
pub const FLEET_MOVEMENTS: u64 = 8_192_000;

/// "A figure below 0 or above 10^18."
pub const FIGURE: i64 = 1_000_000_000_000_000_000;

/// "Input above 65,536 bytes prints only `long`."
pub const INPUT: usize = 65_536;
