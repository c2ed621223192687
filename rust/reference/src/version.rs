//! "Only net sheets have a version 2."

/// A sheet's version.
#[derive(Clone, Copy, Debug, PartialEq, Eq)]
pub enum Version {
    /// "Arc count (2 bytes, 0..2,048); the arcs."
    One = 1,
    /// "A rule byte follows the version. The arc count and the arcs are replaced by, for each mode, a
    /// 2-byte arc count and that many arcs of 14 bytes without the mode."
    Two = 2,
}

impl Version {
    /// Those of a net sheet.
    pub const BOTH: [Version; 2] = [Version::One, Version::Two];
}
