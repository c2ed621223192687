//! Slices for a call to write a sheet or a text into: each is blank before the call, and blank again after it.

/// Whole pages; the longest slice that is lent is the longest text in PNML.
pub const ROOM: usize = 1 << 19;

/// Each byte of a blank slice.
pub const BLANK: u8 = 170;

/// A blank slice to compare with, short enough to stay near.
static SOME: [u8; 4_096] = [BLANK; 4_096];

/// The bytes that a call says it wrote at the start of a blank slice. Not a byte after them was touched.
pub fn taken(out: &mut [u8], length: usize) -> Vec<u8> {
    let (written, rest) = out.split_at_mut(length);
    let untouched = rest.chunks(SOME.len()).all(|part| *part == SOME[..part.len()]);
    assert!(untouched, "a byte is touched after the {length} that were written");
    let taken = written.to_vec();
    written.fill(BLANK);
    taken
}
