//! "A sheet is a 4-byte length L (the bytes after it), a version byte 1, then its fields, all big-endian." A net's
//! may be of version 2.

use std::ops::RangeInclusive;

use crate::answer::Answer;

/// The 4 + L bytes of the sheet at the start of a run: "1, then L = 0, then 2" where its version is not from the first of
/// these to the last.
pub fn open(run: &[u8], thing: u8, versions: RangeInclusive<u8>) -> Result<&[u8], Answer> {
    let Some(length) = run.first_chunk::<4>() else {
        return Err(Answer::refused(1, thing, 0));
    };
    let length = u32::from_be_bytes(*length) as usize;
    if run.len() - 4 < length {
        return Err(Answer::refused(1, thing, 0));
    }
    if length == 0 {
        return Err(Answer::refused(3, thing, 0));
    }
    if !versions.contains(&run[4]) {
        return Err(Answer::refused(2, thing, 4));
    }
    Ok(&run[..4 + length])
}

/// The 2-byte field at an offset, where all of it is there.
pub fn two(sheet: &[u8], offset: usize) -> Option<usize> {
    let bytes = sheet.get(offset..)?.first_chunk()?;
    Some(usize::from(u16::from_be_bytes(*bytes)))
}

/// The 4-byte field at an offset, where all of it is there.
pub fn four(sheet: &[u8], offset: usize) -> Option<u32> {
    let bytes = sheet.get(offset..)?.first_chunk()?;
    Some(u32::from_be_bytes(*bytes))
}
