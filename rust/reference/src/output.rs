//! A sheet written into a lent slice.

use crate::answer::{Answer, Refusal, Thing};

/// "The call returns the length written and touches no byte after it": 10 where the output is shorter.
pub fn written(sheet: &[u8], output: &mut [u8]) -> Result<usize, Answer> {
    let place = output.get_mut(..sheet.len()).ok_or(no_room())?;
    place.copy_from_slice(sheet);
    Ok(sheet.len())
}

/// "10: complement exceeds the sheet's limits, or the output slice is shorter than it."
pub fn no_room() -> Answer {
    Answer::refused(Refusal::NoRoom, Thing::Net, 0)
}
