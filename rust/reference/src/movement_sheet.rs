//! "Movement sheet. Mode numbers, 2 bytes each, at most 8,192. L = 1 is the empty list."

use crate::answer::{Answer, Refusal, Thing};
use crate::kinds::Mode;
use crate::limits::MOVEMENTS;
use crate::sheet::{Read, Sheet, answer_and_taken, whole};
use crate::version::Version;

/// Reads a movement sheet at the start of a run: the answer, and how many bytes the sheet takes.
pub fn read_movements(run: &[u8]) -> (Answer, usize) {
    answer_and_taken(&movements_at(run))
}

/// A movement sheet that is a call's whole argument.
pub fn whole_movements(run: &[u8]) -> Result<Vec<Mode>, Answer> {
    whole(run, Thing::Movements, movements_at(run))
}

/// The movements at the start of a run of bytes. "A lone last byte (3, at that byte) comes before
/// too many movements (4, at offset 5)."
pub fn movements_at(run: &[u8]) -> Read<Vec<Mode>> {
    let mut sheet = Sheet::open(run, Thing::Movements, &[Version::One])?;
    let (offset, bytes) = (sheet.offset(), sheet.left());
    if bytes % 2 == 1 {
        return Err(sheet.refuse(Refusal::Field, offset + bytes - 1));
    }
    if bytes / 2 > MOVEMENTS {
        return Err(sheet.refuse(Refusal::Count, offset));
    }
    let mut movements = Vec::with_capacity(bytes / 2);
    for _ in 0..bytes / 2 {
        movements.push(Mode(sheet.two()?));
    }
    Ok((movements, sheet.close()?))
}
