//! "Weight sheet. Pair count (2 bytes), then one signed 4-byte weight in kilograms for each pair."

use crate::answer::{Answer, Refusal, Thing};
use crate::limits::WEIGHT;
use crate::sheet::{Read, Sheet, answer_and_taken, whole};
use crate::version::Version;

/// Reads a weight sheet at the start of a run: the answer, and how many bytes the sheet takes.
/// "Its reader is also given the net's pair count, for 17."
pub fn read_weights(run: &[u8], pairs: usize) -> (Answer, usize) {
    answer_and_taken(&weights_at(run, pairs))
}

/// A weight sheet that is a call's whole argument.
pub fn whole_weights(run: &[u8], pairs: usize) -> Result<Vec<i32>, Answer> {
    whole(run, Thing::Weights, weights_at(run, pairs))
}

/// The weights at the start of a run of bytes. "In a weight sheet 17 comes before the weights."
pub fn weights_at(run: &[u8], pairs: usize) -> Read<Vec<i32>> {
    let mut sheet = Sheet::open(run, Thing::Weights, &[Version::One])?;
    let offset = sheet.offset();
    let count = sheet.two()?;
    if usize::from(count) != pairs {
        return Err(sheet.refuse(Refusal::NotEachPair, offset));
    }
    let mut weights = Vec::new();
    for _ in 0..count {
        weights.push(weight(&mut sheet)?);
    }
    Ok((weights, sheet.close()?))
}

/// "A weight may be negative, from -1000000 to 1000000": else 5 at its field.
fn weight(sheet: &mut Sheet) -> Result<i32, Answer> {
    let offset = sheet.offset();
    let weight = sheet.four_signed()?;
    if !(-WEIGHT..=WEIGHT).contains(&weight) {
        return Err(sheet.refuse(Refusal::Range, offset));
    }
    Ok(weight)
}
