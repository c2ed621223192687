//! What the tests share: the small net of docs/RULES.md and short ways to name an answer.

use reference::Answer;
use reference::build::{OPEN, PlainNet, arc, movements, weights};

pub const ACCEPTED: Answer = Answer::ACCEPTED;

/// The things of docs/RULES.md.
pub const NET: u8 = 0;
pub const WEIGHTS: u8 = 1;
pub const MOVEMENTS: u8 = 2;
pub const ARGUMENT: u8 = 3;

/// A refusal: number, thing, position. Its amount is 0.
pub fn refused(number: u32, thing: u8, position: u64) -> Answer {
    Answer { number, thing, position, amount: 0 }
}

/// A refusal by 11 to 14, at a pair and by an amount.
pub fn short(number: u32, thing: u8, pair: u64, amount: u64) -> Answer {
    Answer { number, thing, position: pair, amount }
}

/// "Own example: two places, aboard and ashore; one transition of one mode."
pub fn example() -> PlainNet {
    PlainNet::plain(1, &[(5, 3), (OPEN, 0)], &[arc(0, 0, 1, 0, 4), arc(0, 1, 0, 1, OPEN)])
}

/// "Weights 250 and 0 (L = 11)."
pub fn example_weights() -> Vec<u8> {
    weights(&[250, 0])
}

/// "Movements 0, 0, 0, 0 (L = 9)."
pub fn example_movements() -> Vec<u8> {
    movements(&[0, 0, 0, 0])
}

/// The three sheets that follow each other on `replay`'s input.
pub fn input(net: &[u8], weights: &[u8], movements: &[u8]) -> Vec<u8> {
    [net, weights, movements].concat()
}

/// The sheet with some of its bytes written over.
pub fn with(sheet: &[u8], offset: u64, bytes: &[u8]) -> Vec<u8> {
    let mut sheet = sheet.to_vec();
    sheet[offset as usize..offset as usize + bytes.len()].copy_from_slice(bytes);
    sheet
}

/// The sheet cut, or filled with zeros, to a length; its L says so.
pub fn resized(sheet: &[u8], length: u64) -> Vec<u8> {
    let mut sheet = sheet.to_vec();
    sheet.resize(length as usize, 0);
    with(&sheet, 0, &(length as u32 - 4).to_be_bytes())
}

/// The sheet with bytes after it.
pub fn followed(sheet: &[u8], bytes: &[u8]) -> Vec<u8> {
    [sheet, bytes].concat()
}

/// Whether all of these bytes are as they were lent. Whole slices are compared, since byte by byte a test would take ten times as long.
pub fn untouched(bytes: &[u8]) -> bool {
    bytes == vec![170; bytes.len()]
}

/// How far a run comes: how many movements it accepts, and the answer.
pub fn ran_to(net: &[u8], movements: &[u8], marking: &mut [u32]) -> (u64, Answer) {
    let ran = reference::run(net, movements, marking);
    (ran.accepted, ran.answer)
}

/// The complement of a net that has one.
pub fn complement_of(net: &[u8]) -> Vec<u8> {
    let mut output = vec![0; 35_083];
    let length = reference::complement(net, &mut output).expect("the net has a complement");
    output.truncate(length);
    output
}

/// The marking of the complement: on each complement pair K less the original's.
pub fn completed(net: &PlainNet, counts: &[u32]) -> Vec<u32> {
    let finite = net.pairs.iter().zip(counts).filter(|((capacity, _), _)| *capacity != OPEN);
    counts.iter().copied().chain(finite.map(|((capacity, _), count)| capacity - count)).collect()
}
