//! "Salvage of a cut movement sheet": the leading movements that the net accepts, as a fresh sheet.

use crate::answer::{Answer, MOVEMENTS, NET};
use crate::layout::{pair_of, whole_net};
use crate::run::run_from;

/// What was salvaged.
#[derive(Clone, Copy, Debug, PartialEq, Eq)]
pub struct Salvaged {
    /// The bytes of the fresh sheet.
    pub length: usize,
    /// Movements kept.
    pub kept: usize,
    /// Movements considered and dropped.
    pub dropped: usize,
    /// Why the first of them was refused; accepted where none was.
    pub stop: Answer,
}

/// Writes the fresh sheet: those movements stand in it as they stand in the damaged bytes.
pub fn salvage(net: &[u8], damaged: &[u8], output: &mut [u8]) -> Result<Salvaged, Answer> {
    let layout = whole_net(net)?;
    let list = considered(damaged)?;
    let mut marking = [0; 256];
    for (count, bytes) in marking.iter_mut().zip(layout.table) {
        *count = pair_of(bytes).1;
    }
    let (reach, stop) = run_from(&layout, list, &mut marking);
    let kept = reach.accepted;
    let length = 5 + 2 * kept;
    let place = output.get_mut(..length).ok_or(Answer::refused(10, NET, 0))?;
    place[..4].copy_from_slice(&(length as u32 - 4).to_be_bytes());
    place[4] = 1;
    place[5..].copy_from_slice(list[..kept].as_flattened());
    Ok(Salvaged { length, kept, dropped: list.len() - kept, stop })
}

/// The modes from byte 5 to the lesser of 4 + L and the end, at most 8,192 of them.
fn considered(damaged: &[u8]) -> Result<&[[u8; 2]], Answer> {
    let Some((head, body)) = damaged.split_first_chunk::<5>() else {
        return Err(Answer::refused(1, MOVEMENTS, 0));
    };
    let length = u32::from_be_bytes([head[0], head[1], head[2], head[3]]) as usize;
    if length == 0 {
        return Err(Answer::refused(3, MOVEMENTS, 0));
    }
    if head[4] != 1 {
        return Err(Answer::refused(2, MOVEMENTS, 4));
    }
    let list = body[..body.len().min(length - 1)].as_chunks().0;
    Ok(&list[..list.len().min(8_192)])
}
