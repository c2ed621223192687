//! "Running stops at the first refused movement, returns how many were accepted, and leaves the
//! marking that those gave." "Report how many arcs a run visits."

use crate::answer::{ARGUMENT, Answer, LARGEST};
use crate::fault;
use crate::kernel::{Reach, run_list};
use crate::layout::{Layout, pair_of, whole_net};
use crate::list::whole_list;

/// How a run went.
#[derive(Clone, Copy, Debug, PartialEq, Eq)]
pub struct Ran {
    /// How many movements were accepted.
    pub accepted: u64,
    /// How many arcs were visited.
    pub arcs: u64,
    /// Accepted where every movement was.
    pub answer: Answer,
}

impl Ran {
    /// Refused before the first movement.
    pub fn refused(answer: Answer) -> Ran {
        Ran { accepted: 0, arcs: 0, answer }
    }

    /// The list ran so far, with this answer.
    pub fn to(reach: Reach, answer: Answer) -> Ran {
        Ran { accepted: reach.accepted as u64, arcs: reach.arcs as u64, answer }
    }
}

/// Runs a list of movements from the counts found in the marking.
pub fn run(net: &[u8], movements: &[u8], marking: &mut [u32]) -> Ran {
    let (layout, list) = match arguments(net, movements, marking) {
        Ok(arguments) => arguments,
        Err(answer) => return Ran::refused(answer),
    };
    let mut counts = [0; 256];
    counts[..marking.len()].copy_from_slice(marking);
    let (reach, answer) = run_from(&layout, list, &mut counts);
    marking.copy_from_slice(&counts[..marking.len()]);
    Ran::to(reach, answer)
}

/// Runs a list from a marking that fits the net.
pub fn run_from(layout: &Layout, list: &[[u8; 2]], marking: &mut [u32; 256]) -> (Reach, Answer) {
    let reach = run_list(layout, list, marking);
    let answer = match list.get(reach.accepted) {
        Some(refused) => fault::of_movement(layout, marking, usize::from(u16::from_be_bytes(*refused))),
        None => Answer::ACCEPTED,
    };
    (reach, answer)
}

/// A net and a list that were accepted.
pub type Arguments<'a> = (Layout<'a>, &'a [[u8; 2]]);

/// "Net, weights, movements, then the marking."
pub fn arguments<'a>(net: &'a [u8], movements: &'a [u8], marking: &[u32]) -> Result<Arguments<'a>, Answer> {
    let layout = whole_net(net)?;
    let list = whole_list(movements)?;
    check_marking(&layout, marking)?;
    Ok((layout, list))
}

/// "Then the marking (17, then pair by pair 5 before 9)."
pub fn check_marking(layout: &Layout, marking: &[u32]) -> Result<(), Answer> {
    if marking.len() != layout.pairs {
        return Err(Answer::refused(17, ARGUMENT, 0));
    }
    for (pair, (&count, bytes)) in marking.iter().zip(layout.table).enumerate() {
        if count > LARGEST {
            return Err(Answer::refused(5, ARGUMENT, pair));
        }
        if count > pair_of(bytes).0 {
            return Err(Answer::refused(9, ARGUMENT, pair));
        }
    }
    Ok(())
}
