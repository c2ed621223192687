//! "Running stops at the first refused movement, returns how many were accepted, and leaves the
//! marking that those gave." "Report how many arcs a run visits."

use crate::answer::{Answer, Thing};
use crate::firing::next_marking;
use crate::kinds::Mode;
use crate::marking::check_marking;
use crate::movement_sheet::whole_movements;
use crate::net::Net;
use crate::net_sheet::whole_net;

/// How a run went.
#[derive(Clone, Copy, Debug, PartialEq, Eq)]
pub struct Ran {
    /// How many movements were accepted.
    pub accepted: u64,
    /// "Each tried movement counts its mode's arcs once, a refused one included, and a missing mode counts 0."
    pub arcs: u64,
    /// Accepted where every movement was.
    pub answer: Answer,
}

/// Runs a list of movements from the counts found in the marking; refused before its first, it tries none.
pub fn run(net: &[u8], movements: &[u8], marking: &mut [u32]) -> Ran {
    match arguments(net, movements, marking) {
        Ok((net, movements)) => run_from(&net, &movements, marking),
        Err(answer) => Ran { accepted: 0, arcs: 0, answer },
    }
}

/// "Across things: net, weights, movements, then the marking."
fn arguments(net: &[u8], movements: &[u8], marking: &[u32]) -> Result<(Net, Vec<Mode>), Answer> {
    let net = whole_net(net)?;
    let movements = whole_movements(movements)?;
    check_marking(&net, marking)?;
    Ok((net, movements))
}

/// "2 movements, also one that a run or certificate refuses."
pub fn run_from(net: &Net, movements: &[Mode], marking: &mut [u32]) -> Ran {
    let mut ran = Ran { accepted: 0, arcs: 0, answer: Answer::ACCEPTED };
    for &mode in movements {
        ran.arcs += net.arcs_of(mode).len() as u64;
        match next_marking(net, marking, mode, Thing::Movements) {
            Ok(next) => marking.copy_from_slice(&next),
            Err(answer) => return Ran { answer, ..ran },
        }
        ran.accepted += 1;
    }
    ran
}
