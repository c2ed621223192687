//! "Several movements as one step": "a list of 1 to 64 modes, repeats allowed".

use crate::answer::{Answer, Refusal, Thing};
use crate::arc::{BLANK, Flow};
use crate::firing::{check_mode, next_by};
use crate::kinds::Mode;
use crate::limits::STEP;
use crate::marking::check_marking;
use crate::net::Net;
use crate::net_sheet::whole_net;

/// Whether a step is enabled at a marking, or why not.
pub fn test_step(net: &[u8], marking: &[u32], modes: &[u16]) -> Answer {
    Answer::of(&stepped(net, marking, modes))
}

/// Fires a step: a refused one writes nothing.
pub fn fire_step(net: &[u8], marking: &mut [u32], modes: &[u16]) -> Answer {
    let outcome = stepped(net, marking, modes);
    if let Ok(next) = &outcome {
        marking.copy_from_slice(next);
    }
    Answer::of(&outcome)
}

/// "Net and marking, 4 for an empty or too long step, then 6, 11, 12, 13, 14 over the sums."
fn stepped(net: &[u8], marking: &[u32], modes: &[u16]) -> Result<Vec<u32>, Answer> {
    let net = whole_net(net)?;
    check_marking(&net, marking)?;
    if !STEP.contains(&modes.len()) {
        return Err(Answer::refused(Refusal::Count, Thing::Argument, 0));
    }
    let members: Vec<Mode> = modes.iter().copied().map(Mode).collect();
    for &member in &members {
        check_mode(&net, member, Thing::Argument)?;
    }
    next_by(&net, marking, &summed(&net, &members), Thing::Argument)
}

/// At every pair "summed Pre", "summed Post" and "the least I of its members"; a repeat counts each time.
fn summed(net: &Net, members: &[Mode]) -> Vec<Flow> {
    let mut sums = vec![BLANK; net.pair_count()];
    for &member in members {
        for (sum, flow) in sums.iter_mut().zip(net.flows(member)) {
            sum.pre += flow.pre;
            sum.post += flow.post;
            sum.inhibitor = sum.inhibitor.least(flow.inhibitor);
        }
    }
    sums
}
