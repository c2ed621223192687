//! "Pairs, modes and the firing rule": testing and firing one mode.

use crate::answer::{Answer, Refusal, Thing};
use crate::arc::Flow;
use crate::bound::Bound;
use crate::kinds::Mode;
use crate::limits::LARGEST;
use crate::marking::check_marking;
use crate::net::Net;
use crate::net_sheet::whole_net;

/// Whether a mode is enabled at a marking, or why not.
pub fn test(net: &[u8], marking: &[u32], mode: u16) -> Answer {
    Answer::of(&fired(net, marking, Mode(mode)))
}

/// Fires a mode: "firing and running write it"; "other refused calls write nothing".
pub fn fire(net: &[u8], marking: &mut [u32], mode: u16) -> Answer {
    let outcome = fired(net, marking, Mode(mode));
    if let Ok(next) = &outcome {
        marking.copy_from_slice(next);
    }
    Answer::of(&outcome)
}

/// "Net, weights, movements, then the marking, then the mode (6, 11 over all pairs, 12, 13, 14)."
fn fired(net: &[u8], marking: &[u32], mode: Mode) -> Result<Vec<u32>, Answer> {
    let net = whole_net(net)?;
    check_marking(&net, marking)?;
    next_marking(&net, marking, mode, Thing::Argument)
}

/// "6: a movement's mode is not there", at position 0 "for a movement or an argument".
pub fn check_mode(net: &Net, mode: Mode, thing: Thing) -> Result<(), Answer> {
    if mode.index() >= net.mode_count() {
        return Err(Answer::refused(Refusal::Absent, thing, 0));
    }
    Ok(())
}

/// The marking M - Pre + Post, where the mode is enabled at M; the thing at fault where it is not.
pub fn next_marking(net: &Net, marking: &[u32], mode: Mode, thing: Thing) -> Result<Vec<u32>, Answer> {
    check_mode(net, mode, thing)?;
    next_by(net, marking, &net.flows(mode), thing)
}

/// The marking M - Pre + Post by the Pre, Post and I of one mode, or summed over a step: "11 over all
/// pairs, 12, 13, 14", each with its amount at the lowest pair that breaks it. "12 reads by the rule in force."
pub fn next_by(net: &Net, marking: &[u32], flows: &[Flow], thing: Thing) -> Result<Vec<u32>, Answer> {
    let pairs = || marking.iter().copied().zip(flows);
    // Pre is at most M once 11 is passed over, so M - Pre + Post is never below zero.
    let new_counts = || pairs().map(|(count, flow)| count - flow.pre + flow.post);
    let lacking = pairs().map(|(count, flow)| Bound::Finite(count).passed_by(flow.pre));
    unbroken(lacking, Refusal::Pre, thing)?;
    let over_capacity = pairs()
        .zip(&net.capacity)
        .map(|((count, flow), &capacity)| net.rule().room(capacity, flow.pre).passed_by(count + flow.post));
    unbroken(over_capacity, Refusal::Post, thing)?;
    let over_inhibitor = pairs().map(|(count, flow)| flow.inhibitor.passed_by(count));
    unbroken(over_inhibitor, Refusal::Inhibitor, thing)?;
    let over_limit = new_counts().map(|count| Bound::Finite(LARGEST).passed_by(count));
    unbroken(over_limit, Refusal::NewCount, thing)?;
    Ok(new_counts().collect())
}

/// Refused at the lowest pair that has an amount.
fn unbroken(
    amounts: impl Iterator<Item = Option<u32>>,
    refusal: Refusal,
    thing: Thing,
) -> Result<(), Answer> {
    match amounts.enumerate().find_map(|(pair, amount)| Some((pair, amount?))) {
        Some((pair, amount)) => Err(Answer::refused(refusal, thing, pair).by(amount)),
        None => Ok(()),
    }
}
