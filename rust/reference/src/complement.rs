//! The complement: source document 000, figure 6.4, by the lines of docs/RULES.md.

use crate::answer::{Answer, Refusal, Thing};
use crate::arc::{Arc, Flow};
use crate::bound::Bound;
use crate::build::{PlainArc, PlainNet};
use crate::dead::is_dead_mode;
use crate::kinds::Pair;
use crate::limits::{ARCS, PLACES, TOTAL, UNBOUNDED};
use crate::net::Net;
use crate::net_sheet::whole_net;
use crate::output::{no_room, written};
use crate::rule::Rule;

/// Writes the complement's sheet: it "writes the version and rule it was given".
pub fn complement(net: &[u8], output: &mut [u8]) -> Result<usize, Answer> {
    let net = whole_net(net)?;
    written(&complemented_within_limits(&net)?.sheet_in(net.form), output)
}

/// The complement of a net that has one. Complementing: net, 15 at its first arc, 10; "15 is still given, for a dead
/// mode too".
pub fn complemented_within_limits(net: &Net) -> Result<PlainNet, Answer> {
    let inhibits_unbounded = |arc: &&Arc| {
        net.capacity[arc.pair.index()] == Bound::Unbounded && arc.flow.inhibitor != Bound::Unbounded
    };
    if let Some(arc) = net.arcs.iter().find(inhibits_unbounded) {
        return Err(Answer::refused(Refusal::UnboundedCapacity, Thing::Net, arc.offset));
    }
    let plain = complemented(net);
    let places = plain.colours.len() > usize::from(PLACES);
    let pairs = plain.pairs.len() > usize::from(TOTAL);
    let arcs = plain.arcs.len() > usize::from(ARCS);
    if places || pairs || arcs { Err(no_room()) } else { Ok(plain) }
}

/// "Original pairs keep their numbers." "Modes are unchanged. All K and I become unbounded."
fn complemented(net: &Net) -> PlainNet {
    let mut plain = PlainNet {
        colours: net.colours.clone(),
        modes: net.modes.clone(),
        pairs: net.first.iter().map(|&count| (UNBOUNDED, count)).collect(),
        arcs: complement_arcs(net),
    };
    plain.colours.extend(new_places(net));
    for (capacity, count) in net.capacity.iter().zip(&net.first) {
        if let Bound::Finite(capacity) = capacity {
            // "First marking: K less the original's."
            plain.pairs.push((UNBOUNDED, capacity - count));
        }
    }
    plain
}

/// "One for each place with a finite pair, with as many colours as it has finite pairs."
fn new_places(net: &Net) -> Vec<u16> {
    let mut places = Vec::new();
    let mut rest = &net.capacity[..];
    for &colours in &net.colours {
        let (place, after) = rest.split_at(usize::from(colours));
        let finite = place.iter().filter(|&&capacity| capacity != Bound::Unbounded).count();
        if finite > 0 {
            places.push(finite as u16);
        }
        rest = after;
    }
    places
}

/// Every arc of the complement that is not blank, rising by mode, then pair.
fn complement_arcs(net: &Net) -> Vec<PlainArc> {
    let mut arcs = Vec::new();
    let dead: Vec<bool> = net.all_modes().map(|mode| is_dead_mode(net, mode)).collect();
    for arc in &net.arcs {
        let Flow { pre, post, .. } = arc.flow;
        // "Original Pre, Post and first marking stay."
        arcs.push(PlainArc { mode: arc.mode.0, pair: arc.pair.0, pre, post, inhibitor: UNBOUNDED });
        if let Some((pre, post)) = complement_flow(net, arc, dead[arc.mode.index()]) {
            let pair = complement_pair(net, arc.pair).0;
            arcs.push(PlainArc { mode: arc.mode.0, pair, pre, post, inhibitor: UNBOUNDED });
        }
    }
    // "Blank arcs are left out."
    arcs.retain(|arc| arc.pre > 0 || arc.post > 0);
    arcs.sort_by_key(|arc| (arc.mode, arc.pair));
    arcs
}

/// "Each pair of finite K gets a complement pair, numbered after all originals in rising order."
fn complement_pair(net: &Net, pair: Pair) -> Pair {
    let before = &net.capacity[..pair.index()];
    Pair::at(net.pair_count() + before.iter().filter(|&&capacity| capacity != Bound::Unbounded).count())
}

/// Pre and Post on the complement pair, where the arc's pair has one; whether the arc's mode is locally dead is told.
fn complement_flow(net: &Net, arc: &Arc, dead: bool) -> Option<(u32, u32)> {
    let Bound::Finite(capacity) = net.capacity[arc.pair.index()] else { return None };
    // "K less I, or 0 where I ≥ K or unbounded."
    let reserved = match arc.flow.inhibitor {
        Bound::Finite(inhibitor) if inhibitor < capacity => capacity - inhibitor,
        _ => 0,
    };
    // "Pre: the larger of Post and that"; by rule 1 of "Post less Pre, or 0" and that.
    let taken_up = match net.rule() {
        Rule::Strict => arc.flow.post,
        Rule::Weak => arc.flow.post.saturating_sub(arc.flow.pre),
    };
    let pre = taken_up.max(reserved);
    // "For a locally dead mode write each complement Post equal to its complement Pre"; else "that number plus the
    // original Pre less the original Post".
    let post = if dead { pre } else { pre + arc.flow.pre - arc.flow.post };
    Some((pre, post))
}
