//! "Stripping an area bare": blasting "removes all tokens at a pair whatever their number".

use crate::answer::{Answer, Refusal, Thing};
use crate::bound::Bound;
use crate::build::{PlainArc, PlainNet};
use crate::kinds::Pair;
use crate::limits::{ARCS, COLOURS, TOTAL, TRANSITIONS};
use crate::net::Net;
use crate::net_sheet::whole_net;
use crate::output::{no_room, written};

/// Writes the net's sheet with one transition more, which strips a pair: it "writes the version and rule it was given".
pub fn strip(net: &[u8], pair: u16, output: &mut [u8]) -> Result<usize, Answer> {
    let net = whole_net(net)?;
    let capacity = stripped_capacity(&net, Pair(pair))?;
    written(&stripped_within_limits(&net, Pair(pair), capacity)?.sheet_in(net.form), output)
}

/// "6 for the pair, 15 for unbounded K", both at position 0.
fn stripped_capacity(net: &Net, pair: Pair) -> Result<u32, Answer> {
    match net.capacity.get(pair.index()) {
        None => Err(Answer::refused(Refusal::Absent, Thing::Argument, 0)),
        Some(Bound::Unbounded) => Err(Answer::refused(Refusal::UnboundedCapacity, Thing::Net, 0)),
        Some(Bound::Finite(capacity)) => Ok(*capacity),
    }
}

/// "10 where K is above 63, another limit is passed".
fn stripped_within_limits(net: &Net, pair: Pair, capacity: u32) -> Result<PlainNet, Answer> {
    // Modes 0 to K are one more than a transition may have.
    if capacity >= u32::from(COLOURS) {
        return Err(no_room());
    }
    let plain = stripped(net, pair, capacity as u16);
    let transitions = plain.modes.len() > usize::from(TRANSITIONS);
    let modes = plain.modes.iter().sum::<u16>() > TOTAL;
    let arcs = plain.arcs.len() > usize::from(ARCS);
    if transitions || modes || arcs { Err(no_room()) } else { Ok(plain) }
}

/// "A call that appends a transition to a net sheet: its mode n, for n from 0 to K, has Pre n and I n at the chosen pair."
fn stripped(net: &Net, pair: Pair, capacity: u16) -> PlainNet {
    let mut plain = net.plain();
    let first = net.mode_count() as u16;
    plain.modes.push(capacity + 1);
    plain.arcs.extend((0..=capacity).map(|n| PlainArc {
        mode: first + n,
        pair: pair.0,
        pre: n.into(),
        post: 0,
        inhibitor: n.into(),
    }));
    plain
}
