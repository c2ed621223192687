//! "A mode is locally dead when, at some pair, Pre is above the least of K less Post and I, or Post is
//! above K"; by rule 1 "when, at some pair, Pre is above the lesser of K and I, or Post is above K".

use crate::answer::{Answer, Thing};
use crate::arc::Flow;
use crate::bound::Bound;
use crate::firing::check_mode;
use crate::kinds::{Mode, Pair};
use crate::net::Net;
use crate::net_sheet::whole_net;
use crate::rule::Rule;

/// "One call takes a net and a mode (the net's refusals, then 6) and gives yes or no."
pub fn is_dead(net: &[u8], mode: u16) -> Result<bool, Answer> {
    let net = whole_net(net)?;
    check_mode(&net, Mode(mode), Thing::Argument)?;
    Ok(is_dead_mode(&net, Mode(mode)))
}

/// Whether a mode of the net is locally dead.
pub fn is_dead_mode(net: &Net, mode: Mode) -> bool {
    lowest_dead_pair(net, mode).is_some()
}

/// "Another takes a net and gives its lowest locally dead mode with the lowest pair that makes it so,
/// or none."
pub fn first_dead(net: &[u8]) -> Result<Option<(Mode, Pair)>, Answer> {
    let net = whole_net(net)?;
    for mode in net.all_modes() {
        if let Some(pair) = lowest_dead_pair(&net, mode) {
            return Ok(Some((mode, pair)));
        }
    }
    Ok(None)
}

/// The lowest pair that makes the mode locally dead.
fn lowest_dead_pair(net: &Net, mode: Mode) -> Option<Pair> {
    let flows = net.flows(mode);
    (0..net.pair_count()).find(|&pair| is_dead_at(net.rule(), net.capacity[pair], flows[pair])).map(Pair::at)
}

/// Whether no count within K passes at a pair.
fn is_dead_at(rule: Rule, capacity: Bound, flow: Flow) -> bool {
    // "Or Post is above K."
    let Some(less_post) = capacity.less(flow.post) else { return true };
    let most = match rule {
        Rule::Strict => less_post,
        Rule::Weak => capacity,
    };
    most.least(flow.inhibitor).is_below(flow.pre)
}
