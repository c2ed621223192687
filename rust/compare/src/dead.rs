//! Locally dead modes: on small nets a marking that enables a mode is looked for by brute force, by either rule.

use pnet::Mode;
use reference::build::PlainNet;
use reference::search::marking_where;

use crate::same::Same;
use crate::{guarded, rules};
use generator::total;

/// Counts up to this are tried, more than a small net's Pre.
const MOST: u32 = 5;

/// Some marking is found exactly for the live modes, and for them the marking of their Pre is one.
pub fn searched(same: &mut Same, net: &PlainNet) {
    if net.pairs.len() > 3 {
        return;
    }
    rules::sheets(net).iter().for_each(|sheet| of_rule(same, net, sheet));
}

fn of_rule(same: &mut Same, net: &PlainNet, sheet: &[u8]) {
    for mode in 0..total(&net.modes) as u16 {
        let accepts = |counts: &[u32]| guarded::test(sheet, counts, Mode(mode)).is_ok();
        let found = marking_where(net, MOST, accepts).is_some();
        let of = |same: &Same| format!("{}: mode {mode} of {net:?}", same.part);
        assert_eq!(guarded::is_dead(sheet, Mode(mode)), Ok(!found), "{}", of(same));
        assert_eq!(accepts(&pre(net, mode)), found, "{}, where the marking is its Pre", of(same));
        same.hits.value(match (found, rules::is_weak(sheet)) {
            (true, false) => "a marking found",
            (false, false) => "no marking found",
            (true, true) => "a marking found by rule 1",
            (false, true) => "no marking found by rule 1",
        });
    }
}

/// A mode's Pre at each pair.
fn pre(net: &PlainNet, mode: u16) -> Vec<u32> {
    let mut pre = vec![0; net.pairs.len()];
    net.arcs.iter().filter(|arc| arc.mode == mode).for_each(|arc| pre[usize::from(arc.pair)] = arc.pre);
    pre
}
