//! Markings out of reach: on small nets every marking that some list leads to is looked for, and none of them is ever excluded.

use std::collections::BTreeSet;

use pnet::Mode;
use reference::Form;
use reference::build::{PlainNet, weights};
use reference::search::marking_where;

use crate::guarded;
use crate::same::Same;
use generator::total;

/// Counts up to this are tried as claims, K of a small net.
const MOST: u32 = 4;

/// Every marking within capacity is claimed, by weights that every mode keeps; the net's sheet is of this version and rule.
pub fn searched(same: &mut Same, net: &PlainNet, form: Form, kilograms: &[i32]) {
    let (sheet, kilograms) = (net.sheet_in(form), weights(kilograms));
    let first: Vec<u32> = net.pairs.iter().map(|&(_, count)| count).collect();
    let reached = reached(&sheet, first.clone(), total(&net.modes) as u16);
    marking_where(net, MOST, |claim| {
        let (excluded, within) = (same.exclude(&sheet, &kilograms, claim).0 == 0, reached.contains(claim));
        assert!(!excluded || !within, "{}: {claim:?} of {net:?} by {kilograms:?}", same.part);
        same.hits.value(match (excluded, within) {
            (true, _) => "excluded, and out of reach",
            (false, true) if claim == first => "the first marking, and not excluded",
            (false, true) => "reached, and not excluded",
            (false, false) => "out of reach, and not excluded",
        });
        false
    });
}

/// Every marking that some list leads to, the first with them.
fn reached(sheet: &[u8], first: Vec<u32>, modes: u16) -> BTreeSet<Vec<u32>> {
    let (mut reached, mut open) = (BTreeSet::from([first.clone()]), vec![first]);
    while let Some(marking) = open.pop() {
        for mode in 0..modes {
            let mut next = marking.clone();
            if guarded::fire(sheet, &mut next, Mode(mode)).is_ok() && reached.insert(next.clone()) {
                open.push(next);
            }
        }
    }
    reached
}
