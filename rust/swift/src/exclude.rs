//! "Proof that a state can't happen": a weight sheet and a claimed marking.

use crate::answer::{Answer, NET, WEIGHTS};
use crate::layout::{Arc, Layout, pair_of, whole_net};
use crate::run::check_marking;
use crate::weights::weights_at;

/// "Accept it exactly when the weight change of every mode is 0 and the figure of the claimed marking differs from that
/// of the first marking."
pub fn exclude(net: &[u8], weights: &[u8], claim: &[u32]) -> Answer {
    try_exclude(net, weights, claim).map_or_else(|answer| answer, |()| Answer::ACCEPTED)
}

fn try_exclude(net: &[u8], run: &[u8], claim: &[u32]) -> Result<(), Answer> {
    let layout = whole_net(net)?;
    let (weights, rest) = weights_at(run, layout.pairs)?;
    if !rest.is_empty() {
        return Err(Answer::refused(3, WEIGHTS, run.len() - rest.len()));
    }
    check_marking(&layout, claim)?;
    if let Some(mode) = unbalanced(&layout, &weights) {
        return Err(Answer::refused(21, NET, mode));
    }
    // The figures are equal exactly where the differences weigh nothing.
    let difference = |(&count, bytes): (&u32, &[u8; 8])| i64::from(count) - i64::from(pair_of(bytes).1);
    let differences = claim.iter().zip(layout.table).map(difference);
    let weighed: i64 = differences.zip(&weights).map(|(count, &weight)| count * i64::from(weight)).sum();
    if weighed == 0 { Err(Answer::refused(22, NET, 0)) } else { Ok(()) }
}

/// The first mode whose weight change is not 0: arcs rise by mode, so that each mode's stand together.
fn unbalanced(layout: &Layout, weights: &[i32; 256]) -> Option<usize> {
    let (mut mode, mut change) = (0, 0);
    for arc in layout.arcs.iter().map(Arc::of) {
        if arc.mode() != mode {
            if change != 0 {
                return Some(mode);
            }
            (mode, change) = (arc.mode(), 0);
        }
        change += i64::from(weights[arc.pair()]) * (i64::from(arc.post) - i64::from(arc.pre));
    }
    (change != 0).then_some(mode)
}
