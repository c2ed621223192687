//! A marking of a net beside one of its complement: the lowest pair at which the two are out of step.

use crate::answer::{ARGUMENT, Answer, NET, UNBOUNDED};
use crate::complement::{Mates, counts_of, dead_at, exceeds, inhibited, mated};
use crate::layout::{Arc, Layout, whole_net};

/// The lowest original pair that is out of step and its excess, or none: the two markings differ on it, or it is
/// bounded and its count and its complement's do not add up to K.
pub fn audit(net: &[u8], marking: &[u32], complement_marking: &[u32]) -> Result<Option<(u16, i64)>, Answer> {
    let layout = whole_net(net)?;
    let mates = Mates::of(&layout);
    if exceeds(&counts_of(&layout, &mates, arc_count(&layout, &mates)?)) {
        return Err(Answer::refused(10, NET, 0));
    }
    if marking.len() != layout.pairs || complement_marking.len() != layout.pairs + mates.count {
        return Err(Answer::refused(17, ARGUMENT, 0));
    }
    let both = marking.iter().zip(complement_marking).zip(&mates.of).enumerate();
    for (pair, ((&count, &copy), &(capacity, mate))) in both {
        let mut excess = i64::from(count) - i64::from(copy);
        if capacity != UNBOUNDED {
            let sum = i64::from(count) + i64::from(complement_marking[mate as usize]) - i64::from(capacity);
            excess = if sum != 0 { sum } else { excess };
        }
        if excess != 0 {
            return Ok(Some((pair as u16, excess)));
        }
    }
    Ok(None)
}

/// How many arcs the complement has, "blank arcs left out"; or 15 at its first arc.
fn arc_count(layout: &Layout, mates: &Mates) -> Result<usize, Answer> {
    let (mut count, mut faults) = (0, false);
    for own in layout.arcs.chunk_by(|one, next| one[..2] == next[..2]) {
        let (mut live, mut at_death, mut dead) = (0, 0, false);
        for arc in own.iter().map(Arc::of) {
            count += usize::from(arc.pre | arc.post != 0);
            let capacity = mates.of[arc.pair()].0;
            if capacity == UNBOUNDED {
                faults |= arc.inhibitor != UNBOUNDED;
                continue;
            }
            dead |= dead_at(arc, capacity, layout.weak);
            let (pre, post) = mated(arc, capacity, layout.weak, false);
            live += usize::from(pre | post != 0);
            at_death += usize::from(pre != 0);
        }
        count += if dead { at_death } else { live };
    }
    if faults { Err(inhibited(layout, mates)) } else { Ok(count) }
}
