//! A mode's arcs as steps, one after another: for nets of many pairs and few arcs.

use crate::kernel::{Reach, Rule, arc_counts, capacities};
use crate::layout::{Arc, Layout};

/// What an arc does to its pair.
#[derive(Clone, Copy)]
struct Step {
    rule: Rule,
    pair: u32,
}

/// Steps are taken four at a time, so that the length of a mode's loop is easy to guess.
const TOGETHER: usize = 4;

/// The steps of a net, mode by mode.
struct Steps {
    steps: Vec<[Step; TOGETHER]>,
    /// Where each mode's steps begin and end.
    spans: [(u16, u16); 256],
    /// How many of them are no fillers.
    arc_counts: [u16; 256],
}

/// Steps that fill a mode's last four: they change nothing and are always enabled.
const FILLERS: [Step; TOGETHER] = {
    let rule = Rule { pre: 0, span: u32::MAX, post: 0 };
    [Step { rule, pair: 255 }, Step { rule, pair: 254 }, Step { rule, pair: 253 }, Step { rule, pair: 252 }]
};

impl Step {
    #[inline(always)]
    fn of(arc: Arc, room: u32) -> Step {
        let mut rule = Rule::of(arc, room);
        if (rule.span as i32) < 0 {
            // No count less this Pre is within a span of 0.
            rule = Rule { pre: 1 << 31, span: 0, post: 0 };
        }
        Step { rule, pair: arc.pair() as u32 }
    }
}

/// Each mode's steps begin at a four of their own, and are put at their places one after another.
fn steps_of(layout: &Layout) -> Steps {
    let (capacities, arc_counts) = (capacities(layout), arc_counts(layout));
    // How far each mode's steps stand behind its arcs.
    let mut behind = [0; 256];
    let mut spans = [(0, 0); 256];
    let (mut arcs, mut fours) = (0u16, 0u16);
    for mode in 0..layout.modes & 511 {
        let count = arc_counts[mode & 255];
        let to = fours + count.div_ceil(TOGETHER as u16);
        spans[mode & 255] = (fours, to);
        behind[mode & 255] = TOGETHER as u16 * fours - arcs;
        (arcs, fours) = (arcs + count, to);
    }
    let mut steps = vec![FILLERS; usize::from(fours)];
    let places = steps.as_flattened_mut();
    for (at, bytes) in layout.arcs.iter().enumerate() {
        let arc = Arc::of(bytes);
        places[at + usize::from(behind[arc.mode() & 255])] =
            Step::of(arc, layout.room(capacities[arc.pair()], arc.pre));
    }
    Steps { steps, spans, arc_counts }
}

/// Runs the list until a movement is refused. The marking is what those before it gave.
pub fn run_list(layout: &Layout, list: &[[u8; 2]], marking: &mut [u32; 256]) -> Reach {
    let Steps { steps, spans, arc_counts } = steps_of(layout);
    let modes = layout.modes as u16;
    let mut arcs = 0;
    for (accepted, movement) in list.iter().enumerate() {
        let mode = u16::from_be_bytes(*movement);
        if mode >= modes {
            return Reach { accepted, arcs };
        }
        arcs += usize::from(arc_counts[usize::from(mode as u8)]);
        let (from, to) = spans[usize::from(mode as u8)];
        let own = &steps[usize::from(from)..usize::from(to)];
        if !take(own, marking) {
            undo(own, marking);
            return Reach { accepted, arcs };
        }
    }
    Reach { accepted: list.len(), arcs }
}

/// Takes every step, and says whether all of them were enabled.
#[inline(always)]
fn take(own: &[[Step; TOGETHER]], marking: &mut [u32; 256]) -> bool {
    let mut faults = 0;
    for four in own {
        for Step { rule, pair } in four {
            let count = &mut marking[usize::from(*pair as u8)];
            let left = count.wrapping_sub(rule.pre);
            faults += u32::from(left > rule.span);
            *count = left.wrapping_add(rule.post);
        }
    }
    faults == 0
}

/// Takes back every step: a refused movement leaves the marking as it was.
#[cold]
fn undo(own: &[[Step; TOGETHER]], marking: &mut [u32; 256]) {
    for Step { rule, pair } in own.iter().flatten() {
        let count = &mut marking[usize::from(*pair as u8)];
        *count = count.wrapping_sub(rule.post).wrapping_add(rule.pre);
    }
}
