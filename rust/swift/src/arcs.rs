//! A mode's arcs as the sheet has them: for short lists, where laying out another form would not pay.

use crate::kernel::{Reach, Rule};
use crate::layout::{Arc, Layout};

/// Runs the list until a movement is refused. The marking is what those before it gave.
pub fn run_list(layout: &Layout, list: &[[u8; 2]], marking: &mut [u32; 256]) -> Reach {
    let mut arcs = 0;
    for (accepted, movement) in list.iter().enumerate() {
        let mode = usize::from(u16::from_be_bytes(*movement));
        if mode >= layout.modes {
            return Reach { accepted, arcs };
        }
        let own = layout.arcs_of(mode);
        arcs += own.len();
        let enabled = |arc: Arc| {
            let rule = Rule::of(arc, layout.room(layout.capacity(arc.pair()), arc.pre));
            let left = marking[arc.pair()].wrapping_sub(rule.pre);
            ((left | rule.span.wrapping_sub(left)) as i32) >= 0
        };
        if !own.iter().map(Arc::of).all(enabled) {
            return Reach { accepted, arcs };
        }
        for arc in own.iter().map(Arc::of) {
            let count = &mut marking[arc.pair()];
            *count = *count - arc.pre + arc.post;
        }
    }
    Reach { accepted: list.len(), arcs }
}
