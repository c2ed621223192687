//! A run that tests first and then writes, as the engine fires one mode: a mode's arcs are decoded when the net is
//! read, and each movement tests them all in one pass before a second pass writes their pairs, and no other.
//! Nothing is half written, so nothing is ever taken back; the engine's own run writes as it tests. The arcs visited
//! are counted as their span is looked up. A step is tested and written so by its sums. The sheets are read by `swift`.

mod step;

pub use step::fire_step;

use swift::sheets::{Arc, Layout, Reach, arguments, capacities, refused_movement};
use swift::{Answer, LARGEST, Ran};

/// What an arc asks of the count at its pair, and what it adds to it.
#[derive(Clone, Copy)]
struct Visit {
    pre: u32,
    /// Enabled below this count: one more than the least of the room less Post, I and 1,000,000 less Post plus Pre;
    /// 0 where Post is above the room.
    below: u32,
    /// Post less Pre, without a wrap where the arc is enabled.
    gain: u32,
    pair: u8,
}

/// A net's arcs, mode by mode.
struct Visits {
    arcs: Vec<Visit>,
    /// Where each mode's arcs begin and end.
    spans: [(u16, u16); 256],
}

impl Visit {
    #[inline(always)]
    fn of(arc: Arc, room: u32) -> Visit {
        let Arc { pre, post, inhibitor, .. } = arc;
        let below = if room == u32::MAX { u32::MAX } else { (room + 1).saturating_sub(post) };
        let below = below.min(inhibitor.saturating_add(1)).min(LARGEST + pre + 1 - post);
        Visit { pre, below, gain: post.wrapping_sub(pre), pair: arc.pair() as u8 }
    }

    #[inline(always)]
    fn allows(&self, marking: &[u32; 256]) -> bool {
        let count = marking[usize::from(self.pair)];
        (self.pre <= count) & (count < self.below)
    }
}

/// Arcs rise by mode, so that each mode's stand together.
fn visits_of(layout: &Layout) -> Visits {
    let capacities = capacities(layout);
    let mut arcs = Vec::with_capacity(layout.arcs.len());
    let mut spans = [(0, 0); 256];
    for bytes in &*layout.arcs {
        let arc = Arc::of(bytes);
        let span = &mut spans[arc.mode() & 255];
        if span.1 == 0 {
            span.0 = arcs.len() as u16;
        }
        arcs.push(Visit::of(arc, layout.room(capacities[arc.pair()], arc.pre)));
        span.1 = arcs.len() as u16;
    }
    Visits { arcs, spans }
}

/// Runs a list of movements from the counts found in the marking.
pub fn run(net: &[u8], movements: &[u8], marking: &mut [u32]) -> Ran {
    let (layout, list) = match arguments(net, movements, marking) {
        Ok(arguments) => arguments,
        Err(answer) => return Ran::refused(answer),
    };
    let mut counts = [0; 256];
    counts[..marking.len()].copy_from_slice(marking);
    let reach = run_list(&layout, list, &mut counts);
    marking.copy_from_slice(&counts[..marking.len()]);
    let answer = match list.get(reach.accepted) {
        Some(mode) => refused_movement(&layout, &counts, usize::from(u16::from_be_bytes(*mode))),
        None => Answer::ACCEPTED,
    };
    Ran::to(reach, answer)
}

/// Runs the list until a movement is refused. The marking is what those before it gave.
fn run_list(layout: &Layout, list: &[[u8; 2]], marking: &mut [u32; 256]) -> Reach {
    let Visits { arcs, spans } = visits_of(layout);
    let mut visited = 0;
    for (accepted, movement) in list.iter().enumerate() {
        let mode = usize::from(u16::from_be_bytes(*movement));
        if mode >= layout.modes {
            return Reach { accepted, arcs: visited };
        }
        let (from, to) = spans[mode & 255];
        let own = &arcs[usize::from(from)..usize::from(to)];
        visited += own.len();
        if !own.iter().all(|arc| arc.allows(marking)) {
            return Reach { accepted, arcs: visited };
        }
        for arc in own {
            let count = &mut marking[usize::from(arc.pair)];
            *count = count.wrapping_add(arc.gain);
        }
    }
    Reach { accepted: list.len(), arcs: visited }
}
