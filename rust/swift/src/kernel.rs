//! Running a list of movements over decoded arcs: which form of the arcs to decode.

use crate::answer::{LARGEST, UNBOUNDED};
use crate::layout::{Arc, Layout, pair_of};
use crate::{arcs, rows, steps};

/// A bound above every count and every sum of two.
const OPEN: u32 = 3 * LARGEST;

/// What an arc asks of a count M and makes of it: enabled where 0 ≤ M - Pre ≤ span, giving M - Pre + Post.
#[derive(Clone, Copy)]
pub struct Rule {
    pub pre: u32,
    /// The least of the room less Post, I and what keeps the new count within 1,000,000, less Pre; below zero
    /// (as a signed number) where no count is enabled.
    pub span: u32,
    pub post: u32,
}

impl Rule {
    /// The rule where no arc is written.
    pub const BLANK: Rule = Rule { pre: 0, span: OPEN, post: 0 };

    /// The room is K, or by the weak rule K + Pre.
    #[inline(always)]
    pub fn of(arc: Arc, room: u32) -> Rule {
        let Arc { pre, post, .. } = arc;
        let (pre, post) = (pre as i32, post as i32);
        let room = room.min(OPEN) as i32 - post;
        let inhibitor = arc.inhibitor.min(OPEN) as i32;
        let most = room.min(inhibitor).min(LARGEST as i32 + pre - post);
        Rule { pre: pre as u32, span: (most - pre) as u32, post: post as u32 }
    }
}

/// K of each pair, unbounded where there is no pair.
pub fn capacities(layout: &Layout) -> [u32; 256] {
    let mut capacities = [UNBOUNDED; 256];
    for (capacity, bytes) in capacities.iter_mut().zip(layout.table) {
        *capacity = pair_of(bytes).0;
    }
    capacities
}

/// How many arcs each mode has, 0 where there is no mode.
pub fn arc_counts(layout: &Layout) -> [u16; 256] {
    // Arcs rise by mode: the last one that a mode writes is its end.
    let mut counts = [0; 256];
    for (end, bytes) in (1..).zip(&*layout.arcs) {
        counts[Arc::of(bytes).mode() & 255] = end;
    }
    let mut arcs = 0;
    for count in &mut counts {
        let end = arcs.max(*count);
        *count = end - arcs;
        arcs = end;
    }
    counts
}

/// How far a list ran.
#[derive(Clone, Copy, Debug, PartialEq, Eq)]
pub struct Reach {
    /// How many movements were accepted.
    pub accepted: usize,
    /// "Each tried movement counts its mode's arcs once, a refused one included, and a missing mode counts 0."
    pub arcs: usize,
}

/// Runs the list until a movement is refused. The marking is what those before it gave.
pub fn run_list(layout: &Layout, list: &[[u8; 2]], marking: &mut [u32; 256]) -> Reach {
    run_in(form(layout, list.len()), layout, list, marking)
}

/// The forms in which a mode's arcs can be run over.
#[derive(Clone, Copy, Debug, PartialEq, Eq)]
enum Form {
    /// As the sheet has them: nothing to lay out, each movement looks for its arcs.
    Arcs,
    /// All pairs, four side by side: a movement costs the width of the net.
    Rows,
    /// The arcs decoded: a movement costs its arcs, and a loop whose length is hard to guess.
    Steps,
}

fn run_in(form: Form, layout: &Layout, list: &[[u8; 2]], marking: &mut [u32; 256]) -> Reach {
    match form {
        Form::Arcs => arcs::run_list(layout, list, marking),
        Form::Rows => rows::run_list(layout, list, marking),
        Form::Steps => steps::run_list(layout, list, marking),
    }
}

/// The form whose layout and movements together take the least time, in quarters of a nanosecond.
fn form(layout: &Layout, movements: usize) -> Form {
    let (modes, arcs, width) = (layout.modes.max(1), layout.arcs.len(), layout.pairs.div_ceil(4));
    let (each, halvings) = (arcs / modes, (usize::BITS - arcs.leading_zeros()) as usize);
    let costs = [
        (movements * (20 * halvings + 20 * each), Form::Arcs),
        (300 + 12 * arcs + 6 * modes * width + movements * (6 + 3 * width), Form::Rows),
        (600 + 16 * arcs + 4 * modes + movements * (20 + 3 * each), Form::Steps),
    ];
    let least = costs.into_iter().min_by_key(|&(cost, _)| cost);
    least.map_or(Form::Arcs, |(_, form)| form)
}

#[cfg(test)]
mod tests {
    use super::{Form, Reach, form, run_in};
    use crate::layout::whole_net;
    use crate::list::whole_list;
    use generator::{Random, Style, form as sheet_form, list, net};
    use reference::build::movements;

    /// What running in a form gives: how far, and the marking.
    fn ran(form: Form, sheet: &[u8], list: &[u8], first: &[u32; 256]) -> (Reach, [u32; 256]) {
        let (Ok(layout), Ok(list)) = (whole_net(sheet), whole_list(list)) else {
            panic!("both are accepted")
        };
        let mut marking = *first;
        (run_in(form, &layout, list, &mut marking), marking)
    }

    #[test]
    fn every_form_runs_the_same() {
        let mut random = Random::new(21);
        let mut refused = 0;
        for round in 0..3_000 {
            let style = random.pick(&[Style::Small, Style::Edges, Style::Lively]);
            let (places, transitions, arcs) =
                random.pick(&[(1, 1, 3), (4, 3, 12), (12, 6, 60), (64, 64, 2_048)]);
            let most = if round % 10 == 0 { 400 } else { 20 };
            let net = net(&mut random, style, places, transitions, arcs);
            let sheet = net.sheet_in(sheet_form(&mut random));
            let list = list(&mut random, &net, most);
            let mut first = [0; 256];
            first.iter_mut().zip(&net.pairs).for_each(|(count, pair)| *count = pair.1);
            let (list, length) = (movements(&list), list.len());
            let plain = ran(Form::Arcs, &sheet, &list, &first);
            assert!(ran(Form::Rows, &sheet, &list, &first) == plain, "{net:?}");
            assert!(ran(Form::Steps, &sheet, &list, &first) == plain, "{net:?}");
            refused += usize::from(plain.0.accepted < length);
        }
        assert!(refused > 500);
    }

    #[test]
    fn every_form_is_chosen() {
        let mut random = Random::new(22);
        let large = net(&mut random, Style::Lively, 64, 64, 2_048).sheet();
        let small = net(&mut random, Style::Lively, 3, 3, 9).sheet();
        let chosen = |sheet: &[u8], movements| whole_net(sheet).map(|layout| form(&layout, movements));
        assert_eq!(chosen(&large, 1), Ok(Form::Arcs));
        assert_eq!(chosen(&large, 8_192), Ok(Form::Steps));
        assert_eq!(chosen(&small, 8_192), Ok(Form::Rows));
    }
}
