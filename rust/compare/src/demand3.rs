//! A net and its complement: what docs/RULES.md says of the two, for any list of movements and any step.

use pnet::Mode;
use reference::build::{OPEN, PlainArc, PlainNet, movements};

use crate::case::walk;
use crate::guarded;
use crate::rules::{is_weak, over};
use crate::same::{Plain, Same};
use crate::versions::in_version_1;
use generator::{self, Random, Style, total};

/// The net and its complement accept the same movements, stop at the same one, and stay in step, from the first marking and from others.
pub fn in_step(same: &mut Same, random: &mut Random, style: Style, net: &PlainNet, most: usize) -> bool {
    let sheet = net.sheet_in(generator::form(random));
    let Some(complement) = same.complement(&sheet, pnet::LARGEST_NET) else { return false };
    assert_eq!(guarded::read_net(&complement), Ok(&[][..]), "{}: the complement of {net:?}", same.part);
    no_mode_is_dead(same, net, &sheet, &complement);
    let first: Vec<u32> = net.pairs.iter().map(|&(_, count)| count).collect();
    assert_eq!(guarded::first_marking(&complement), Ok(completed(net, &first)), "{}: {net:?}", same.part);
    let other: Vec<u32> =
        net.pairs.iter().map(|&(capacity, _)| generator::count(random, style, capacity)).collect();
    for start in [first, other] {
        let list = walk(random, &sheet, &start, total(&net.modes), most);
        for mode in 0..total(&net.modes).min(EACH) as u16 {
            one(same, net, (&sheet, &complement), &start, mode);
        }
        one_by_one(same, net, (&sheet, &complement), &start, &list);
        let modes = generator::step(random, net);
        at_once(same, net, (&sheet, &complement), &start, &modes);
    }
    true
}

/// So many modes are tried at the marking where a list begins.
const EACH: usize = 8;

/// One mode: refusals correspond, and so do the markings after it.
fn one(
    same: &mut Same,
    net: &PlainNet,
    (sheet, complement): (&[u8], &[u8]),
    counts: &[u32],
    mode: u16,
) -> Vec<u32> {
    let (answer, after) = same.fire(sheet, counts, mode);
    let (other, both_after) = same.fire(complement, &completed(net, counts), mode);
    let of = |same: &Same| format!("{}: mode {mode} at {counts:?} of {net:?}", same.part);
    assert_eq!(other, corresponding(net, is_weak(sheet), counts, mode, answer), "{}", of(same));
    if is_weak(sheet) && matches!(answer.0, 12 | 13) {
        same.hits.value("12 or 13 by rule 1, and 11 in the complement");
    }
    assert_eq!(both_after, completed(net, &after), "{}", of(same));
    if other.3 > answer.3 {
        same.hits.value("by more in the complement");
    }
    if guarded::is_dead(sheet, Mode(mode)) == Ok(true) {
        assert_eq!(other.0, 11, "{}, which is dead", of(same));
        same.hits.value("dead, and 11 in the complement");
    }
    assert_eq!(same.audit(sheet, &after, &both_after), (ACCEPTED, None), "{}", of(same));
    if answer == ACCEPTED {
        old_fault(same, net, sheet, counts, &both_after, mode);
    }
    after
}

const ACCEPTED: Plain = (0, 0, 0, 0);

/// The mode is entered as the old tracker did, its Post added and its Pre not taken: this shows at once, at the lowest pair that the mode
/// takes from, by what it should have taken there.
fn old_fault(same: &mut Same, net: &PlainNet, sheet: &[u8], counts: &[u32], both_after: &[u32], mode: u16) {
    let own = || net.arcs.iter().filter(|arc| arc.mode == mode);
    let Some(lowest) = own().find(|arc| arc.pre > 0) else { return };
    let mut wrong = counts.to_vec();
    own().for_each(|arc| wrong[usize::from(arc.pair)] += arc.post);
    assert_eq!(
        same.audit(sheet, &wrong, both_after),
        (ACCEPTED, Some((lowest.pair, lowest.pre.into()))),
        "{}: mode {mode} at {counts:?} of {net:?}",
        same.part
    );
    same.hits.value("the old fault found");
}

/// No mode is locally dead in a complement, and no number there is above 1,000,000, though a dead mode's would be by the rule of live ones.
fn no_mode_is_dead(same: &mut Same, net: &PlainNet, sheet: &[u8], complement: &[u8]) {
    let of = |same: &Same| format!("{}: the complement of {net:?}", same.part);
    assert_eq!(guarded::first_dead(complement), Ok(None), "{}", of(same));
    let (one, arcs) = (in_version_1(same, complement), guarded::size(complement).expect("it was read").arcs);
    for arc in one[one.len() - 16 * arcs..].chunks(16) {
        assert!(
            arc[4..12].chunks(4).all(|number| number <= &1_000_000u32.to_be_bytes()[..]),
            "{}: {arc:?}",
            of(same)
        );
        assert_eq!(arc[12..], [255; 4], "{}: {arc:?}", of(same));
    }
    let as_live = |arc: &&PlainArc| {
        let capacity = net.pairs[usize::from(arc.pair)].0;
        let taken_up = arc.post.saturating_sub(if is_weak(sheet) { arc.pre } else { 0 });
        capacity != OPEN
            && taken_up.max(capacity.saturating_sub(arc.inhibitor)) + arc.pre - arc.post > 1_000_000
    };
    for arc in net.arcs.iter().filter(as_live) {
        assert_eq!(guarded::is_dead(sheet, Mode(arc.mode)), Ok(true), "{}: {arc:?}", of(same));
        same.hits.value("dead, and a number kept within 1,000,000");
    }
}

/// Movement by movement, then both lists as one run.
fn one_by_one(
    same: &mut Same,
    net: &PlainNet,
    (sheet, complement): (&[u8], &[u8]),
    start: &[u32],
    list: &[u16],
) {
    let mut counts = start.to_vec();
    for &mode in list {
        counts = one(same, net, (sheet, complement), &counts, mode);
    }
    let bytes = movements(list);
    let (accepted, answer, after) = same.run(sheet, &bytes, start);
    let (both_accepted, other, both_after) = same.run(complement, &bytes, &completed(net, start));
    assert_eq!(accepted, both_accepted, "{}: {net:?}", same.part);
    assert_eq!(both_after, completed(net, &after), "{}: {net:?}", same.part);
    let last =
        list.get(accepted).map_or(answer, |&mode| corresponding(net, is_weak(sheet), &after, mode, answer));
    assert_eq!(last, other, "{}: {net:?}", same.part);
}

/// A step that the complement accepts the net accepts, and the markings after correspond; where no inhibitor is finite, a step that
/// the net accepts by rule 0 the complement accepts.
fn at_once(
    same: &mut Same,
    net: &PlainNet,
    (sheet, complement): (&[u8], &[u8]),
    counts: &[u32],
    modes: &[u16],
) {
    let (answer, after) = same.fire_step(sheet, counts, modes);
    let (other, both_after) = same.fire_step(complement, &completed(net, counts), modes);
    let (own, both) = (answer.0 == 0, other.0 == 0);
    let uninhibited = net.arcs.iter().all(|arc| arc.inhibitor == OPEN);
    assert!(own || !both, "{}: {modes:?} at {counts:?} of {net:?}", same.part);
    assert!(
        both || !own || !uninhibited || is_weak(sheet),
        "{}: {modes:?} at {counts:?} of {net:?}",
        same.part
    );
    if both {
        assert_eq!(both_after, completed(net, &after), "{}: {modes:?} at {counts:?} of {net:?}", same.part);
        same.hits.value(match (is_weak(sheet), uninhibited) {
            (true, _) => "step of both by rule 1",
            (false, true) => "step without an inhibitor",
            (false, false) => "step of both",
        });
    } else if own {
        same.hits.value("step of the net alone");
    }
}

/// The marking of the complement: on each complement pair "K less the original's".
pub fn completed(net: &PlainNet, counts: &[u32]) -> Vec<u32> {
    let bounded = net.pairs.iter().zip(counts).filter(|((capacity, _), _)| *capacity != OPEN);
    counts.iter().copied().chain(bounded.map(|((capacity, _), count)| capacity - count)).collect()
}

/// "11, 12 and 13 in the net become 11 in its complement; 6 and 14 stay": 12 and 13 at the complement of the lowest pair that breaks
/// either, by the larger of the two amounts there. 6, 11 and 14 keep their position and amount.
fn corresponding(net: &PlainNet, weak: bool, counts: &[u32], mode: u16, answer: Plain) -> Plain {
    if !matches!(answer.0, 12 | 13) {
        return answer;
    }
    // An unbounded I is above every count.
    let above = |arc: &PlainArc| {
        over(net, weak, counts, arc).max(counts[usize::from(arc.pair)].saturating_sub(arc.inhibitor))
    };
    // Arcs rise by their pairs.
    let own = net.arcs.iter().filter(|arc| arc.mode == mode);
    let broken = own.map(|arc| (usize::from(arc.pair), above(arc))).find(|&(_, amount)| amount > 0);
    let (lowest, amount) = broken.expect("12 or 13 is broken at some pair");
    let before = net.pairs[..lowest].iter().filter(|(capacity, _)| *capacity != OPEN).count();
    (11, answer.1, (counts.len() + before) as u64, amount.into())
}
