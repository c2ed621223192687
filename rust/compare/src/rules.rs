//! The same net by both capacity rules: rule 1 takes Pre off before the capacity test, and does all else as rule 0 does.

use pnet::Mode;
use reference::build::{OPEN, PlainArc, PlainNet, arc};
use reference::{Form, Rule};

use crate::guarded;
use crate::same::Same;
use generator::{Random, Style, count, total};

/// Whether a net sheet, if it is accepted, is of rule 1.
pub fn is_weak(net: &[u8]) -> bool {
    net.get(4..6) == Some(&[2, 1])
}

/// How much the count and Post together are above what an arc's pair has room for, by a rule; an unbounded K is above every count.
pub fn over(net: &PlainNet, weak: bool, counts: &[u32], arc: &PlainArc) -> u32 {
    let capacity = net.pairs[usize::from(arc.pair)].0;
    let room = capacity.saturating_add(if weak { arc.pre } else { 0 });
    (counts[usize::from(arc.pair)] + arc.post).saturating_sub(room)
}

/// The net's sheets of version 2, of rule 0 and of rule 1.
pub fn sheets(net: &PlainNet) -> [Vec<u8>; 2] {
    Rule::BOTH.map(|rule| net.sheet_in(Form::Two(rule)))
}

/// Every mode at two markings: what rule 0 accepts, rule 1 accepts with the same marking after; 6 and 11 are the same; 12 by rule 1 is at a pair
/// that breaks rule 0 too.
pub fn beside(same: &mut Same, random: &mut Random, style: Style, net: &PlainNet) {
    let [strict, weak] = sheets(net);
    let first: Vec<u32> = net.pairs.iter().map(|&(_, count)| count).collect();
    let other = net.pairs.iter().map(|&(capacity, _)| count(random, style, capacity)).collect();
    for counts in [first, other] {
        for mode in 0..(total(&net.modes) + 1).min(8) as u16 {
            let (by_strict, by_weak) = (same.fire(&strict, &counts, mode), same.fire(&weak, &counts, mode));
            let of = |same: &Same| format!("{}: mode {mode} at {counts:?} of {net:?}", same.part);
            match (by_strict.0.0, by_weak.0.0) {
                (0 | 6 | 11, _) => assert_eq!(by_strict, by_weak, "{}", of(same)),
                (12, 0) => same.hits.value("a swap where there is no room, by rule 1 alone"),
                (12, 12) => {
                    assert!(by_strict.0.2 <= by_weak.0.2, "{}", of(same));
                    same.hits.value(if by_strict.0 == by_weak.0 {
                        "12 by both rules"
                    } else {
                        "12 otherwise by rule 1"
                    });
                }
                (12, 13) => same.hits.value("13 by rule 1, where rule 0 gives 12"),
                (12, 14) => {}
                _ => assert_eq!(by_strict, by_weak, "{}", of(same)),
            }
            // What is dead by rule 1 is dead by rule 0.
            let dead = [&strict, &weak].map(|sheet| guarded::is_dead(sheet, Mode(mode)));
            assert!(dead != [Ok(false), Ok(true)], "{}", of(same));
            if dead == [Ok(true), Ok(false)] {
                same.hits.value("dead by rule 0 alone");
            }
        }
    }
    if net.pairs.iter().all(|&(capacity, _)| capacity == OPEN) {
        without_capacities(same, net, [&strict, &weak]);
    }
}

/// One mode takes and another puts as many, where the pair is full: by rule 1 the step of both passes in the net, and not in its complement, though
/// no inhibitor is finite; by rule 0 it passes in neither.
pub fn swapped_at_once(same: &mut Same, random: &mut Random) {
    let capacity = 1 + random.below(9) as u32;
    let amount = 1 + random.below(capacity as usize) as u32;
    let arcs = [arc(0, 0, amount, 0, OPEN), arc(1, 0, 0, amount, OPEN)];
    let net = PlainNet::plain(2, &[(capacity, capacity)], &arcs);
    let [strict, weak] = sheets(&net).map(|sheet| {
        let complement = same.complement(&sheet, pnet::LARGEST_NET).expect("the net has a complement");
        let own = same.fire_step(&sheet, &[capacity], &[0, 1]).0;
        [own, same.fire_step(&complement, &[capacity, 0], &[0, 1]).0]
    });
    let amount = u64::from(amount);
    assert_eq!(strict, [(12, 3, 0, amount), (11, 3, 1, amount)], "{}: {net:?}", same.part);
    assert_eq!(weak, [(0, 0, 0, 0), (11, 3, 1, amount)], "{}: {net:?}", same.part);
    same.hits.value("step of the net alone by rule 1, without an inhibitor");
}

/// Where no K is finite, a complement says the same by either rule.
fn without_capacities(same: &mut Same, net: &PlainNet, sheets: [&[u8]; 2]) {
    let [strict, weak] = sheets.map(|sheet| same.complement(sheet, pnet::LARGEST_NET));
    let with_rule_1 = strict.map(|mut sheet| {
        sheet[5] = 1;
        sheet
    });
    assert_eq!(with_rule_1, weak, "{}: {net:?}", same.part);
    same.hits.value("no K, and nothing by the rule");
}
