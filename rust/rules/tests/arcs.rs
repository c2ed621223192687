//! How many arcs a run visits.

use crate::support::*;
use generator::{Random, Style, list, marking, net};
use reference::build::{OPEN, PlainNet, arc, movements};
use reference::*;

/// Modes of 2, 0 and 3 arcs; the third takes 2 from pair 0 and is refused when fewer are left.
fn three_modes() -> PlainNet {
    let arcs = [
        arc(0, 0, 0, 1, OPEN),
        arc(0, 2, 0, 0, 9),
        arc(2, 0, 2, 0, OPEN),
        arc(2, 1, 0, 1, OPEN),
        arc(2, 2, 0, 1, OPEN),
    ];
    PlainNet::plain(3, &[(9, 3), (9, 0), (9, 0)], &arcs)
}

/// How many arcs a run from the first marking visits.
fn visited(list: &[u16]) -> (u64, u32, u64) {
    let ran = run(&three_modes().sheet(), &movements(list), &mut [3, 0, 0]);
    (ran.accepted, ran.answer.number, ran.arcs)
}

#[test]
fn each_tried_movement_counts_its_modes_arcs_once() {
    assert_eq!(visited(&[]), (0, 0, 0));
    assert_eq!(visited(&[0]), (1, 0, 2));
    assert_eq!(visited(&[0, 2, 0]), (3, 0, 7));
    assert_eq!(visited(&[1, 1, 1]), (3, 0, 0));
}

#[test]
fn a_refused_movement_counts_whole_and_those_after_it_nothing() {
    // The second finds 1 at pair 0, its first arc.
    assert_eq!(visited(&[2, 2]), (1, 11, 6));
    assert_eq!(visited(&[2, 2, 0, 0]), (1, 11, 6));
}

#[test]
fn a_missing_mode_counts_nothing() {
    for missing in [3, 256, 65_535] {
        assert_eq!(visited(&[missing]), (0, 6, 0));
        assert_eq!(visited(&[0, missing, 0]), (1, 6, 2));
    }
}

#[test]
fn a_run_refused_before_its_first_movement_visits_nothing() {
    let (net, list) = (three_modes().sheet(), movements(&[0, 2]));
    let arcs = |net: &[u8], list: &[u8], counts: &[u32]| {
        let ran = run(net, list, &mut counts.to_vec());
        assert_ne!(ran.answer, ACCEPTED);
        (ran.accepted, ran.arcs)
    };
    assert_eq!(arcs(&net[1..], &list, &[3, 0, 0]), (0, 0));
    assert_eq!(arcs(&followed(&net, &[0]), &list, &[3, 0, 0]), (0, 0));
    assert_eq!(arcs(&net, &list[1..], &[3, 0, 0]), (0, 0));
    for counts in [&[3, 0][..], &[10, 0, 0], &[OPEN, 0, 0]] {
        assert_eq!(arcs(&net, &list, counts), (0, 0));
    }
}

#[test]
fn at_most_the_movements_tried_times_the_largest_arc_count_of_a_mode() {
    let mut random = Random::new(8);
    let mut at_the_bound = 0;
    for _ in 0..2_000 {
        let style = random.pick(&[Style::Small, Style::Edges, Style::Lively]);
        let net = net(&mut random, style, 4, 3, 16);
        let list = list(&mut random, &net, 12);
        let ran = run(&net.sheet(), &movements(&list), &mut marking(&mut random, style, &net));
        let tried = if ran.answer.thing == MOVEMENTS { ran.accepted + 1 } else { ran.accepted };
        let arcs_of = |mode: &u16| net.arcs.iter().filter(|arc| arc.mode == *mode).count() as u64;
        let most = net.arcs.iter().map(|arc| arcs_of(&arc.mode)).max().unwrap_or(0);
        assert!(ran.arcs <= tried * most);
        assert_eq!(ran.arcs, list[..tried as usize].iter().map(arcs_of).sum());
        at_the_bound += usize::from(tried > 1 && most > 0 && ran.arcs == tried * most);
    }
    assert!(at_the_bound > 20, "{at_the_bound}");
}

#[test]
fn the_longest_run_over_the_largest_modes() {
    let arcs = (0..2_048).map(|n| arc(n / 256, n % 256, 1, 1, OPEN)).collect();
    let net = PlainNet { colours: vec![64; 4], modes: vec![8], pairs: vec![(OPEN, 1); 256], arcs };
    let ran = run(&net.sheet(), &movements(&[7; 200]), &mut [1; 256]);
    assert_eq!(ran, Ran { accepted: 200, arcs: 200 * 256, answer: ACCEPTED });
}
