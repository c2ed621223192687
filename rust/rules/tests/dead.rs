//! Locally dead modes: "Pre is above the least of K less Post and I, or Post is above K".

use crate::support::*;
use generator::{Random, Style, marking, net, total};
use reference::build::{OPEN, PlainNet, arc};
use reference::search::marking_where;
use reference::*;

/// Whether the mode of a net of one pair and one arc is locally dead.
fn dead(capacity: u32, pre: u32, post: u32, inhibitor: u32) -> bool {
    let net = PlainNet::plain(1, &[(capacity, 0)], &[arc(0, 0, pre, post, inhibitor)]).sheet();
    let dead = is_dead(&net, 0).unwrap();
    assert_eq!(first_dead(&net), Ok(dead.then_some((Mode(0), Pair(0)))));
    dead
}

#[test]
fn pre_above_k_less_post() {
    assert!(!dead(5, 5, 0, OPEN) && dead(5, 6, 0, OPEN));
    assert!(!dead(5, 3, 2, OPEN) && dead(5, 4, 2, OPEN) && dead(5, 3, 3, OPEN));
    assert!(!dead(5, 0, 5, OPEN) && dead(5, 1, 5, OPEN));
    assert!(!dead(0, 0, 0, 0) && dead(0, 1, 0, OPEN));
}

#[test]
fn pre_above_i() {
    assert!(!dead(9, 4, 0, 4) && dead(9, 5, 0, 4));
    assert!(!dead(9, 0, 1, 0) && dead(9, 1, 0, 0));
    // I above K less Post: K less Post decides, and the other way round.
    assert!(!dead(9, 4, 5, 6) && dead(9, 5, 5, 6));
    assert!(!dead(9, 4, 5, 4) && dead(9, 4, 5, 3));
}

#[test]
fn post_above_k() {
    assert!(!dead(5, 0, 5, OPEN) && dead(5, 0, 6, OPEN));
    assert!(dead(5, 0, 6, 0) && dead(5, 6, 6, OPEN) && dead(0, 0, 1, OPEN));
}

#[test]
fn k_less_post_is_unbounded_where_k_is() {
    let largest = 1_000_000;
    assert!(!dead(OPEN, largest, largest, OPEN));
    assert!(!dead(OPEN, largest, largest, largest) && dead(OPEN, largest, 0, largest - 1));
    assert!(!dead(OPEN, 0, largest, 0) && dead(OPEN, 1, 0, 0));
}

#[test]
fn at_the_edges_of_the_numbers() {
    let largest = 1_000_000;
    assert!(!dead(largest, largest, 0, largest) && dead(largest, largest, 1, largest));
    assert!(dead(largest, largest, 0, largest - 1) && dead(largest - 1, 0, largest, OPEN));
    assert!(!dead(largest, 0, largest, 0) && dead(largest, 1, largest, OPEN));
}

#[test]
fn a_dead_mode_of_several() {
    let arcs = [
        arc(1, 0, 2, 3, OPEN), // 5 in all: live
        arc(1, 2, 9, 9, OPEN), // unbounded K: live
        arc(3, 0, 2, 3, 2),
        arc(3, 1, 0, 6, OPEN), // Post above K
        arc(4, 0, 5, 1, OPEN), // Pre above K less Post
        arc(5, 2, 5, 0, 4),    // Pre above I
    ];
    let net = PlainNet::plain(6, &[(5, 0), (5, 0), (OPEN, 0)], &arcs).sheet();
    let dead: Vec<_> = (0..6).map(|mode| is_dead(&net, mode).unwrap()).collect();
    assert_eq!(dead, [false, false, false, true, true, true]);
    assert_eq!(first_dead(&net), Ok(Some((Mode(3), Pair(1)))));
    assert_eq!(first_dead(&example().sheet()), Ok(None));
}

#[test]
fn the_lowest_pair_of_the_lowest_dead_mode_by_either_clause() {
    let lowest = |arcs: &[build::PlainArc]| {
        let net = PlainNet::plain(3, &[(5, 0); 4], arcs).sheet();
        first_dead(&net).unwrap().map(|(mode, pair)| (mode.0, pair.0))
    };
    let (by_pre, by_post) = (arc(1, 1, 3, 3, OPEN), arc(1, 2, 0, 6, OPEN));
    let (before, after) = (arc(1, 0, 2, 3, OPEN), arc(2, 0, 6, 6, OPEN));
    assert_eq!(lowest(&[before, by_pre, by_post, after]), Some((1, 1)));
    assert_eq!(lowest(&[before, by_post, arc(1, 3, 1, 0, 0), after]), Some((1, 2)));
    assert_eq!(lowest(&[before, arc(1, 3, 1, 0, 0), after]), Some((1, 3)));
    assert_eq!(lowest(&[before, after]), Some((2, 0)));
    assert_eq!(lowest(&[before]), None);
}

#[test]
fn the_search_visits_every_marking_within_capacity_once() {
    let net = PlainNet::plain(0, &[(1, 0), (OPEN, 0), (0, 0), (9, 0)], &[]);
    let mut visited = std::collections::BTreeSet::new();
    let none = marking_where(&net, 3, |counts| {
        assert!(visited.insert(counts.to_vec()));
        false
    });
    assert_eq!((none, visited.len()), (None, 2 * 4 * 4));
    assert!(
        visited.iter().all(|counts| counts[0] <= 1 && counts[1] <= 3 && counts[2] == 0 && counts[3] <= 3)
    );
    assert_eq!(marking_where(&net, 3, |counts| counts[3] == 2), Some(vec![0, 0, 0, 2]));
}

/// Whether some marking of counts up to `most` enables the mode.
fn found(net: &PlainNet, mode: u16, most: u32) -> bool {
    let sheet = net.sheet();
    marking_where(net, most, |counts| test(&sheet, counts, mode) == ACCEPTED).is_some()
}

/// K, Pre, Post and I up to 3, each of K and I unbounded too: every net of one pair and one arc.
#[test]
fn every_small_arc_is_enabled_at_some_marking_exactly_where_its_mode_is_live() {
    let bounds = [0, 1, 2, 3, OPEN];
    let mut arcs = 0;
    for (capacity, inhibitor) in bounds.iter().flat_map(|&k| bounds.map(|i| (k, i))) {
        for (pre, post) in (0..16).map(|n| (n / 4, n % 4)) {
            if (pre, post, inhibitor) == (0, 0, OPEN) {
                continue;
            }
            let net = PlainNet::plain(1, &[(capacity, 0)], &[arc(0, 0, pre, post, inhibitor)]);
            assert_eq!(is_dead(&net.sheet(), 0), Ok(!found(&net, 0, 8)), "{net:?}");
            arcs += 1;
        }
    }
    assert_eq!(arcs, 395);
}

#[test]
fn a_marking_is_found_exactly_for_the_live_modes() {
    let mut random = Random::new(51);
    let (mut live, mut dead) = (0, 0);
    for _ in 0..1_500 {
        let net = net(&mut random, Style::Small, 3, 2, 6);
        if net.pairs.len() > 3 || total(&net.modes) > 8 {
            continue;
        }
        for mode in 0..total(&net.modes) as u16 {
            let is_dead = is_dead(&net.sheet(), mode).unwrap();
            assert_eq!(found(&net, mode, 5), !is_dead, "mode {mode} of {net:?}");
            (live, dead) = (live + usize::from(!is_dead), dead + usize::from(is_dead));
        }
    }
    assert!(live > 500 && dead > 100, "{live} {dead}");
}

/// A net of any style and its sheet.
fn any_net(random: &mut Random) -> (PlainNet, Vec<u8>, Style) {
    let style = random.pick(&[Style::Small, Style::Edges, Style::Lively]);
    let net = net(random, style, 5, 4, 24);
    let sheet = net.sheet();
    (net, sheet, style)
}

#[test]
fn a_live_mode_is_accepted_where_the_marking_is_its_pre() {
    let mut random = Random::new(52);
    let (mut live, mut dead) = (0, 0);
    for _ in 0..800 {
        let (net, sheet, _) = any_net(&mut random);
        for mode in 0..total(&net.modes) as u16 {
            let mut pre = vec![0; net.pairs.len()];
            net.arcs.iter().filter(|arc| arc.mode == mode).for_each(|arc| pre[arc.pair as usize] = arc.pre);
            let is_dead = is_dead(&sheet, mode).unwrap();
            assert_eq!(test(&sheet, &pre, mode) == ACCEPTED, !is_dead, "mode {mode} of {net:?}");
            (live, dead) = (live + usize::from(!is_dead), dead + usize::from(is_dead));
        }
    }
    assert!(live > 500 && dead > 500, "{live} {dead}");
}

#[test]
fn a_dead_mode_is_never_enabled() {
    let mut random = Random::new(53);
    for _ in 0..800 {
        let (net, sheet, style) = any_net(&mut random);
        let modes = total(&net.modes) as u16;
        let dead: Vec<u16> = (0..modes).filter(|&mode| is_dead(&sheet, mode) == Ok(true)).collect();
        let first = first_dead(&sheet).unwrap();
        assert_eq!(first.map(|(mode, _)| mode.0), dead.first().copied());
        let counts = marking(&mut random, style, &net);
        assert!(dead.iter().all(|&mode| test(&sheet, &counts, mode) != ACCEPTED));
    }
}
