//! A claimed marking that weights show to be out of reach.

use std::collections::BTreeSet;

use crate::support::*;
use generator::{Random, balanced};
use reference::build::{OPEN, PlainNet, arc, weights};
use reference::search::marking_where;
use reference::*;

/// Two pairs of K 5 and an unbounded one; mode 0 takes two from pair 0 and puts one at pair 2, mode 1 has no arc, mode 2 takes one back
/// from pair 2 and puts two at pair 0.
fn exchange() -> PlainNet {
    let arcs = [arc(0, 0, 2, 0, OPEN), arc(0, 2, 0, 1, OPEN), arc(2, 0, 0, 2, OPEN), arc(2, 2, 1, 0, OPEN)];
    PlainNet::plain(3, &[(5, 4), (5, 1), (OPEN, 0)], &arcs)
}

fn answer(kilograms: &[i32], claim: &[u32]) -> Answer {
    exclude(&exchange().sheet(), &weights(kilograms), claim)
}

#[test]
fn accepted_where_every_mode_is_balanced_and_the_figures_differ() {
    assert_eq!(answer(&[1, 0, 2], &[4, 1, 1]), ACCEPTED);
    assert_eq!(answer(&[1, 0, 2], &[1, 1, 0]), ACCEPTED);
    assert_eq!(answer(&[-3, 0, -6], &[5, 1, 0]), ACCEPTED);
    assert_eq!(answer(&[0, 7, 0], &[4, 2, 0]), ACCEPTED);
    assert_eq!(answer(&[500_000, 0, 1_000_000], &[4, 1, 1_000_000]), ACCEPTED);
}

#[test]
fn number_21_the_first_mode_whose_weight_change_is_not_0() {
    assert_eq!(answer(&[1, 0, 1], &[4, 1, 1]), refused(21, NET, 0));
    assert_eq!(answer(&[0, 0, 1], &[4, 1, 0]), refused(21, NET, 0));
    let mut net = exchange();
    net.arcs[2].post = 3;
    assert_eq!(exclude(&net.sheet(), &weights(&[1, 0, 2]), &[4, 1, 1]), refused(21, NET, 2));
    // Equal where each is summed with the sign left out, or all modes are summed: 21 at the first all the same.
    net.arcs = vec![arc(1, 0, 1, 0, OPEN), arc(2, 0, 0, 1, OPEN)];
    assert_eq!(exclude(&net.sheet(), &weights(&[1, 0, 0]), &[4, 1, 0]), refused(21, NET, 1));
}

#[test]
fn a_dead_mode_counts_too() {
    let mut net = exchange();
    net.arcs.insert(2, arc(1, 0, 6, 0, OPEN));
    assert_eq!(is_dead(&net.sheet(), 1), Ok(true));
    assert_eq!(exclude(&net.sheet(), &weights(&[1, 0, 2]), &[4, 1, 1]), refused(21, NET, 1));
}

#[test]
fn number_22_equal_figures() {
    assert_eq!(answer(&[1, 0, 2], &[4, 1, 0]), refused(22, NET, 0));
    assert_eq!(answer(&[1, 0, 2], &[2, 5, 1]), refused(22, NET, 0));
    assert_eq!(answer(&[0, 0, 0], &[0, 0, 0]), refused(22, NET, 0));
    // 256 products at their largest are told from their neighbours.
    let net =
        PlainNet { colours: vec![64; 4], modes: vec![], pairs: vec![(OPEN, 1_000_000); 256], arcs: vec![] };
    let (sheet, w) = (net.sheet(), weights(&[1_000_000; 256]));
    let mut claim = [1_000_000; 256];
    assert_eq!(exclude(&sheet, &w, &claim), refused(22, NET, 0));
    claim[255] -= 1;
    assert_eq!(exclude(&sheet, &w, &claim), ACCEPTED);
}

#[test]
fn across_things_the_net_the_weights_the_claim_21_22() {
    let (net, w, off) = (exchange().sheet(), weights(&[1, 0, 2]), weights(&[1, 0, 1]));
    assert_eq!(exclude(&net[1..], &w[1..], &[]), refused(1, NET, 0));
    assert_eq!(exclude(&followed(&net, &[0]), &w[1..], &[]), refused(3, NET, net.len() as u64));
    assert_eq!(exclude(&net, &weights(&[1, 0]), &[]), refused(17, WEIGHTS, 5));
    assert_eq!(exclude(&net, &followed(&w, &[0]), &[]), refused(3, WEIGHTS, 19));
    assert_eq!(exclude(&net, &off, &[4, 1]), refused(17, ARGUMENT, 0));
    assert_eq!(exclude(&net, &off, &[6, 1_000_001, 0]), refused(9, ARGUMENT, 0));
    assert_eq!(exclude(&net, &off, &[5, 1, 1_000_001]), refused(5, ARGUMENT, 2));
    assert_eq!(exclude(&net, &off, &[4, 6, 0]), refused(9, ARGUMENT, 1));
    assert_eq!(exclude(&net, &off, &[4, 1, 0]), refused(21, NET, 0));
    assert_eq!(exclude(&net, &w, &[4, 1, 0]), refused(22, NET, 0));
}

/// Every marking that some list leads to.
fn reached(sheet: &[u8], first: Vec<u32>, modes: u16) -> BTreeSet<Vec<u32>> {
    let (mut reached, mut open) = (BTreeSet::from([first.clone()]), vec![first]);
    while let Some(marking) = open.pop() {
        for mode in 0..modes {
            let mut next = marking.clone();
            if fire(sheet, &mut next, mode) == ACCEPTED && reached.insert(next.clone()) {
                open.push(next);
            }
        }
    }
    reached
}

#[test]
fn no_marking_that_a_list_leads_to_is_ever_excluded() {
    let mut random = Random::new(61);
    let (mut excluded, mut equal, mut moved) = (0, 0, 0);
    for _ in 0..300 {
        let (net, kilograms) = balanced(&mut random);
        let (sheet, w) = (net.sheet(), weights(&kilograms));
        let first: Vec<u32> = net.pairs.iter().map(|pair| pair.1).collect();
        let reached = reached(&sheet, first, generator::total(&net.modes) as u16);
        moved += reached.len() - 1;
        marking_where(&net, 4, |marking| {
            match exclude(&sheet, &w, marking) {
                ACCEPTED => {
                    assert!(!reached.contains(marking), "{net:?} {kilograms:?} {marking:?}");
                    excluded += 1;
                }
                other => {
                    assert_eq!(other, refused(22, NET, 0), "{net:?} {kilograms:?} {marking:?}");
                    equal += 1;
                }
            }
            false
        });
    }
    assert!(excluded > 1_000 && equal > 1_000 && moved > 300, "{excluded} {equal} {moved}");
}
