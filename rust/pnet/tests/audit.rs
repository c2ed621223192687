//! Both markings of a net and its complement, and what was left behind in kilograms.

use pnet::*;
use reference::Version;
use reference::build::{OPEN, PlainNet, arc, weights};

/// Pairs of K 5, unbounded and K 7, and one mode that takes 2 from the last and puts them at the one before.
fn net_in(version: Version) -> Vec<u8> {
    let arcs = [arc(0, 1, 0, 2, OPEN), arc(0, 2, 2, 0, OPEN)];
    PlainNet::plain(1, &[(5, 3), (OPEN, 0), (7, 6)], &arcs).sheet_in(version)
}

fn net() -> Vec<u8> {
    net_in(Version::One)
}

fn complement_of(net: &[u8]) -> Vec<u8> {
    let mut out = vec![0; LARGEST_NET];
    let length = complement(net, &mut out).unwrap();
    out.truncate(length);
    out
}

#[test]
fn a_removal_kept_as_a_mark_is_found_and_weighed() {
    let (net, kilograms) = (net(), weights(&[100, 0, 250]));
    let other = complement_of(&net);
    let (mut marking, mut both) = (first_marking(&net).unwrap(), first_marking(&other).unwrap());
    assert_eq!(both, [3, 0, 6, 2, 1]);
    fire(&net, &mut marking, Mode(0)).unwrap();
    fire(&other, &mut both, Mode(0)).unwrap();
    assert_eq!(audit(&net, &marking, &both), Ok(None));
    assert_eq!(left_behind(&net, &kilograms, &marking, &both), Ok(0));
    marking[2] += 2;
    assert_eq!(audit(&net, &marking, &both), Ok(Some(OutOfStep { pair: Pair(2), excess: 2 })));
    assert_eq!(left_behind(&net, &kilograms, &marking, &both), Ok(500));
}

#[test]
fn kilograms_are_summed_over_all_pairs_of_finite_capacity() {
    let net = net();
    let kilograms = weights(&[100, 1_000, -250]);
    // 1 too many at pair 0, any number at pair 1, 3 too few at pair 2.
    let left = left_behind(&net, &kilograms, &[4, 99, 3], &[3, 0, 6, 2, 1]);
    assert_eq!(left, Ok(100 + 750));
    assert_eq!(left_behind(&net_in(Version::Two), &kilograms, &[4, 99, 3], &[3, 0, 6, 2, 1]), left);
    let most = left_behind(&net, &weights(&[1_000_000, 0, 1_000_000]), &[OPEN; 3], &[OPEN; 5]);
    assert_eq!(most, Ok(1_000_000 * (4 * i64::from(OPEN) - 5 - 7)));
    let without_modes = PlainNet::plain(0, &[(5, 3)], &[]).sheet();
    assert_eq!(left_behind(&without_modes, &weights(&[-10]), &[3], &[3, 3]), Ok(-10));
}

#[test]
fn the_net_then_the_weights_then_the_rest_of_an_audit() {
    let (net, kilograms) = (net(), weights(&[1, 2, 3]));
    let number = |net: &[u8], weights: &[u8], counts: &[u32], both: &[u32]| {
        left_behind(net, weights, counts, both).unwrap_err().number()
    };
    assert_eq!(number(&net[1..], &kilograms[1..], &[], &[]), 1);
    assert_eq!(number(&net, &weights(&[1]), &[], &[]), 17);
    assert_eq!(number(&net, &[&kilograms[..], &[0]].concat(), &[], &[]), 3);
    assert_eq!(number(&net, &kilograms, &[1, 2], &[0; 5]), 17);
    let inhibited = PlainNet::plain(1, &[(OPEN, 3)], &[arc(0, 0, 1, 0, 4)]).sheet();
    assert_eq!(number(&inhibited, &weights(&[1]), &[], &[]), 15);
    let refusal = audit(&net, &[1, 2, 3], &[1, 2, 3]).unwrap_err();
    assert_eq!(refusal.to_string(), "17: the counts are not one for each pair");
}
