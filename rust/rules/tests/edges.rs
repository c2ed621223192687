//! "Either side of the edges": every case.

use crate::support::*;
use reference::build::{OPEN, PlainArc, PlainNet, arc, movements};
use reference::{Answer, certify, fire, is_dead, read_net, test};

/// One pair of capacity K and one mode with one arc.
fn one(capacity: u32, pre: u32, post: u32, inhibitor: u32) -> Vec<u8> {
    PlainNet::plain(1, &[(capacity, 0)], &[arc(0, 0, pre, post, inhibitor)]).sheet()
}

/// Tests and fires; both must agree, and a refused firing writes nothing.
fn tried(net: &[u8], count: u32) -> Result<u32, Answer> {
    let mut marking = [count];
    let answer = fire(net, &mut marking, 0);
    assert_eq!(test(net, &[count], 0), answer);
    if answer == ACCEPTED {
        return Ok(marking[0]);
    }
    assert_eq!(marking, [count]);
    Err(answer)
}

fn no(number: u32, amount: u64) -> Result<u32, Answer> {
    Err(short(number, ARGUMENT, 0, amount))
}

/// Pre and Post of the last arc of the one-pair net's complement.
fn complement_arc(net: &[u8]) -> (u32, u32) {
    let sheet = complement_of(net);
    let four = |from_end: usize| {
        let at = sheet.len() - from_end;
        u32::from_be_bytes(sheet[at..at + 4].try_into().unwrap())
    };
    assert_eq!(sheet[sheet.len() - 16..sheet.len() - 12], [0, 0, 0, 1]);
    assert_eq!(four(4), OPEN);
    (four(12), four(8))
}

#[test]
fn post_up_to_the_capacity() {
    assert_eq!(tried(&one(5, 0, 1, OPEN), 4), Ok(5));
    assert_eq!(tried(&one(5, 0, 1, OPEN), 5), no(12, 1));
}

#[test]
fn pre_is_not_taken_off_before_the_capacity_test() {
    assert_eq!(tried(&one(5, 1, 1, OPEN), 5), no(12, 1));
    assert_eq!(tried(&one(5, 1, 1, OPEN), 4), Ok(4));
}

#[test]
fn a_count_equal_to_i_is_allowed() {
    assert_eq!(tried(&one(5, 1, 0, 4), 4), Ok(3));
    assert_eq!(tried(&one(5, 1, 0, 4), 5), no(13, 1));
}

#[test]
fn i_zero_at_count_zero() {
    assert_eq!(tried(&one(5, 0, 0, 0), 0), Ok(0));
    assert_eq!(tried(&one(5, 0, 0, 0), 1), no(13, 1));
    assert_eq!(tried(&one(OPEN, 0, 1, 0), 0), Ok(1));
}

#[test]
fn new_counts_end_at_a_million() {
    assert_eq!(tried(&one(OPEN, 0, 1, OPEN), 999_999), Ok(1_000_000));
    assert_eq!(tried(&one(OPEN, 0, 1, OPEN), 1_000_000), no(14, 1));
    assert_eq!(tried(&one(OPEN, 1, 1, OPEN), 1_000_000), Ok(1_000_000));
}

#[test]
fn post_above_the_capacity_is_never_enabled() {
    let net = one(5, 0, 6, OPEN);
    for count in 0..=5 {
        assert_eq!(tried(&net, count), no(12, u64::from(count) + 1));
    }
    // The mode is dead: complement Post is complement Pre.
    assert_eq!(complement_arc(&net), (6, 6));
    assert_eq!(is_dead(&net, 0), Ok(true));
}

#[test]
fn complement_numbers_end_at_a_million() {
    assert_eq!(complement_arc(&one(1_000_000, 0, 0, 0)), (1_000_000, 1_000_000));
    // "The starred case that gave 16 now gives complement Post 1,000,000."
    assert_eq!(complement_arc(&one(1_000_000, 1, 0, 0)), (1_000_000, 1_000_000));
    assert_eq!(is_dead(&one(1_000_000, 1, 0, 0), 0), Ok(true));
    // A live mode's numbers are at most K.
    assert_eq!(complement_arc(&one(1_000_000, 999_999, 1, OPEN)), (1, 999_999));
    assert_eq!(complement_arc(&one(1_000_000, 1, 0, 1)), (999_999, 1_000_000));
}

#[test]
fn pre_comes_before_the_inhibitor() {
    assert_eq!(tried(&one(5, 2, 0, 0), 1), no(11, 1));
}

#[test]
fn the_empty_list_certifies_the_first_marking() {
    assert_eq!(certify(&example().sheet(), &movements(&[]), &[3, 0]), ACCEPTED);
    assert_eq!(certify(&example().sheet(), &movements(&[]), &[3, 1]), refused(18, ARGUMENT, 1));
}

#[test]
fn the_257th_mode_is_refused() {
    let net = |modes: &[u16]| {
        let net = PlainNet { colours: vec![1], modes: modes.to_vec(), pairs: vec![(OPEN, 0)], arcs: vec![] };
        net.sheet()
    };
    assert_eq!(read_net(&net(&[64; 4])), (ACCEPTED, 4 + 1 + 4 + 2 + 8 + 8 + 2));
    assert_eq!(read_net(&net(&[64, 64, 64, 64, 1])), (refused(4, NET, 19), 0));
    assert_eq!(read_net(&net(&[4; 64])).0, ACCEPTED);
    let passing: Vec<u16> = [vec![4; 63], vec![5]].concat();
    assert_eq!(read_net(&net(&passing)), (refused(4, NET, 11 + 63 * 2), 0));
}

#[test]
fn the_257th_pair_is_refused() {
    let net = |colours: &[u16]| {
        let pairs = vec![(OPEN, 0); colours.iter().map(|&c| usize::from(c)).sum()];
        PlainNet { colours: colours.to_vec(), modes: vec![], pairs, arcs: vec![] }.sheet()
    };
    assert_eq!(read_net(&net(&[64; 4])).0, ACCEPTED);
    assert_eq!(read_net(&net(&[64, 64, 64, 64, 1])), (refused(4, NET, 17), 0));
}

#[test]
fn arc_2049_is_refused() {
    let arcs: Vec<PlainArc> = (0..2_049).map(|n| arc(n / 9, n % 9, 1, 0, OPEN)).collect();
    let mut net = PlainNet { colours: vec![9], modes: vec![64; 4], pairs: vec![(OPEN, 0); 9], arcs };
    assert_eq!(read_net(&net.sheet()), (refused(4, NET, net.arc_offset(0) - 2), 0));
    net.arcs.truncate(2_048);
    assert_eq!(read_net(&net.sheet()), (ACCEPTED, net.sheet().len()));
}
