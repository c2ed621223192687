//! A marking of a net beside one of its complement.

use crate::support::*;
use generator::{Random, Style, list, net};
use reference::build::{OPEN, PlainNet, arc};
use reference::*;

/// The pair and the excess.
fn out(pair: u16, excess: i64) -> Result<Option<OutOfStep>, Answer> {
    Ok(Some(OutOfStep { pair: Pair(pair), excess }))
}

const NONE: Result<Option<OutOfStep>, Answer> = Ok(None);

/// Pairs of K 5, unbounded and K 7: the complement pairs are 3 and 4.
fn three() -> Vec<u8> {
    PlainNet::plain(0, &[(5, 0), (OPEN, 0), (7, 0)], &[]).sheet()
}

#[test]
fn in_step_where_the_markings_agree_and_every_sum_is_k() {
    assert_eq!(audit(&three(), &[3, 9, 0], &[3, 9, 0, 2, 7]), NONE);
    assert_eq!(audit(&three(), &[0, OPEN, 7], &[0, OPEN, 7, 5, 0]), NONE);
}

#[test]
fn a_bounded_pair_whose_sum_is_not_k() {
    // The net's count is taken, whatever the complement marking's own count is.
    assert_eq!(audit(&three(), &[4, 9, 0], &[3, 9, 0, 2, 7]), out(0, 1));
    assert_eq!(audit(&three(), &[4, 9, 0], &[4, 9, 0, 2, 7]), out(0, 1));
    assert_eq!(audit(&three(), &[1, 9, 0], &[3, 9, 0, 2, 7]), out(0, -2));
    assert_eq!(audit(&three(), &[3, 9, 6], &[3, 9, 6, 2, 3]), out(2, 2));
    assert_eq!(audit(&three(), &[0, 9, 0], &[0, 9, 0, 0, 7]), out(0, -5));
}

#[test]
fn a_pair_on_which_the_markings_differ() {
    assert_eq!(audit(&three(), &[3, 9, 0], &[2, 9, 0, 2, 7]), out(0, 1));
    assert_eq!(audit(&three(), &[3, 8, 0], &[3, 9, 0, 2, 7]), out(1, -1));
    assert_eq!(audit(&three(), &[3, 9, 0], &[3, 9, 4, 2, 7]), out(2, -4));
    // The sum comes first: 4 and 2 are 1 above 5, though the markings differ by 3.
    assert_eq!(audit(&three(), &[4, 9, 0], &[1, 9, 0, 2, 7]), out(0, 1));
}

#[test]
fn the_lowest_pair_is_named() {
    assert_eq!(audit(&three(), &[3, 1, 1], &[3, 9, 0, 2, 7]), out(1, -8));
    assert_eq!(audit(&three(), &[3, 9, 1], &[3, 9, 0, 2, 7]), out(2, 1));
    assert_eq!(audit(&three(), &[5, 1, 1], &[5, 9, 0, 2, 7]), out(0, 2));
}

#[test]
fn counts_may_be_any() {
    let most = i64::from(u32::MAX);
    assert_eq!(audit(&three(), &[OPEN, 0, 0], &[0, 0, 0, OPEN, 7]), out(0, 2 * most - 5));
    assert_eq!(audit(&three(), &[5, OPEN, 0], &[5, 0, 0, 0, 7]), out(1, most));
    assert_eq!(audit(&three(), &[5, 0, 0], &[5, OPEN, 0, 0, 7]), out(1, -most));
    assert_eq!(audit(&three(), &[6, 0, 0], &[6, 0, 0, OPEN, 7]), out(0, most + 1));
}

#[test]
fn number_17_the_marking_then_the_complements() {
    let answer = Err(refused(17, ARGUMENT, 0));
    for (counts, both) in [(0, 5), (2, 5), (4, 5), (3, 0), (3, 3), (3, 4), (3, 6), (5, 3), (256, 512)] {
        assert_eq!(audit(&three(), &vec![0; counts], &vec![0; both]), answer, "{counts} {both}");
    }
    let unbounded = PlainNet::plain(0, &[(OPEN, 0)], &[]).sheet();
    assert_eq!(audit(&unbounded, &[4], &[4]), NONE);
    assert_eq!(audit(&unbounded, &[4], &[4, 0]), answer);
}

#[test]
fn across_things_the_net_then_15_then_10_then_17() {
    let net = PlainNet::plain(1, &[(OPEN, 0), (5, 0)], &[arc(0, 0, 1, 0, 4)]);
    let sheet = net.sheet();
    assert_eq!(audit(&sheet[1..], &[], &[]), Err(refused(1, NET, 0)));
    assert_eq!(audit(&followed(&sheet, &[0]), &[], &[]), Err(refused(3, NET, sheet.len() as u64)));
    assert_eq!(audit(&sheet, &[], &[]), Err(refused(15, NET, net.arc_offset(0))));
    let mut crowded = PlainNet::plain(1, &[(5, 0); 33], &[]);
    assert_eq!(audit(&crowded.sheet(), &[], &[]), Err(refused(10, NET, 0)));
    crowded.pairs[32].0 = OPEN;
    crowded.arcs = vec![arc(0, 32, 0, 0, 0)];
    assert_eq!(audit(&crowded.sheet(), &[], &[]), Err(refused(15, NET, crowded.arc_offset(0))));
    crowded.arcs.clear();
    assert_eq!(audit(&crowded.sheet(), &[], &[]), Err(refused(10, NET, 0)));
    crowded.pairs[31].0 = OPEN;
    crowded.colours = vec![2, 31];
    assert_eq!(audit(&crowded.sheet(), &[], &[]), Err(refused(17, ARGUMENT, 0)));
}

#[test]
fn number_10_counts_the_arcs_that_would_be_written() {
    // 1,025 arcs at pairs of K 1 would be 2,050; where their modes are dead, their complement arcs are blank.
    let net = |pre: u32| PlainNet {
        colours: vec![8],
        modes: vec![64, 64, 1],
        pairs: vec![(1, 0); 8],
        arcs: (0..1_025).map(|n| arc(n / 8, n % 8, pre, 0, OPEN)).collect(),
    };
    let both = [[0; 8], [1; 8]].concat();
    assert_eq!(audit(&net(1).sheet(), &[0; 8], &both), Err(refused(10, NET, 0)));
    assert_eq!(audit(&net(2).sheet(), &[0; 8], &both), NONE);
}

/// The old fault: the mode's Post is added, and its Pre is not taken.
fn marked(net: &PlainNet, counts: &[u32], mode: u16) -> Vec<u32> {
    let mut counts = counts.to_vec();
    net.arcs.iter().filter(|arc| arc.mode == mode).for_each(|arc| counts[arc.pair as usize] += arc.post);
    counts
}

#[test]
fn no_list_brings_the_two_out_of_step_and_the_old_fault_shows_at_once() {
    let mut random = Random::new(51);
    let (mut steps, mut faults) = (0, 0);
    for _ in 0..1_500 {
        let style = random.pick(&[Style::Small, Style::Edges, Style::Lively]);
        let net = net(&mut random, style, 5, 4, 24);
        let (sheet, mut output) = (net.sheet(), vec![0; 40_000]);
        let Ok(length) = complement(&sheet, &mut output) else { continue };
        let (mut counts, mut both) =
            (vec![0; net.pairs.len()], vec![0; size(&output[..length]).unwrap().pairs]);
        begin(&sheet, &mut counts);
        begin(&output[..length], &mut both);
        assert_eq!(audit(&sheet, &counts, &both), NONE);
        for mode in list(&mut random, &net, 8) {
            let before = counts.clone();
            let accepted = fire(&sheet, &mut counts, mode) == ACCEPTED;
            fire(&output[..length], &mut both, mode);
            assert_eq!(audit(&sheet, &counts, &both), NONE);
            steps += usize::from(accepted);
            let taken = net.arcs.iter().find(|arc| arc.mode == mode && arc.pre > 0);
            if let (true, Some(arc)) = (accepted, taken) {
                let wrong = marked(&net, &before, mode);
                assert_eq!(audit(&sheet, &wrong, &both), out(arc.pair, arc.pre.into()), "{net:?}");
                faults += 1;
            }
        }
    }
    assert!(steps > 500 && faults > 200, "{steps} {faults}");
}
