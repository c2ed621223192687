//! Stripping a pair: one transition more, whose mode n takes n and is there only while at most n stand there.

use crate::support::*;
use generator::{Random, Style, form, marking, net, total};
use reference::build::{OPEN, PlainArc, PlainNet, arc};
use reference::*;

/// What stripping a pair writes with room for the largest sheet.
fn stripped(sheet: &[u8], pair: u16) -> Result<Vec<u8>, Answer> {
    let mut output = vec![170; 35_083];
    let length = strip(sheet, pair, &mut output)?;
    assert!(untouched(&output[length..]));
    output.truncate(length);
    Ok(output)
}

/// The new modes' arcs, where the net has so many modes: "mode n has one arc: Pre n, Post 0, I n".
fn new_arcs(modes: u16, pair: u16, capacity: u16) -> impl Iterator<Item = PlainArc> {
    (0..=capacity).map(move |n| arc(modes + n, pair, n.into(), 0, n.into()))
}

#[test]
fn a_transition_of_modes_0_to_k_comes_last() {
    let mut expected = example();
    expected.modes.push(6);
    expected.arcs.extend(new_arcs(1, 0, 5));
    for form in Form::ALL {
        assert_eq!(stripped(&example().sheet_in(form), 0), Ok(expected.sheet_in(form)));
    }
    // Mode 0's arc is not blank: its I is 0.
    assert_eq!(expected.arcs[2], arc(1, 0, 0, 0, 0));
}

#[test]
fn a_pair_that_holds_nothing_gets_one_mode() {
    let net = PlainNet::plain(0, &[(OPEN, 3), (0, 0)], &[]);
    let expected = PlainNet::plain(1, &[(OPEN, 3), (0, 0)], &[arc(0, 1, 0, 0, 0)]);
    assert_eq!(stripped(&net.sheet(), 1), Ok(expected.sheet()));
}

#[test]
fn number_6_the_pair_is_not_there() {
    for pair in [2, 3, 256, 65_535] {
        assert_eq!(stripped(&example().sheet(), pair), Err(refused(6, ARGUMENT, 0)));
    }
}

#[test]
fn number_15_the_pair_has_unbounded_k() {
    assert_eq!(stripped(&example().sheet(), 1), Err(refused(15, NET, 0)));
    // An arc with a finite I at a pair of unbounded K is nothing to it.
    let inhibited = PlainNet::plain(1, &[(1, 0), (OPEN, 0)], &[arc(0, 1, 0, 0, 4)]);
    assert!(stripped(&inhibited.sheet(), 0).is_ok());
}

/// So many transitions of one mode each, and one pair.
fn with_transitions(transitions: usize, capacity: u32) -> Vec<u8> {
    PlainNet::plain(transitions, &[(capacity, 0)], &[]).sheet()
}

#[test]
fn number_10_k_above_63() {
    assert_eq!(
        size(&stripped(&with_transitions(1, 63), 0).unwrap()),
        Ok(Size { pairs: 1, modes: 65, arcs: 64 })
    );
    for capacity in [64, 65_535, 65_536, 999_999, 1_000_000] {
        assert_eq!(stripped(&with_transitions(1, capacity), 0), Err(refused(10, NET, 0)));
    }
}

#[test]
fn number_10_a_65th_transition() {
    assert!(stripped(&with_transitions(63, 0), 0).is_ok());
    assert_eq!(stripped(&with_transitions(64, 0), 0), Err(refused(10, NET, 0)));
}

#[test]
fn number_10_a_257th_mode() {
    let of = |last: u16, capacity| PlainNet {
        colours: vec![1],
        modes: vec![64, 64, 64, last],
        pairs: vec![(capacity, 0)],
        arcs: vec![],
    };
    let full = stripped(&of(60, 3).sheet(), 0).unwrap();
    assert_eq!(size(&full).unwrap().modes, 256);
    assert_eq!(stripped(&of(60, 4).sheet(), 0), Err(refused(10, NET, 0)));
    assert_eq!(stripped(&of(61, 3).sheet(), 0), Err(refused(10, NET, 0)));
    assert_eq!(stripped(&of(64, 0).sheet(), 0), Err(refused(10, NET, 0)));
}

#[test]
fn number_10_a_2049th_arc() {
    let of = |arcs: u16, capacity| PlainNet {
        colours: vec![16],
        modes: vec![64, 64],
        pairs: vec![(capacity, 0); 16],
        arcs: (0..arcs).map(|n| arc(n / 16, n % 16, 1, 0, OPEN)).collect(),
    };
    for form in Form::ALL {
        let full = stripped(&of(2_044, 3).sheet_in(form), 15).unwrap();
        assert_eq!(size(&full), Ok(Size { pairs: 16, modes: 132, arcs: 2_048 }));
        assert_eq!(stripped(&of(2_045, 3).sheet_in(form), 15), Err(refused(10, NET, 0)));
        assert_eq!(stripped(&of(2_048, 0).sheet_in(form), 15), Err(refused(10, NET, 0)));
    }
}

#[test]
fn number_10_an_output_one_byte_too_short() {
    for form in Form::ALL {
        let sheet = example().sheet_in(form);
        let whole = stripped(&sheet, 0).unwrap();
        let (mut short, mut enough) = (vec![170; whole.len() - 1], vec![170; whole.len()]);
        assert_eq!(strip(&sheet, 0, &mut short), Err(refused(10, NET, 0)));
        assert!(untouched(&short));
        assert_eq!(strip(&sheet, 0, &mut enough), Ok(whole.len()));
        assert_eq!(enough, whole);
    }
}

#[test]
fn the_net_then_6_then_15_then_10() {
    let (sheet, long) = (example().sheet(), followed(&example().sheet(), &[0]));
    assert_eq!(strip(&long, 9, &mut []), Err(refused(3, NET, 65)));
    assert_eq!(strip(&sheet[..9], 9, &mut []), Err(refused(1, NET, 0)));
    assert_eq!(strip(&sheet, 9, &mut []), Err(refused(6, ARGUMENT, 0)));
    assert_eq!(strip(&sheet, 1, &mut []), Err(refused(15, NET, 0)));
    assert_eq!(strip(&sheet, 0, &mut []), Err(refused(10, NET, 0)));
    // 15 comes before 10 for another limit too.
    let full = PlainNet::plain(64, &[(OPEN, 0), (1, 0)], &[]).sheet();
    assert_eq!(strip(&full, 0, &mut []), Err(refused(15, NET, 0)));
    assert_eq!(strip(&full, 1, &mut []), Err(refused(10, NET, 0)));
}

/// A small net whose every K is at most 8 or unbounded, one of its bounded pairs, its sheet and the stripped one.
fn any_stripped(random: &mut Random) -> Option<(PlainNet, u16, Vec<u8>, Vec<u8>)> {
    let net = net(random, Style::Small, 4, 3, 12);
    let sheet = net.sheet_in(form(random));
    let bounded: Vec<u16> =
        (0..).zip(&net.pairs).filter(|(_, pair)| pair.0 != OPEN).map(|(at, _)| at).collect();
    if bounded.is_empty() {
        return None;
    }
    let pair = random.pick(&bounded);
    let stripped = stripped(&sheet, pair).ok()?;
    Some((net, pair, sheet, stripped))
}

#[test]
fn exactly_one_new_mode_is_enabled_leaves_0_there_and_all_else_as_it_was() {
    let (mut random, mut tried) = (Random::new(81), 0);
    for _ in 0..1_000 {
        let Some((net, pair, _, stripped)) = any_stripped(&mut random) else { continue };
        let (old, all) = (total(&net.modes) as u16, size(&stripped).unwrap().modes as u16);
        let counts: Vec<u32> = net
            .pairs
            .iter()
            .map(|&(capacity, _)| generator::count(&mut random, Style::Small, capacity))
            .collect();
        let enabled: Vec<u16> =
            (old..all).filter(|&mode| test(&stripped, &counts, mode) == ACCEPTED).collect();
        let there = counts[usize::from(pair)];
        assert_eq!(enabled, [old + there as u16], "{net:?} {counts:?}");
        let mut after = counts.clone();
        assert_eq!(fire(&stripped, &mut after, enabled[0]), ACCEPTED);
        let mut expected = counts;
        expected[usize::from(pair)] = 0;
        assert_eq!(after, expected);
        tried += 1;
    }
    assert!(tried > 300, "{tried}");
}

#[test]
fn old_modes_keep_their_numbers_and_behaviour() {
    let (mut random, mut tried) = (Random::new(82), 0);
    for _ in 0..1_000 {
        let Some((net, _, sheet, stripped)) = any_stripped(&mut random) else { continue };
        let counts = marking(&mut random, Style::Small, &net);
        for mode in 0..total(&net.modes) as u16 {
            let (mut own, mut other) = (counts.clone(), counts.clone());
            assert_eq!(fire(&sheet, &mut own, mode), fire(&stripped, &mut other, mode));
            assert_eq!((own, is_dead(&sheet, mode)), (other, is_dead(&stripped, mode)));
            tried += 1;
        }
        // A new mode is dead by no rule.
        let first = first_dead(&stripped).unwrap();
        assert_eq!(first, first_dead(&sheet).unwrap(), "{net:?}");
    }
    assert!(tried > 300, "{tried}");
}
