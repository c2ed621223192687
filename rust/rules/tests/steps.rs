//! Steps: several modes at once.

use crate::support::*;
use generator::{Random, Style, marking, net, step, total};
use reference::build::{OPEN, PlainArc, PlainNet, arc, movements};
use reference::*;

/// Tests and fires a step; both must agree, and a refused one writes nothing.
fn tried(net: &[u8], counts: &[u32], modes: &[u16]) -> Result<Vec<u32>, Answer> {
    let mut after = counts.to_vec();
    let answer = fire_step(net, &mut after, modes);
    assert_eq!(test_step(net, counts, modes), answer);
    if answer == ACCEPTED {
        return Ok(after);
    }
    assert_eq!(after, counts);
    Err(answer)
}

fn no<V>(number: u32, position: u64) -> Result<V, Answer> {
    Err(refused(number, ARGUMENT, position))
}

/// Refused at a pair, by an amount over the sums.
fn by<V>(number: u32, pair: u64, amount: u64) -> Result<V, Answer> {
    Err(short(number, ARGUMENT, pair, amount))
}

/// Two pairs of capacity K and two modes with these arcs.
fn two(capacity: u32, arcs: &[PlainArc]) -> Vec<u8> {
    PlainNet::plain(2, &[(capacity, 0); 2], arcs).sheet()
}

#[test]
fn number_4_an_empty_step_or_one_of_65_modes() {
    let net = two(5, &[]);
    assert_eq!(tried(&net, &[1, 2], &[]), no(4, 0));
    assert_eq!(tried(&net, &[1, 2], &[0]), Ok(vec![1, 2]));
    assert_eq!(tried(&net, &[1, 2], &[1; 64]), Ok(vec![1, 2]));
    assert_eq!(tried(&net, &[1, 2], &[1; 65]), no(4, 0));
    assert_eq!(tried(&net, &[1, 2], &[1; 8_192]), no(4, 0));
}

#[test]
fn number_6_a_member_that_is_not_there() {
    let net = two(5, &[]);
    assert_eq!(tried(&net, &[0, 0], &[0, 1]), Ok(vec![0, 0]));
    for missing in [2, 256, 65_535] {
        assert_eq!(tried(&net, &[0, 0], &[missing]), no(6, 0));
        assert_eq!(tried(&net, &[0, 0], &[0, missing, 1]), no(6, 0));
        assert_eq!(tried(&net, &[0, 0], &[[1; 63].as_slice(), &[missing]].concat()), no(6, 0));
    }
}

#[test]
fn number_11_summed_pre_above_the_count() {
    let net = two(5, &[arc(0, 1, 2, 0, OPEN), arc(1, 1, 1, 0, OPEN)]);
    assert_eq!(tried(&net, &[0, 3], &[0, 1]), Ok(vec![0, 0]));
    assert_eq!(tried(&net, &[0, 2], &[0, 1]), by(11, 1, 1));
    assert_eq!(tried(&net, &[0, 4], &[0, 0]), Ok(vec![0, 0]));
    assert_eq!(tried(&net, &[0, 3], &[0, 0]), by(11, 1, 1));
    assert_eq!(tried(&net, &[0, 1], &[0, 1, 0, 1]), by(11, 1, 5));
    // What one member gives, another cannot take in the same step.
    let net = two(5, &[arc(0, 1, 0, 1, OPEN), arc(1, 1, 1, 0, OPEN)]);
    assert_eq!(tried(&net, &[0, 0], &[0, 1]), by(11, 1, 1));
    assert_eq!(tried(&net, &[0, 1], &[0, 1]), Ok(vec![0, 1]));
}

#[test]
fn number_12_count_plus_summed_post_above_the_capacity() {
    let net = two(5, &[arc(0, 1, 0, 2, OPEN), arc(1, 1, 0, 1, OPEN)]);
    assert_eq!(tried(&net, &[5, 2], &[0, 1]), Ok(vec![5, 5]));
    assert_eq!(tried(&net, &[5, 3], &[0, 1]), by(12, 1, 1));
    assert_eq!(tried(&net, &[5, 1], &[0, 0]), Ok(vec![5, 5]));
    assert_eq!(tried(&net, &[5, 2], &[0, 0]), by(12, 1, 1));
    assert_eq!(tried(&net, &[5, 2], &[0, 1, 0, 1]), by(12, 1, 3));
    // Even where another member frees the room.
    let net = two(5, &[arc(0, 1, 1, 0, OPEN), arc(1, 1, 0, 1, OPEN)]);
    assert_eq!(tried(&net, &[0, 5], &[0, 1]), by(12, 1, 1));
    assert_eq!(tried(&net, &[0, 4], &[0, 1]), Ok(vec![0, 4]));
}

#[test]
fn number_13_count_above_the_least_inhibitor() {
    let net = two(5, &[arc(0, 1, 0, 0, 3), arc(1, 1, 1, 0, 2)]);
    assert_eq!(tried(&net, &[5, 2], &[0, 1, 0]), Ok(vec![5, 1]));
    assert_eq!(tried(&net, &[5, 3], &[0, 1, 0]), by(13, 1, 1));
    assert_eq!(tried(&net, &[5, 3], &[0, 0]), Ok(vec![5, 3]));
    assert_eq!(tried(&net, &[5, 4], &[0, 0]), by(13, 1, 1));
    assert_eq!(tried(&net, &[5, 5], &[0, 1]), by(13, 1, 3));
    // A member without an arc there counts as unbounded.
    let net = two(5, &[arc(0, 1, 0, 0, 3), arc(1, 0, 1, 0, OPEN)]);
    assert_eq!(tried(&net, &[5, 3], &[1, 0]), Ok(vec![4, 3]));
    assert_eq!(tried(&net, &[5, 4], &[1, 0]), by(13, 1, 1));
    assert_eq!(tried(&net, &[5, 4], &[1, 1]), Ok(vec![3, 4]));
}

#[test]
fn number_14_the_new_count_above_a_million() {
    let net = two(OPEN, &[arc(0, 1, 0, 1, OPEN), arc(1, 1, 1, 0, OPEN)]);
    assert_eq!(tried(&net, &[9, 999_998], &[0, 0]), Ok(vec![9, 1_000_000]));
    assert_eq!(tried(&net, &[9, 999_999], &[0, 0]), by(14, 1, 1));
    // A member alone past the limit is no fault where another takes it back.
    assert_eq!(tried(&net, &[9, 1_000_000], &[0]), by(14, 1, 1));
    assert_eq!(tried(&net, &[9, 1_000_000], &[0, 1]), Ok(vec![9, 1_000_000]));
    assert_eq!(tried(&net, &[9, 1_000_000], &[0, 1, 0]), by(14, 1, 1));
    assert_eq!(tried(&net, &[9, 1_000_000], &[0, 0, 1, 0, 0]), by(14, 1, 3));
}

#[test]
fn sums_reach_64_million() {
    let million = 1_000_000;
    let net = two(OPEN, &[arc(0, 0, million, 0, OPEN), arc(1, 1, 0, million, OPEN)]);
    assert_eq!(tried(&net, &[million, million], &[0; 64]), by(11, 0, 63_000_000));
    assert_eq!(tried(&net, &[million, million], &[1; 64]), by(14, 1, 64_000_000));
    let bounded = two(million, &[arc(1, 1, 0, million, OPEN)]);
    assert_eq!(tried(&bounded, &[million, million], &[1; 64]), by(12, 1, 64_000_000));
}

#[test]
fn an_accepted_step_writes_every_pair_of_its_members() {
    let arcs = [arc(0, 0, 1, 0, OPEN), arc(0, 1, 0, 2, OPEN), arc(1, 1, 1, 0, OPEN), arc(1, 2, 0, 1, OPEN)];
    let net = PlainNet::plain(3, &[(9, 0); 4], &arcs).sheet();
    assert_eq!(tried(&net, &[3, 4, 0, 7], &[0, 1, 2, 0]), Ok(vec![1, 7, 1, 7]));
}

#[test]
fn across_things_the_net_then_the_marking_then_4_then_6() {
    let net = two(5, &[arc(0, 0, 9, 9, 0)]);
    assert_eq!(tried(&net[1..], &[9], &[]), Err(refused(1, NET, 0)));
    assert_eq!(tried(&followed(&net, &[0]), &[9], &[]), Err(refused(3, NET, net.len() as u64)));
    assert_eq!(tried(&net, &[1_000_001], &[]), no(17, 0));
    assert_eq!(tried(&net, &[1, 1, 1], &[]), no(17, 0));
    assert_eq!(tried(&net, &[1_000_001, 6], &[]), no(5, 0));
    assert_eq!(tried(&net, &[6, 1_000_001], &[]), no(9, 0));
    assert_eq!(tried(&net, &[5, 1_000_001], &[]), no(5, 1));
    assert_eq!(tried(&net, &[5, 6], &[]), no(9, 1));
    assert_eq!(tried(&net, &[5, 5], &[]), no(4, 0));
    assert_eq!(tried(&net, &[5, 5], &[7; 65]), no(4, 0));
    assert_eq!(tried(&net, &[5, 5], &[0, 7]), no(6, 0));
    assert_eq!(tried(&net, &[5, 5], &[0, 1]), by(11, 0, 4));
    assert_eq!(tried(&net, &[5, 5], &[1, 1]), Ok(vec![5, 5]));
}

#[test]
fn over_the_sums_11_over_all_pairs_then_12_13_and_14() {
    let million = 1_000_000;
    let arcs = [
        arc(0, 0, 0, 1, OPEN), // 14 at pair 0
        arc(1, 1, 0, 0, 4),    // 13 at pair 1
        arc(2, 2, 1, 3, 0),    // 12 at pair 2, twice
        arc(3, 3, 1, 0, OPEN), // 11 at pair 3, twice
    ];
    let net = PlainNet::plain(4, &[(OPEN, 0), (5, 0), (5, 0), (OPEN, 0)], &arcs).sheet();
    let counts = [million, 5, 2, 1];
    assert_eq!(tried(&net, &counts, &[0, 1, 2, 2, 3, 3]), by(11, 3, 1));
    assert_eq!(tried(&net, &counts, &[3, 2, 1, 2, 0]), by(12, 2, 3));
    assert_eq!(tried(&net, &counts, &[0, 1, 3]), by(13, 1, 1));
    assert_eq!(tried(&net, &counts, &[0, 3]), by(14, 0, 1));
    assert_eq!(tried(&net, &counts, &[3]), Ok(vec![million, 5, 2, 0]));
}

/// A net of one pair and one mode, and its complement.
fn one_and_complement(capacity: u32, pre: u32, inhibitor: u32) -> (Vec<u8>, Vec<u8>) {
    let net = PlainNet::plain(1, &[(capacity, 0)], &[arc(0, 0, pre, 0, inhibitor)]).sheet();
    let complement = complement_of(&net);
    (net, complement)
}

#[test]
fn three_at_once_pass_in_the_net_of_section_6_3_and_two_in_its_complement() {
    let (net, complement) = one_and_complement(5, 1, 4);
    assert_eq!(tried(&net, &[3], &[0; 3]), Ok(vec![0]));
    assert_eq!(tried(&net, &[3], &[0; 4]), by(11, 0, 1));
    assert_eq!(tried(&complement, &[3, 2], &[0; 2]), Ok(vec![1, 4]));
    assert_eq!(tried(&complement, &[3, 2], &[0; 3]), by(11, 1, 1));
}

#[test]
fn an_inhibitor_alone_passes_twice_in_the_net_and_once_in_its_complement() {
    let (net, complement) = one_and_complement(1, 0, 0);
    assert_eq!(tried(&net, &[0], &[0, 0]), Ok(vec![0]));
    assert_eq!(tried(&complement, &[0, 1], &[0]), Ok(vec![0, 1]));
    assert_eq!(tried(&complement, &[0, 1], &[0, 0]), by(11, 1, 1));
}

#[test]
fn a_step_passes_where_no_order_of_its_members_does() {
    let net = two(5, &[arc(0, 0, 0, 1, 0), arc(1, 0, 0, 2, 0)]);
    assert_eq!(tried(&net, &[0, 0], &[0, 1]), Ok(vec![3, 0]));
    for (order, after) in [([0, 1], 1), ([1, 0], 2)] {
        let mut counts = [0, 0];
        assert_eq!(ran_to(&net, &movements(&order), &mut counts), (1, short(13, MOVEMENTS, 0, after.into())));
        assert_eq!(counts, [after, 0]);
    }
}

#[test]
fn an_order_passes_where_the_step_of_its_members_does_not() {
    let net = two(1, &[arc(0, 0, 1, 0, OPEN), arc(1, 0, 0, 1, OPEN)]);
    assert_eq!(ran_to(&net, &movements(&[0, 1]), &mut [1, 0]), (2, ACCEPTED));
    assert_eq!(tried(&net, &[1, 0], &[0, 1]), by(12, 0, 1));
    assert_eq!(ran_to(&net, &movements(&[1, 0]), &mut [0, 0]), (2, ACCEPTED));
    assert_eq!(tried(&net, &[0, 0], &[1, 0]), by(11, 0, 1));
}

/// A small net of any style.
fn small(random: &mut Random) -> (PlainNet, Style) {
    let style = random.pick(&[Style::Small, Style::Small, Style::Edges, Style::Lively]);
    (net(random, style, 5, 4, 24), style)
}

#[test]
fn a_step_of_one_mode_answers_as_test_and_fire_do() {
    let mut random = Random::new(41);
    for _ in 0..2_000 {
        let (net, style) = small(&mut random);
        let (sheet, counts) = (net.sheet(), marking(&mut random, style, &net));
        let mode = random.below(total(&net.modes) + 1) as u16;
        let mut fired = counts.clone();
        let answer = fire(&sheet, &mut fired, mode);
        assert_eq!(test_step(&sheet, &counts, &[mode]), test(&sheet, &counts, mode));
        let expected = if answer == ACCEPTED { Ok(fired) } else { Err(answer) };
        assert_eq!(tried(&sheet, &counts, &[mode]), expected);
    }
}

#[test]
fn the_order_of_its_members_makes_no_difference_to_a_step() {
    let mut random = Random::new(42);
    for _ in 0..1_000 {
        let (net, style) = small(&mut random);
        let (sheet, counts) = (net.sheet(), marking(&mut random, style, &net));
        let modes = step(&mut random, &net);
        let turned: Vec<u16> = modes.iter().rev().copied().collect();
        assert_eq!(tried(&sheet, &counts, &modes), tried(&sheet, &counts, &turned));
    }
}

/// Counts within the capacities.
fn fitting(random: &mut Random, style: Style, net: &PlainNet) -> Vec<u32> {
    net.pairs.iter().map(|&(capacity, _)| generator::count(random, style, capacity)).collect()
}

/// The net with every inhibitor unbounded.
fn without_inhibitors(mut net: PlainNet) -> PlainNet {
    net.arcs.iter_mut().for_each(|arc| arc.inhibitor = OPEN);
    net.arcs.retain(|arc| arc.pre > 0 || arc.post > 0);
    net
}

/// How many steps the net accepts and how many its complement, at corresponding markings: each of the
/// complement's must be one of the net's, with corresponding markings after.
fn accepted_steps(random: &mut Random, net: &PlainNet, style: Style) -> Option<(usize, usize)> {
    let sheet = net.sheet();
    let mut output = vec![0; 35_083];
    let length = complement(&sheet, &mut output).ok()?;
    let (mut in_net, mut in_complement) = (0, 0);
    for _ in 0..8 {
        let (counts, modes) = (fitting(random, style, net), step(random, net));
        let own = tried(&sheet, &counts, &modes);
        in_net += usize::from(own.is_ok());
        if let Ok(both) = tried(&output[..length], &completed(net, &counts), &modes) {
            in_complement += 1;
            assert_eq!(own.map(|after| completed(net, &after)), Ok(both), "{net:?} {counts:?} {modes:?}");
        }
    }
    Some((in_net, in_complement))
}

#[test]
fn a_step_that_a_complement_accepts_the_net_accepts() {
    let mut random = Random::new(43);
    let (mut in_nets, mut in_complements) = (0, 0);
    for _ in 0..2_000 {
        let (net, style) = small(&mut random);
        if let Some((in_net, in_complement)) = accepted_steps(&mut random, &net, style) {
            (in_nets, in_complements) = (in_nets + in_net, in_complements + in_complement);
        }
    }
    // The converse is false in general.
    assert!(in_complements > 1_000 && in_nets > in_complements, "{in_nets} {in_complements}");
}

#[test]
fn a_step_that_a_net_without_finite_inhibitors_accepts_its_complement_accepts() {
    let mut random = Random::new(44);
    let mut steps = 0;
    for _ in 0..2_000 {
        let (net, style) = small(&mut random);
        let net = without_inhibitors(net);
        if let Some((in_net, in_complement)) = accepted_steps(&mut random, &net, style) {
            assert_eq!(in_net, in_complement, "{net:?}");
            steps += in_net;
        }
    }
    assert!(steps > 1_000, "{steps}");
}
