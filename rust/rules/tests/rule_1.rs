//! The weak capacity rule: "rule byte 1 in version 2 means M + Post ≤ K + Pre, with the other two conditions as before".

use crate::support::*;
use generator::{Random, Style, list, marking, net, step, total};
use reference::build::{OPEN, PlainArc, PlainNet, arc, movements, weights};
use reference::search::marking_where;
use reference::*;

fn weak(net: &PlainNet) -> Vec<u8> {
    net.sheet_in(Form::Two(Rule::Weak))
}

/// What a net of one pair of this K and one arc (Pre, Post, I) answers at a count, by rule 0 and by rule 1.
fn by_either(capacity: u32, count: u32, (pre, post, inhibitor): (u32, u32, u32)) -> [Result<u32, Answer>; 2] {
    let net = PlainNet::plain(1, &[(capacity, 0)], &[arc(0, 0, pre, post, inhibitor)]);
    Rule::BOTH.map(|rule| {
        let (sheet, mut counts) = (net.sheet_in(Form::Two(rule)), [count]);
        let tested = test(&sheet, &counts, 0);
        let fired = fire(&sheet, &mut counts, 0);
        assert_eq!(tested, fired);
        if fired == ACCEPTED { Ok(counts[0]) } else { Err(fired) }
    })
}

/// What it answers by rule 1.
fn weakly(capacity: u32, count: u32, arc: (u32, u32, u32)) -> Result<u32, Answer> {
    by_either(capacity, count, arc)[1]
}

fn by<V>(number: u32, amount: u64) -> Result<V, Answer> {
    Err(short(number, ARGUMENT, 0, amount))
}

#[test]
fn the_rule_is_one_byte_of_the_sheet() {
    let net = example();
    let two = net.sheet_in(Version::Two);
    assert_eq!(weak(&net), with(&two, 5, &[1]));
    assert_eq!(read_net(&weak(&net)), (ACCEPTED, 62));
    assert_eq!(size(&weak(&net)), size(&net.sheet()));
    assert_eq!(size(&with(&two, 5, &[2])), Err(refused(4, NET, 5)));
}

#[test]
fn an_item_is_swapped_in_a_full_rack() {
    assert_eq!(by_either(5, 5, (1, 1, OPEN)), [by(12, 1), Ok(5)]);
    assert_eq!(by_either(5, 5, (5, 5, OPEN)), [by(12, 5), Ok(5)]);
    assert_eq!(by_either(0, 0, (0, 0, 0)), [Ok(0), Ok(0)]);
    assert_eq!(by_either(5, 3, (3, 5, OPEN)), [by(12, 3), Ok(5)]);
}

#[test]
fn number_12_is_by_what_count_and_post_are_above_k_and_pre() {
    assert_eq!(weakly(5, 4, (0, 1, OPEN)), Ok(5));
    assert_eq!(weakly(5, 5, (0, 1, OPEN)), by(12, 1));
    assert_eq!(by_either(5, 5, (1, 2, OPEN)), [by(12, 2), by(12, 1)]);
    assert_eq!(by_either(5, 4, (2, 4, OPEN)), [by(12, 3), by(12, 1)]);
    assert_eq!(weakly(5, 4, (3, 4, OPEN)), Ok(5));
    let million = 1_000_000;
    assert_eq!(weakly(million, million, (million, million, OPEN)), Ok(million));
    assert_eq!(weakly(million, million, (million - 1, million, OPEN)), by(12, 1));
    assert_eq!(weakly(0, 0, (0, million, OPEN)), by(12, 1_000_000));
}

#[test]
fn the_other_conditions_are_as_before() {
    // 11 and 13 on both sides of their edges, and 14.
    assert_eq!([weakly(5, 2, (2, 2, OPEN)), weakly(5, 1, (2, 2, OPEN))], [Ok(2), by(11, 1)]);
    assert_eq!([weakly(5, 4, (1, 1, 4)), weakly(5, 5, (1, 1, 4))], [Ok(4), by(13, 1)]);
    assert_eq!(weakly(OPEN, 999_999, (0, 1, OPEN)), Ok(1_000_000));
    assert_eq!(weakly(OPEN, 1_000_000, (0, 1, OPEN)), by(14, 1));
    assert_eq!(weakly(OPEN, 1_000_000, (1, 1, OPEN)), Ok(1_000_000));
    // In this order.
    assert_eq!(weakly(5, 5, (6, 9, 0)), by(11, 1));
    assert_eq!(weakly(5, 5, (1, 2, 0)), by(12, 1));
    assert_eq!(weakly(5, 5, (1, 1, 0)), by(13, 5));
}

#[test]
fn number_12_over_all_pairs_before_13() {
    let arcs = [arc(0, 0, 0, 0, 2), arc(0, 1, 1, 1, OPEN), arc(0, 2, 1, 3, OPEN)];
    let net = PlainNet::plain(1, &[(5, 3), (5, 5), (5, 5)], &arcs);
    let counts = [3, 5, 5];
    assert_eq!(test(&net.sheet(), &counts, 0), short(12, ARGUMENT, 1, 1));
    assert_eq!(test(&weak(&net), &counts, 0), short(12, ARGUMENT, 2, 2));
    assert_eq!(test(&weak(&net), &[3, 5, 3], 0), short(13, ARGUMENT, 0, 1));
}

/// Whether the mode of a net of one pair and one arc is locally dead by rule 1.
fn dead(capacity: u32, pre: u32, post: u32, inhibitor: u32) -> bool {
    let net = weak(&PlainNet::plain(1, &[(capacity, 0)], &[arc(0, 0, pre, post, inhibitor)]));
    let dead = is_dead(&net, 0).unwrap();
    assert_eq!(first_dead(&net), Ok(dead.then_some((Mode(0), Pair(0)))));
    dead
}

#[test]
fn dead_where_pre_is_above_the_lesser_of_k_and_i_or_post_above_k() {
    assert!(!dead(5, 5, 5, OPEN) && dead(5, 6, 5, OPEN) && dead(5, 5, 6, OPEN));
    assert!(!dead(9, 4, 9, 4) && dead(9, 5, 9, 4));
    assert!(!dead(4, 4, 0, 9) && dead(4, 5, 0, 9));
    assert!(!dead(5, 0, 5, 0) && dead(5, 0, 6, 0) && dead(0, 0, 1, OPEN));
    assert!(!dead(OPEN, 9, 1_000_000, 9) && dead(OPEN, 9, 0, 8));
    let million = 1_000_000;
    assert!(!dead(million, million, million, million) && dead(million, million, million, million - 1));
}

/// K, Pre, Post and I up to 3, each of K and I unbounded too: every net of one pair and one arc.
#[test]
fn every_small_arc_is_enabled_at_some_marking_exactly_where_its_mode_is_live() {
    let bounds = [0, 1, 2, 3, OPEN];
    for (capacity, inhibitor) in bounds.iter().flat_map(|&k| bounds.map(|i| (k, i))) {
        for (pre, post) in (0..16).map(|n| (n / 4, n % 4)).filter(|&flow| (flow, inhibitor) != ((0, 0), OPEN))
        {
            let net = PlainNet::plain(1, &[(capacity, 0)], &[arc(0, 0, pre, post, inhibitor)]);
            let found = marking_where(&net, 8, |counts| test(&weak(&net), counts, 0) == ACCEPTED);
            assert_eq!(dead(capacity, pre, post, inhibitor), found.is_none(), "{net:?}");
        }
    }
}

/// Pre and Post at the complement pair of one arc at K 5, by rule 1; none where the arc is blank.
fn complement_of_arc(pre: u32, post: u32, inhibitor: u32) -> Option<(u32, u32)> {
    let net = PlainNet::plain(1, &[(5, 2)], &[arc(0, 0, pre, post, inhibitor)]);
    let written = complement_of(&weak(&net));
    assert_eq!(written[4..6], [2, 1]);
    let expected = |mate: Option<(u32, u32)>| {
        let original = (pre | post > 0).then_some(arc(0, 0, pre, post, OPEN));
        let arcs = original.into_iter().chain(mate.map(|(pre, post)| arc(0, 1, pre, post, OPEN)));
        weak(&PlainNet::plain(1, &[(OPEN, 2), (OPEN, 3)], &arcs.collect::<Vec<_>>()))
    };
    let mates = (0..100).map(|n| (n / 10, n % 10)).filter(|&mate| mate != (0, 0));
    let mut found = mates.map(Some).chain([None]).filter(|&mate| written == expected(mate));
    found.next().expect("one of them is written")
}

#[test]
fn complement_pre_is_the_larger_of_post_less_pre_and_k_less_i() {
    // A swap asks for no room, and is blank there.
    assert_eq!(complement_of_arc(1, 1, OPEN), None);
    assert_eq!(complement_of_arc(2, 3, OPEN), Some((1, 0)));
    assert_eq!(complement_of_arc(3, 2, OPEN), Some((0, 1)));
    assert_eq!(complement_of_arc(1, 0, 4), Some((1, 2)));
    assert_eq!(complement_of_arc(1, 3, 4), Some((2, 0)));
    assert_eq!(complement_of_arc(1, 3, 2), Some((3, 1)));
    assert_eq!(complement_of_arc(0, 0, 3), Some((2, 2)));
    assert_eq!(complement_of_arc(1, 1, 5), None);
    assert_eq!(complement_of_arc(5, 5, 9), None);
}

#[test]
fn a_dead_modes_complement_post_is_its_complement_pre() {
    assert_eq!(complement_of_arc(0, 6, OPEN), Some((6, 6)));
    assert_eq!(complement_of_arc(2, 6, OPEN), Some((4, 4)));
    assert_eq!(complement_of_arc(6, 6, OPEN), None);
    assert_eq!(complement_of_arc(3, 1, 2), Some((3, 3)));
    // Where it is dead elsewhere too.
    let net = PlainNet::plain(1, &[(5, 2), (5, 5)], &[arc(0, 0, 9, 0, OPEN), arc(0, 1, 2, 3, OPEN)]);
    let expected = [arc(0, 0, 9, 0, OPEN), arc(0, 1, 2, 3, OPEN), arc(0, 3, 1, 1, OPEN)];
    let pairs = [(OPEN, 2), (OPEN, 5), (OPEN, 3), (OPEN, 0)];
    assert_eq!(complement_of(&weak(&net)), weak(&PlainNet::plain(1, &pairs, &expected)));
}

/// 12 and 13 become 11 by the larger of the two amounts at the lowest pair that breaks either.
fn correspond(net: &PlainNet, counts: &[u32], mode: u16, answer: Answer) -> Answer {
    if !matches!(answer.number, 12 | 13) {
        return answer;
    }
    let amount = |arc: &PlainArc| {
        let (capacity, count) = (net.pairs[arc.pair as usize].0, counts[arc.pair as usize]);
        let over = (count + arc.post).saturating_sub(capacity.saturating_add(arc.pre));
        over.max(count.saturating_sub(arc.inhibitor))
    };
    let lowest = net.arcs.iter().find(|arc| arc.mode == mode && amount(arc) > 0).unwrap();
    let before = net.pairs[..usize::from(lowest.pair)].iter().filter(|pair| pair.0 != OPEN).count();
    Answer { number: 11, position: (counts.len() + before) as u64, amount: amount(lowest).into(), ..answer }
}

/// A small net of any style.
fn small(random: &mut Random) -> (PlainNet, Style) {
    let style = random.pick(&[Style::Small, Style::Edges, Style::Lively]);
    (net(random, style, 5, 4, 24), style)
}

/// Counts within the capacities.
fn fitting(random: &mut Random, style: Style, net: &PlainNet) -> Vec<u32> {
    net.pairs.iter().map(|&(capacity, _)| generator::count(random, style, capacity)).collect()
}

#[test]
fn refusals_correspond_in_the_complement_and_the_capacity_sum_holds() {
    let (mut random, mut complements, mut deaths) = (Random::new(71), 0, 0);
    for _ in 0..1_500 {
        let (net, style) = small(&mut random);
        let (sheet, mut output) = (weak(&net), vec![0; 40_000]);
        let Ok(length) = complement(&sheet, &mut output) else { continue };
        let other = &output[..length];
        assert_eq!((read_net(other), first_dead(other)), ((ACCEPTED, length), Ok(None)));
        complements += 1;
        let mut counts = fitting(&mut random, style, &net);
        for _ in 0..8 {
            let mode = random.below(total(&net.modes) + 1) as u16;
            let mut both = completed(&net, &counts);
            let expected = correspond(&net, &counts, mode, test(&sheet, &counts, mode));
            assert_eq!(fire(other, &mut both, mode), expected, "{net:?}");
            if is_dead(&sheet, mode) == Ok(true) {
                assert_eq!(expected.number, 11, "{net:?}");
                deaths += 1;
            }
            fire(&sheet, &mut counts, mode);
            assert_eq!(both, completed(&net, &counts));
            assert_eq!(audit(&sheet, &counts, &both), Ok(None));
        }
    }
    assert!(complements > 500 && deaths > 300, "{complements} {deaths}");
}

#[test]
fn a_live_mode_is_accepted_where_the_marking_is_its_pre_and_a_dead_one_nowhere() {
    let (mut random, mut live, mut dead) = (Random::new(72), 0, 0);
    for _ in 0..800 {
        let (net, style) = small(&mut random);
        let sheet = weak(&net);
        for mode in 0..total(&net.modes) as u16 {
            let mut pre = vec![0; net.pairs.len()];
            net.arcs.iter().filter(|arc| arc.mode == mode).for_each(|arc| pre[arc.pair as usize] = arc.pre);
            let is_dead = is_dead(&sheet, mode).unwrap();
            assert_eq!(test(&sheet, &pre, mode) == ACCEPTED, !is_dead, "mode {mode} of {net:?}");
            assert!(!is_dead || test(&sheet, &fitting(&mut random, style, &net), mode) != ACCEPTED);
            (live, dead) = (live + usize::from(!is_dead), dead + usize::from(is_dead));
        }
    }
    assert!(live > 500 && dead > 300, "{live} {dead}");
}

#[test]
fn what_rule_0_accepts_rule_1_accepts_and_where_no_k_is_finite_both_answer_alike() {
    let (mut random, mut swaps) = (Random::new(73), 0);
    for _ in 0..6_000 {
        let (mut net, style) = small(&mut random);
        if random.once_in(3) {
            net.pairs.iter_mut().for_each(|pair| pair.0 = OPEN);
        }
        let open = net.pairs.iter().all(|pair| pair.0 == OPEN);
        let (counts, list) = (marking(&mut random, style, &net), movements(&list(&mut random, &net, 8)));
        let [strict, weak] = Rule::BOTH.map(|rule| {
            let mut counts = counts.clone();
            (run(&net.sheet_in(Form::Two(rule)), &list, &mut counts), counts)
        });
        assert!(weak.0.accepted >= strict.0.accepted && (!open || strict == weak), "{net:?}");
        swaps += usize::from(strict.0.answer.number == 12 && weak.0.accepted > strict.0.accepted);
    }
    assert!(swaps > 50, "{swaps}");
}

#[test]
fn a_step_takes_the_rule_with_summed_pre_and_post() {
    let net = PlainNet::plain(2, &[(5, 5)], &[arc(0, 0, 1, 0, OPEN), arc(1, 0, 0, 1, OPEN)]);
    let tried = |sheet: &[u8], modes: &[u16]| {
        let mut counts = [5];
        (fire_step(sheet, &mut counts, modes), counts)
    };
    assert_eq!(tried(&net.sheet(), &[0, 1]), (short(12, ARGUMENT, 0, 1), [5]));
    assert_eq!(tried(&weak(&net), &[0, 1]), (ACCEPTED, [5]));
    assert_eq!(tried(&weak(&net), &[1, 0, 1]), (short(12, ARGUMENT, 0, 1), [5]));
    assert_eq!(tried(&weak(&net), &[0, 1, 0]), (ACCEPTED, [4]));
    assert_eq!(tried(&weak(&net), &[0; 6]), (short(11, ARGUMENT, 0, 1), [5]));
    assert_eq!(tried(&weak(&net), &[1; 9]), (short(12, ARGUMENT, 0, 9), [5]));
}

#[test]
fn without_any_inhibitor_a_step_may_pass_in_the_net_alone() {
    let net = weak(&PlainNet::plain(2, &[(1, 1)], &[arc(0, 0, 1, 0, OPEN), arc(1, 0, 0, 1, OPEN)]));
    assert_eq!(test_step(&net, &[1], &[0, 1]), ACCEPTED);
    assert_eq!(test_step(&complement_of(&net), &[1, 0], &[0, 1]), short(11, ARGUMENT, 1, 1));
}

#[test]
fn a_step_that_a_complement_accepts_the_net_accepts() {
    let (mut random, mut accepted) = (Random::new(74), 0);
    for _ in 0..4_000 {
        let (net, style) = small(&mut random);
        let (sheet, mut output) = (weak(&net), vec![0; 40_000]);
        let Ok(length) = complement(&sheet, &mut output) else { continue };
        let (mut counts, modes) = (fitting(&mut random, style, &net), step(&mut random, &net));
        let mut both = completed(&net, &counts);
        if fire_step(&output[..length], &mut both, &modes) == ACCEPTED {
            assert_eq!(fire_step(&sheet, &mut counts, &modes), ACCEPTED, "{net:?} {modes:?}");
            assert_eq!(both, completed(&net, &counts));
            accepted += 1;
        }
    }
    assert!(accepted > 300, "{accepted}");
}

#[test]
fn number_23_after_the_nets_refusals_and_before_10() {
    let net = example();
    for room in [0, 64, 65, 35_083] {
        let mut output = vec![170; room];
        assert_eq!(to_version_1(&weak(&net), &mut output), Err(refused(23, NET, 0)));
        assert!(untouched(&output));
    }
    let bytes_after = to_version_1(&followed(&weak(&net), &[0]), &mut []);
    assert_eq!(bytes_after, Err(refused(3, NET, 62)));
    assert_eq!(to_version_1(&resized(&weak(&net), 61), &mut []), Err(refused(3, NET, 48)));
    // Also where every K is unbounded, and the rule says nothing.
    let open = PlainNet::plain(0, &[(OPEN, 0)], &[]);
    assert_eq!(to_version_1(&weak(&open), &mut [0; 99]), Err(refused(23, NET, 0)));
    assert_eq!(to_version_1(&open.sheet_in(Version::Two), &mut [0; 20]), Err(refused(10, NET, 0)));
    // The other way it is of the conversion's target version.
    assert_eq!(to_version_2(&weak(&net), &mut [0; 99]), Err(refused(2, NET, 4)));
    let mut output = [0; 62];
    assert_eq!(to_version_2(&net.sheet(), &mut output), Ok(62));
    assert_eq!(output[5], 0);
}

#[test]
fn replay_and_certificates_go_by_the_rule() {
    let net = PlainNet::plain(1, &[(5, 5), (OPEN, 0)], &[arc(0, 0, 1, 1, OPEN), arc(0, 1, 0, 1, OPEN)]);
    let text = |sheet: &[u8]| {
        String::from_utf8(replay(&input(sheet, &weights(&[10, 1]), &movements(&[0, 0])))).unwrap()
    };
    assert_eq!(text(&net.sheet()), "start 50\nrefused 1 0 12 0 1\nend 0 50\n");
    assert_eq!(text(&weak(&net)), "start 50\n1 0 0 51\n2 0 0 52\nend 2 52\n");
    assert_eq!(certify(&weak(&net), &movements(&[0, 0]), &[5, 2]), ACCEPTED);
    assert_eq!(certify(&net.sheet(), &movements(&[0, 0]), &[5, 2]), short(12, MOVEMENTS, 0, 1));
}
