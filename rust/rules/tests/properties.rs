//! What must hold between the calls, on generated nets.

use crate::support::*;
use generator::{Random, Style, list, marking, net, spoil, total};
use reference::build::{OPEN, PlainNet, movements, weights};
use reference::*;

const STYLES: [Style; 3] = [Style::Small, Style::Edges, Style::Lively];

/// A small net of any style.
fn small(random: &mut Random) -> (PlainNet, Style) {
    let style = random.pick(&STYLES);
    (net(random, style, 5, 4, 24), style)
}

#[test]
fn generated_nets_are_accepted_and_their_prefixes_refused_by_1() {
    let mut random = Random::new(1);
    for _ in 0..400 {
        let sheet = small(&mut random).0.sheet();
        assert_eq!(read_net(&sheet), (ACCEPTED, sheet.len()));
        assert_eq!(read_net(&followed(&sheet, &[1, 2, 3])), (ACCEPTED, sheet.len()));
        let cut = random.below(sheet.len());
        assert_eq!(read_net(&sheet[..cut]), (refused(1, NET, 0), 0));
    }
}

#[test]
fn a_run_is_its_movements_fired_one_by_one() {
    let mut random = Random::new(2);
    for _ in 0..600 {
        let (net, style) = small(&mut random);
        let (list, sheet) = (list(&mut random, &net, 12), net.sheet());
        let start = marking(&mut random, style, &net);
        let mut ran = start.clone();
        let (accepted, answer) = ran_to(&sheet, &movements(&list), &mut ran);
        let mut fired = start;
        for &mode in &list[..accepted as usize] {
            assert_eq!(test(&sheet, &fired, mode), ACCEPTED);
            assert_eq!(fire(&sheet, &mut fired, mode), ACCEPTED);
        }
        assert_eq!(fired, ran);
        if answer == ACCEPTED {
            assert_eq!(accepted as usize, list.len());
        } else if let Some(&mode) = list.get(accepted as usize) {
            let alone = fire(&sheet, &mut fired, mode);
            assert_eq!(Answer { thing: answer.thing, ..alone }, answer);
            assert_eq!(fired, ran);
        }
    }
}

#[test]
fn a_certificate_is_accepted_exactly_at_the_end_of_a_whole_run() {
    let mut random = Random::new(3);
    for _ in 0..600 {
        let (net, _) = small(&mut random);
        let (list, sheet) = (movements(&list(&mut random, &net, 6)), net.sheet());
        let mut end = vec![0; net.pairs.len()];
        begin(&sheet, &mut end);
        let (_, answer) = ran_to(&sheet, &list, &mut end);
        assert_eq!(certify(&sheet, &list, &end), answer);
        let pair = random.below(end.len());
        end[pair] ^= 1;
        let other = if answer == ACCEPTED { refused(18, ARGUMENT, pair as u64) } else { answer };
        assert_eq!(certify(&sheet, &list, &end), other);
    }
}

#[test]
fn the_figure_moves_by_the_change_of_each_movement() {
    let mut random = Random::new(4);
    for _ in 0..400 {
        let (net, _) = small(&mut random);
        let sheet = net.sheet();
        let w = weights(&generator::weights(&mut random, net.pairs.len()));
        let mut counts = vec![0; net.pairs.len()];
        begin(&sheet, &mut counts);
        let mut sum = figure(&sheet, &w, &counts).unwrap();
        for mode in list(&mut random, &net, 8) {
            if fire(&sheet, &mut counts, mode) == ACCEPTED {
                sum += change(&sheet, &w, mode).unwrap();
            }
            assert_eq!(figure(&sheet, &w, &counts), Ok(sum));
        }
    }
}

#[test]
fn replay_prints_what_the_run_and_the_figure_give() {
    let mut random = Random::new(5);
    for _ in 0..400 {
        let (net, _) = small(&mut random);
        let (sheet, list) = (net.sheet(), list(&mut random, &net, 8));
        let w = weights(&generator::weights(&mut random, net.pairs.len()));
        let text = String::from_utf8(replay(&input(&sheet, &w, &movements(&list)))).unwrap();
        let mut counts = vec![0; net.pairs.len()];
        begin(&sheet, &mut counts);
        let start = format!("start {}\n", figure(&sheet, &w, &counts).unwrap());
        let (accepted, answer) = ran_to(&sheet, &movements(&list), &mut counts);
        let end = format!("end {} {}\n", accepted, figure(&sheet, &w, &counts).unwrap());
        assert!(text.starts_with(&start) && text.ends_with(&end));
        let refusals = usize::from(answer != ACCEPTED);
        assert_eq!(text.lines().count(), 2 + accepted as usize + refusals);
    }
}

/// The complement pair of each pair of finite K.
fn complement_pairs(net: &PlainNet) -> Vec<Option<usize>> {
    let mut next = net.pairs.len();
    let number = |&(capacity, _): &(u32, u32)| {
        (capacity != OPEN).then(|| {
            next += 1;
            next - 1
        })
    };
    net.pairs.iter().map(number).collect()
}

/// "11, 12 and 13 in the net become 11 in its complement; 6 and 14 stay." 12 and 13 become 11 by the larger of
/// the two amounts at the lowest pair that breaks either.
fn correspond(net: &PlainNet, counts: &[u32], mode: u16, answer: Answer) -> Answer {
    if !matches!(answer.number, 12 | 13) {
        return answer;
    }
    let amount = |arc: &build::PlainArc| {
        let (capacity, count) = (net.pairs[arc.pair as usize].0, counts[arc.pair as usize]);
        (count + arc.post).saturating_sub(capacity).max(count.saturating_sub(arc.inhibitor))
    };
    let breaks = |arc: &&build::PlainArc| arc.mode == mode && amount(arc) > 0;
    let lowest = net.arcs.iter().find(breaks).unwrap();
    let position = complement_pairs(net)[lowest.pair as usize].unwrap() as u64;
    Answer { number: 11, position, amount: amount(lowest).into(), ..answer }
}

#[test]
fn refusals_correspond_in_the_complement_and_the_capacity_sum_holds() {
    let mut random = Random::new(6);
    let mut complements = 0;
    for _ in 0..1_500 {
        let (net, style) = small(&mut random);
        let mut output = vec![0; 40_000];
        let Ok(length) = complement(&net.sheet(), &mut output) else { continue };
        let (sheet, other) = (net.sheet(), &output[..length]);
        assert_eq!(read_net(other), (ACCEPTED, length));
        complements += 1;
        let mut counts: Vec<u32> =
            net.pairs.iter().map(|&(capacity, _)| generator::count(&mut random, style, capacity)).collect();
        for _ in 0..8 {
            let mode = random.below(total(&net.modes) + 1) as u16;
            let mut both = completed(&net, &counts);
            let expected = correspond(&net, &counts, mode, test(&sheet, &counts, mode));
            assert_eq!(fire(other, &mut both, mode), expected);
            fire(&sheet, &mut counts, mode);
            assert_eq!(both, completed(&net, &counts));
        }
    }
    assert!(complements > 500);
}

#[test]
fn a_dead_mode_is_refused_by_11_in_the_complement_and_nothing_is_dead_there() {
    let (mut random, mut deaths) = (Random::new(8), 0);
    for _ in 0..1_500 {
        let (net, style) = small(&mut random);
        let mut output = vec![0; 40_000];
        let Ok(length) = complement(&net.sheet(), &mut output) else { continue };
        let (sheet, other) = (net.sheet(), &output[..length]);
        assert_eq!(first_dead(other), Ok(None), "{net:?}");
        for mode in (0..total(&net.modes) as u16).filter(|&mode| is_dead(&sheet, mode) == Ok(true)) {
            let counts: Vec<u32> = net
                .pairs
                .iter()
                .map(|&(capacity, _)| generator::count(&mut random, style, capacity))
                .collect();
            assert_eq!(test(other, &completed(&net, &counts), mode).number, 11, "{net:?}");
            deaths += 1;
        }
    }
    assert!(deaths > 300, "{deaths}");
}

#[test]
fn a_complement_is_its_own_complement() {
    let mut random = Random::new(7);
    for _ in 0..600 {
        let mut output = vec![0; 40_000];
        if let Ok(length) = complement(&small(&mut random).0.sheet(), &mut output) {
            assert_eq!(complement_of(&output[..length]), &output[..length]);
        }
    }
}

#[test]
fn refused_calls_write_nothing_whatever_the_bytes() {
    let mut random = Random::new(9);
    for _ in 0..4_000 {
        let (net, style) = small(&mut random);
        let (mut sheet, counts) = (net.sheet(), marking(&mut random, style, &net));
        spoil(&mut random, &mut sheet);
        let mode = random.below(9) as u16;
        let mut fired = counts.clone();
        assert!(fire(&sheet, &mut fired, mode) == ACCEPTED || fired == counts);
        let mut begun = counts.clone();
        assert!(begin(&sheet, &mut begun) == ACCEPTED || begun == counts);
        let mut output = vec![170; 35_083];
        let length = complement(&sheet, &mut output).unwrap_or(0);
        assert!(untouched(&output[length..]));
        let (answer, taken) = read_net(&sheet);
        assert_eq!(answer == ACCEPTED, taken > 0);
        assert!(taken <= sheet.len());
        replay(&sheet);
    }
}
