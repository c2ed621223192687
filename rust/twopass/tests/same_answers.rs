//! The same answers, accepted counts, arcs visited and markings as `reference`, on generated inputs.

use std::collections::BTreeSet;

use generator::{Random, Style, form, list, marking, net, spoil, step};
use reference::Form;
use reference::build::{PlainNet, movements};

/// An answer as number, thing, position and amount.
type Plain = (u32, u8, u64, u64);

fn told(answer: swift::Answer) -> Plain {
    (answer.number, answer.thing, answer.position, answer.amount)
}

fn of_reference(answer: reference::Answer) -> Plain {
    (answer.number, answer.thing, answer.position, answer.amount)
}

/// At most so many places, transitions and arcs.
const SMALL: [(usize, usize, usize); 4] = [(1, 2, 3), (3, 2, 6), (5, 4, 24), (9, 9, 80)];

/// A net of one of these sizes, with the style of its numbers.
fn any_net(random: &mut Random, sizes: &[(usize, usize, usize)]) -> (PlainNet, Style) {
    let style = random.pick(&[Style::Small, Style::Edges, Style::Lively]);
    let (places, transitions, arcs) = random.pick(sizes);
    (net(random, style, places, transitions, arcs), style)
}

#[test]
fn running_gives_the_same_answer() {
    let (mut random, mut seen) = (Random::new(31), BTreeSet::new());
    for _ in 0..12_000 {
        let (net, style) = any_net(&mut random, &SMALL);
        let (mut twice, list) = (marking(&mut random, style, &net), movements(&list(&mut random, &net, 40)));
        let mut sheet = net.sheet_in(form(&mut random));
        if random.once_in(20) {
            spoil(&mut random, &mut sheet);
        }
        let mut plainly = twice.clone();
        let (ran, plain) =
            (twopass::run(&sheet, &list, &mut twice), reference::run(&sheet, &list, &mut plainly));
        assert_eq!(told(ran.answer), of_reference(plain.answer), "{sheet:?} {list:?}");
        assert_eq!((ran.accepted, ran.arcs), (plain.accepted, plain.arcs), "{sheet:?} {list:?}");
        assert_eq!(twice, plainly, "{sheet:?} {list:?}");
        seen.insert(ran.answer.number);
    }
    assert!([0, 6, 11, 12, 13, 14].iter().all(|number| seen.contains(number)), "{seen:?}");
}

/// The same answer to a step, and the same marking after it.
fn same_step(sheet: &[u8], counts: &[u32], modes: &[u16], seen: &mut BTreeSet<u32>) {
    let (mut twice, mut plainly) = (counts.to_vec(), counts.to_vec());
    let answer = twopass::fire_step(sheet, &mut twice, modes);
    let plain = reference::fire_step(sheet, &mut plainly, modes);
    assert_eq!(told(answer), of_reference(plain), "{sheet:?} {counts:?} {modes:?}");
    assert_eq!(twice, plainly, "{sheet:?} {counts:?} {modes:?}");
    seen.insert(answer.number);
}

#[test]
fn a_step_gives_the_same_answer() {
    let (mut random, mut seen) = (Random::new(32), BTreeSet::new());
    for _ in 0..12_000 {
        let (net, style) = any_net(&mut random, &SMALL);
        let (counts, modes) = (marking(&mut random, style, &net), step(&mut random, &net));
        let mut sheet = net.sheet_in(form(&mut random));
        if random.once_in(20) {
            spoil(&mut random, &mut sheet);
        }
        same_step(&sheet, &counts, &modes, &mut seen);
    }
    let wanted = [0, 4, 5, 6, 9, 11, 12, 13, 14, 17];
    assert!(wanted.iter().all(|number| seen.contains(number)), "{seen:?}");
}

#[test]
fn steps_of_the_largest_nets_give_the_same_answer() {
    let (mut random, mut seen) = (Random::new(33), BTreeSet::new());
    for _ in 0..300 {
        let (net, style) = any_net(&mut random, &[(20, 20, 200), (64, 64, 2_048), (64, 2, 2_048)]);
        let (counts, modes) = (marking(&mut random, style, &net), step(&mut random, &net));
        same_step(&net.sheet_in(form(&mut random)), &counts, &modes, &mut seen);
    }
    assert!(seen.contains(&0) && seen.contains(&11), "{seen:?}");
}

#[test]
fn a_step_that_names_all_256_pairs_gives_the_same_answer() {
    let arcs = (0..512).map(|n| reference::build::arc(n / 256, n % 256, 1, 2, u32::MAX)).collect();
    let net = PlainNet { colours: vec![64; 4], modes: vec![2], pairs: vec![(500, 9); 256], arcs };
    let mut seen = BTreeSet::new();
    for length in [1, 4, 8, 9, 10, 64, 65] {
        let modes: Vec<u16> = (0..length).map(|n| n % 2).collect();
        Form::ALL.iter().for_each(|&form| same_step(&net.sheet_in(form), &[8; 256], &modes, &mut seen));
    }
    assert_eq!(seen, [0, 4, 11].into());
}
