//! Equal nets answer equally, whichever version their sheets have.

use crate::support::*;
use generator::{Random, Style, list, marking, net, step, total};
use reference::build::{PlainNet, movements, weights};
use reference::*;

/// What a call is given besides the net.
struct Given {
    marking: Vec<u32>,
    both: Vec<u32>,
    list: Vec<u8>,
    kilograms: Vec<u8>,
    step: Vec<u16>,
    mode: u16,
}

/// An answer without its offset in the net sheet, which 15 has.
fn anywhere<V>(outcome: Result<V, Answer>) -> Result<V, Answer> {
    outcome.map_err(|answer| Answer {
        position: if answer.number == 15 { 0 } else { answer.position },
        ..answer
    })
}

/// Every call's answer, value and marking, but those that may differ: "only offsets in the net sheet, the sheets written and their
/// lengths, refusal 10 for a short output, and the conversions".
fn answers(net: &[u8], given: &Given) -> String {
    let Given { marking, both, list, kilograms, step, mode } = given;
    let mut written = [0; 4].map(|_| marking.clone());
    let [begun, fired, stepped, ran] = &mut written;
    let calls = (
        (begin(net, begun), fire(net, fired, *mode), fire_step(net, stepped, step), run(net, list, ran)),
        (test(net, marking, *mode), test_step(net, marking, step), certify(net, list, marking), size(net)),
        (figure(net, kilograms, marking), change(net, kilograms, *mode), exclude(net, kilograms, marking)),
        (is_dead(net, *mode), first_dead(net), anywhere(audit(net, marking, both))),
        anywhere(complement(net, &mut vec![0; 35_083]).map(|_| ())),
        replay(&input(net, kilograms, list)),
    );
    format!("{calls:?} {written:?}")
}

fn given(random: &mut Random, style: Style, net: &PlainNet) -> Given {
    let counts = marking(random, style, net);
    let within: Vec<u32> = counts.iter().zip(&net.pairs).map(|(&count, pair)| count.min(pair.0)).collect();
    let weighed = net.pairs.len() + usize::from(random.once_in(20));
    let both = if counts.len() == net.pairs.len() { completed(net, &within) } else { vec![1] };
    Given {
        both,
        list: movements(&list(random, net, 12)),
        kilograms: weights(&generator::weights(random, weighed)),
        step: step(random, net),
        mode: random.below(total(&net.modes) + 1) as u16,
        marking: counts,
    }
}

#[test]
fn every_call_answers_equal_nets_equally() {
    let mut random = Random::new(63);
    for _ in 0..3_000 {
        let style = random.pick(&[Style::Small, Style::Edges, Style::Lively]);
        let net = net(&mut random, style, 4, 4, 20);
        let given = given(&mut random, style, &net);
        let [one, two] = Version::BOTH.map(|version| answers(&net.sheet_in(version), &given));
        assert_eq!(one, two, "{net:?}");
    }
}

#[test]
fn complements_are_equal_nets_again() {
    let mut random = Random::new(64);
    let mut complements = 0;
    for _ in 0..1_000 {
        let net = net(&mut random, Style::Small, 3, 3, 9);
        let mut outputs = [vec![0; 35_083], vec![0; 35_083]];
        let lengths = [0, 1].map(|at| complement(&net.sheet_in(Version::BOTH[at]), &mut outputs[at]));
        let [Ok(one), Ok(two)] = lengths else { continue };
        let mut converted = vec![0; 35_083];
        assert_eq!(to_version_2(&outputs[0][..one], &mut converted), Ok(two));
        assert_eq!(converted[..two], outputs[1][..two]);
        complements += 1;
    }
    assert!(complements > 200, "{complements}");
}

#[test]
fn bytes_after_the_sheets_may_be_long_in_one_version_alone() {
    let net = example();
    let with_bytes = |version, bytes: usize| {
        let sheets = input(&net.sheet_in(version), &example_weights(), &example_movements());
        String::from_utf8(replay(&followed(&sheets, &vec![0; bytes]))).unwrap()
    };
    let most = 65_536 - 62 - 15 - 13;
    assert_eq!(with_bytes(Version::Two, most), "bad 2 3 13\n");
    assert_eq!(with_bytes(Version::One, most), "long\n");
    assert_eq!(with_bytes(Version::One, most - 3), "bad 2 3 13\n");
}
