//! The examples of docs/RULES.md.

use crate::support::*;
use reference::build::{OPEN, PlainNet, arc, movements, weights};
use reference::{
    Ran, begin, certify, complement, figure, read_movements, read_net, read_weights, replay, run,
};

#[test]
fn replay_prints_the_example_text() {
    let input = input(&example().sheet(), &example_weights(), &example_movements());
    let text = "start 750\n1 0 0 500\n2 0 0 250\n3 0 0 0\nrefused 4 0 11 0 1\nend 3 0\n";
    assert_eq!(replay(&input), text.as_bytes());
}

#[test]
fn the_example_sheets_have_the_lengths_named() {
    assert_eq!(example().sheet()[..4], 61u32.to_be_bytes());
    assert_eq!(example_weights()[..4], 11u32.to_be_bytes());
    assert_eq!(example_movements()[..4], 9u32.to_be_bytes());
    assert_eq!(read_net(&example().sheet()), (ACCEPTED, 65));
    assert_eq!(read_weights(&example_weights(), 2), (ACCEPTED, 15));
    assert_eq!(read_movements(&example_movements()), (ACCEPTED, 13));
}

#[test]
fn the_complement_of_the_example_has_l_87() {
    let sheet = complement_of(&example().sheet());
    assert_eq!(sheet[..4], 87u32.to_be_bytes());
    assert_eq!(sheet.len(), 91);
    let mut marking = [7; 3];
    assert_eq!(begin(&sheet, &mut marking), ACCEPTED);
    assert_eq!(marking, [3, 0, 2]);
    let third = [0, 0, 0, 2, 0, 0, 0, 1, 0, 0, 0, 2, 255, 255, 255, 255];
    assert_eq!(sheet[91 - 16..], third);
    assert_eq!(sheet, example_complement().sheet());
}

fn example_complement() -> PlainNet {
    let arcs = [arc(0, 0, 1, 0, OPEN), arc(0, 1, 0, 1, OPEN), arc(0, 2, 1, 2, OPEN)];
    PlainNet::plain(1, &[(OPEN, 3), (OPEN, 0), (OPEN, 2)], &arcs)
}

#[test]
fn the_complement_touches_no_byte_after_it() {
    let mut output = [170; 100];
    assert_eq!(complement(&example().sheet(), &mut output), Ok(91));
    assert_eq!(output[91..], [170; 9]);
}

#[test]
fn the_simple_inhibitor_example_of_source_000_complements_as_figure_6_6() {
    let net = PlainNet::plain(1, &[(5, 3)], &[arc(0, 0, 1, 0, 4)]);
    let pairs = [(OPEN, 3), (OPEN, 2)];
    let arcs = [arc(0, 0, 1, 0, OPEN), arc(0, 1, 1, 2, OPEN)];
    assert_eq!(complement_of(&net.sheet()), PlainNet::plain(1, &pairs, &arcs).sheet());
}

#[test]
fn running_the_example_stops_at_the_fourth_movement() {
    let mut marking = [3, 0];
    let ran = run(&example().sheet(), &example_movements(), &mut marking);
    // Four movements were tried, each of two arcs.
    assert_eq!(ran, Ran { accepted: 3, arcs: 8, answer: short(11, MOVEMENTS, 0, 1) });
    assert_eq!(marking, [0, 3]);
}

#[test]
fn the_example_has_a_certificate_and_figures() {
    let net = example().sheet();
    assert_eq!(certify(&net, &movements(&[0, 0, 0]), &[0, 3]), ACCEPTED);
    assert_eq!(certify(&net, &movements(&[0, 0]), &[1, 2]), ACCEPTED);
    assert_eq!(figure(&net, &example_weights(), &[3, 0]), Ok(750));
    assert_eq!(figure(&net, &weights(&[250, -1]), &[0, 1_000_000]), Ok(-1_000_000));
}

#[test]
fn the_largest_net_sheet_has_35083_bytes() {
    let pairs = vec![(OPEN, 0); 256];
    let arcs: Vec<_> = (0..2_048).map(|n| arc(n / 8, n % 8, 1, 0, OPEN)).collect();
    let net = PlainNet { colours: vec![4; 64], modes: vec![4; 64], pairs, arcs };
    assert_eq!(net.sheet().len(), 35_083);
    assert_eq!(read_net(&net.sheet()), (ACCEPTED, 35_083));
    assert_eq!(complement_of(&net.sheet()), net.sheet());
}
