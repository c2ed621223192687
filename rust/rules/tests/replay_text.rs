//! The lines of `replay`.

use crate::support::*;
use reference::build::{OPEN, PlainNet, arc, movements, weights};
use reference::replay;

fn print(bytes: &[u8]) -> String {
    String::from_utf8(replay(bytes)).unwrap()
}

#[test]
fn input_above_65536_bytes_is_long() {
    assert_eq!(print(&[0; 65_537]), "long\n");
    assert_eq!(print(&[0; 65_536]), "bad 0 3 0\n");
    let sheets = input(&example().sheet(), &example_weights(), &example_movements());
    let mut padded = sheets.clone();
    padded.resize(65_536, 0);
    assert_eq!(print(&padded), "bad 2 3 13\n");
    padded.push(0);
    assert_eq!(print(&padded), "long\n");
}

#[test]
fn an_input_that_ends_early_is_bad() {
    let (net, w) = (example().sheet(), example_weights());
    assert_eq!(print(&[]), "bad 0 1 0\n");
    assert_eq!(print(&net[..64]), "bad 0 1 0\n");
    assert_eq!(print(&net), "bad 1 1 0\n");
    assert_eq!(print(&[net.clone(), w.clone()].concat()), "bad 2 1 0\n");
    assert_eq!(print(&[&net[..], &w[..14]].concat()), "bad 1 1 0\n");
}

#[test]
fn positions_are_counted_from_each_sheets_first_byte() {
    let (net, w, m) = (example().sheet(), example_weights(), example_movements());
    assert_eq!(print(&input(&with(&net, 45, &[255, 0, 0, 0]), &w, &m)), "bad 0 5 45\n");
    assert_eq!(print(&input(&net, &with(&w, 11, &[127, 0, 0, 0]), &m)), "bad 1 5 11\n");
    assert_eq!(print(&input(&net, &weights(&[1, 2, 3]), &m)), "bad 1 17 5\n");
    assert_eq!(print(&input(&net, &w, &resized(&m, 12))), "bad 2 3 11\n");
    assert_eq!(print(&input(&net, &w, &movements(&[0; 8_193]))), "bad 2 4 5\n");
}

#[test]
fn the_empty_list_starts_and_ends() {
    let text = print(&input(&example().sheet(), &example_weights(), &movements(&[])));
    assert_eq!(text, "start 750\nend 0 750\n");
}

#[test]
fn a_negative_figure_has_a_minus_sign() {
    let text = print(&input(&example().sheet(), &weights(&[1, -2]), &movements(&[0, 0])));
    assert_eq!(text, "start 3\n1 0 0 0\n2 0 0 -3\nend 2 -3\n");
}

#[test]
fn a_refused_movement_names_its_pair_and_its_amount() {
    let arcs = [arc(0, 1, 0, 1, OPEN), arc(1, 0, 0, 1, OPEN), arc(1, 1, 0, 2, OPEN), arc(2, 1, 0, 0, 1)];
    let net = PlainNet::plain(4, &[(OPEN, 1_000_000), (3, 1)], &arcs).sheet();
    let text = |list: &[u16]| print(&input(&net, &weights(&[0, 10]), &movements(list)));
    assert_eq!(text(&[3, 0, 2]), "start 10\n1 3 0 10\n2 0 0 20\nrefused 3 2 13 1 1\nend 2 20\n");
    assert_eq!(text(&[0, 1]), "start 10\n1 0 0 20\nrefused 2 1 12 1 1\nend 1 20\n");
    assert_eq!(text(&[1]), "start 10\nrefused 1 1 14 0 1\nend 0 10\n");
    assert_eq!(text(&[2, 4, 0]), "start 10\n1 2 0 10\nrefused 2 4 6 0 0\nend 1 10\n");
}
