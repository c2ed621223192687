//! Several faults at once: which refusal comes first.

use crate::support::*;
use reference::build::{OPEN, PlainArc, PlainNet, arc, movements, sheet, weights};
use reference::*;

fn net_answer(bytes: &[u8]) -> Answer {
    read_net(bytes).0
}

#[test]
fn in_a_sheet_1_then_l_0_then_2_then_the_fields() {
    assert_eq!(net_answer(&[0, 0, 0, 9, 3, 0, 0]), refused(1, NET, 0));
    assert_eq!(net_answer(&[0, 0, 0, 0, 3]), refused(3, NET, 0));
    assert_eq!(net_answer(&[0, 0, 0, 2, 3, 0]), refused(2, NET, 4));
    assert_eq!(net_answer(&[0, 0, 0, 2, 1, 0]), refused(3, NET, 5));
    assert_eq!(net_answer(&[0, 0, 0, 3, 1, 0, 0]), refused(4, NET, 5));
}

#[test]
fn a_count_past_its_limit_comes_before_the_bytes_it_would_announce() {
    assert_eq!(net_answer(&sheet(&[0, 1, 0, 65])), refused(4, NET, 7));
    assert_eq!(net_answer(&sheet(&[0, 65, 0, 65])), refused(4, NET, 5));
    assert_eq!(net_answer(&sheet(&[0, 1, 0, 0, 0, 65])), refused(4, NET, 9));
    let net = PlainNet::plain(0, &[(OPEN, 0)], &[]).sheet();
    assert_eq!(net_answer(&with(&net, net.len() as u64 - 2, &[8, 1])), refused(4, NET, 19));
    assert_eq!(net_answer(&with(&net, net.len() as u64 - 2, &[8, 0])), refused(3, NET, 21));
}

#[test]
fn counts_come_from_left_to_right() {
    // Six places are announced: the fifth is missing, or passes 256 before the missing sixth.
    let mut fields = vec![0, 6, 0, 0];
    fields.extend([0, 64].repeat(4));
    assert_eq!(net_answer(&sheet(&fields)), refused(3, NET, 17));
    fields.extend([0, 1]);
    assert_eq!(net_answer(&sheet(&fields)), refused(4, NET, 17));
    // Colours come before modes.
    assert_eq!(net_answer(&sheet(&[0, 1, 0, 1, 0, 0, 0, 0])), refused(4, NET, 9));
}

#[test]
fn pairs_come_from_left_to_right_and_5_before_9() {
    let answer = |pairs: &[(u32, u32)]| net_answer(&PlainNet::plain(0, pairs, &[]).sheet());
    assert_eq!(answer(&[(1_000_001, 1_000_001)]), refused(5, NET, 11));
    assert_eq!(answer(&[(5, 1_000_001)]), refused(5, NET, 15));
    assert_eq!(answer(&[(5, OPEN)]), refused(5, NET, 15));
    assert_eq!(answer(&[(5, 6), (OPEN, OPEN)]), refused(9, NET, 17));
    assert_eq!(answer(&[(5, 5), (1_000_001, 0)]), refused(5, NET, 21));
    assert_eq!(answer(&[(OPEN, 1_000_001)]), refused(5, NET, 15));
}

#[test]
fn in_an_arc_6_for_mode_6_for_pair_7_5_and_8() {
    let answer = |second: PlainArc| {
        let mut net = PlainNet::plain(2, &[(OPEN, 0), (OPEN, 0)], &[arc(1, 0, 1, 0, OPEN)]);
        net.arcs.push(second);
        let answer = net_answer(&net.sheet());
        (answer.number, answer.position - net.arc_offset(1))
    };
    let bad = 1_000_001;
    assert_eq!(answer(arc(2, 2, bad, bad, bad)), (6, 0));
    assert_eq!(answer(arc(0, 2, bad, bad, bad)), (6, 2));
    assert_eq!(answer(arc(1, 0, bad, bad, bad)), (7, 0));
    assert_eq!(answer(arc(0, 1, 0, 0, OPEN)), (7, 0));
    assert_eq!(answer(arc(1, 1, bad, bad, bad)), (5, 4));
    assert_eq!(answer(arc(1, 1, 0, bad, bad)), (5, 8));
    assert_eq!(answer(arc(1, 1, 0, 0, bad)), (5, 12));
    assert_eq!(answer(arc(1, 1, 0, 0, OPEN)), (8, 0));
}

#[test]
fn all_16_bytes_of_an_arc_must_be_there_first() {
    let net = PlainNet::plain(1, &[(OPEN, 0)], &[arc(9, 9, OPEN, OPEN, 0)]);
    for length in 23..39 {
        assert_eq!(net_answer(&resized(&net.sheet(), length)), refused(3, NET, net.arc_offset(0)));
    }
    // A bad earlier arc comes before a missing later one.
    let net = PlainNet::plain(1, &[(OPEN, 0)], &[arc(9, 0, 1, 0, 0), arc(9, 0, 1, 0, 0)]);
    assert_eq!(net_answer(&resized(&net.sheet(), net.arc_offset(1) + 3)), refused(6, NET, 23));
}

#[test]
fn left_over_bytes_come_after_the_fields() {
    let blank = PlainNet::plain(1, &[(OPEN, 0)], &[arc(0, 0, 0, 0, OPEN)]).sheet();
    assert_eq!(net_answer(&resized(&blank, blank.len() as u64 + 4)), refused(8, NET, 23));
    // Inside L first, then after the sheet.
    let net = example().sheet();
    let inside = resized(&net, 66);
    assert_eq!(begin(&followed(&inside, &[1]), &mut [0, 0]), refused(3, NET, 65));
    assert_eq!(begin(&followed(&net, &[1, 2]), &mut [0, 0]), refused(3, NET, 65));
}

#[test]
fn in_a_movement_sheet_a_lone_byte_before_too_many() {
    let answer = |bytes: usize| read_movements(&sheet(&vec![0; bytes])).0;
    assert_eq!(answer(2 * 8_193 + 1), refused(3, MOVEMENTS, 5 + 2 * 8_193));
    assert_eq!(answer(2 * 8_192 + 1), refused(3, MOVEMENTS, 5 + 2 * 8_192));
    assert_eq!(answer(2 * 8_193), refused(4, MOVEMENTS, 5));
}

#[test]
fn in_a_weight_sheet_17_before_the_weights() {
    let answer = |fields: &[u8]| read_weights(&sheet(fields), 2).0;
    assert_eq!(answer(&[0]), refused(3, WEIGHTS, 5));
    assert_eq!(answer(&[0, 3]), refused(17, WEIGHTS, 5));
    assert_eq!(answer(&[0, 3, 127, 0, 0, 0]), refused(17, WEIGHTS, 5));
    assert_eq!(answer(&[0, 2, 127, 0, 0, 0]), refused(5, WEIGHTS, 7));
    assert_eq!(answer(&[0, 2, 0, 0, 0, 0]), refused(3, WEIGHTS, 11));
    assert_eq!(answer(&[0, 2, 0, 0, 0, 0, 127, 0, 0, 0, 9]), refused(5, WEIGHTS, 11));
    assert_eq!(answer(&[0, 2, 0, 0, 0, 0, 0, 0, 0, 0, 9]), refused(3, WEIGHTS, 15));
}

#[test]
fn across_things_net_weights_then_the_marking_or_the_mode() {
    let (net, w) = (example().sheet(), example_weights());
    let (bad_net, bad_w) = (&net[1..], &w[1..]);
    assert_eq!(figure(bad_net, bad_w, &[]), Err(refused(1, NET, 0)));
    assert_eq!(figure(&net, bad_w, &[]), Err(refused(1, WEIGHTS, 0)));
    assert_eq!(figure(&net, &w, &[]), Err(refused(17, ARGUMENT, 0)));
    assert_eq!(figure(&followed(&net, &[0]), bad_w, &[]), Err(refused(3, NET, 65)));
    assert_eq!(figure(&net, &followed(&w, &[0]), &[]), Err(refused(3, WEIGHTS, 15)));
    assert_eq!(change(bad_net, bad_w, 9), Err(refused(1, NET, 0)));
    assert_eq!(change(&net, bad_w, 9), Err(refused(1, WEIGHTS, 0)));
    assert_eq!(change(&net, &w, 9), Err(refused(6, ARGUMENT, 0)));
    assert_eq!(is_dead(bad_net, 9), Err(refused(1, NET, 0)));
}

#[test]
fn across_things_net_movements_marking_then_the_mode() {
    let net = example().sheet();
    let list = movements(&[9]);
    let (bad_net, bad_list) = (&net[1..], &list[1..]);
    let answer = |net: &[u8], list: &[u8], counts: &[u32]| ran_to(net, list, &mut counts.to_vec());
    assert_eq!(answer(bad_net, bad_list, &[]), (0, refused(1, NET, 0)));
    assert_eq!(answer(&followed(&net, &[0]), bad_list, &[]), (0, refused(3, NET, 65)));
    assert_eq!(answer(&net, bad_list, &[]), (0, refused(1, MOVEMENTS, 0)));
    assert_eq!(answer(&net, &followed(&list, &[0]), &[]), (0, refused(3, MOVEMENTS, 7)));
    assert_eq!(answer(&net, &list, &[]), (0, refused(17, ARGUMENT, 0)));
    assert_eq!(answer(&net, &list, &[6, OPEN]), (0, refused(9, ARGUMENT, 0)));
    assert_eq!(answer(&net, &list, &[5, OPEN]), (0, refused(5, ARGUMENT, 1)));
    assert_eq!(answer(&net, &list, &[5, 0]), (0, refused(6, MOVEMENTS, 0)));
}

#[test]
fn a_marking_pair_by_pair_5_before_9_then_the_mode() {
    let net = PlainNet::plain(1, &[(5, 0), (5, 0)], &[arc(0, 0, 9, 9, 0)]).sheet();
    let answer = |counts: &[u32], mode| test(&net, counts, mode);
    assert_eq!(answer(&[1_000_001], 7), refused(17, ARGUMENT, 0));
    assert_eq!(answer(&[1_000_001, 6], 7), refused(5, ARGUMENT, 0));
    assert_eq!(answer(&[6, 1_000_001], 7), refused(9, ARGUMENT, 0));
    assert_eq!(answer(&[5, 1_000_001], 7), refused(5, ARGUMENT, 1));
    assert_eq!(answer(&[5, 6], 7), refused(9, ARGUMENT, 1));
    assert_eq!(answer(&[5, 5], 7), refused(6, ARGUMENT, 0));
    assert_eq!(answer(&[5, 5], 0), short(11, ARGUMENT, 0, 4));
}

#[test]
fn in_a_mode_11_over_all_pairs_then_12_13_and_14() {
    let full = 1_000_000;
    let answer = |arcs: &[PlainArc]| {
        let net = PlainNet::plain(1, &[(OPEN, 0), (5, 0), (5, 0), (OPEN, 0)], arcs);
        let answer = test(&net.sheet(), &[full, 5, 1, full], 0);
        (answer.number, answer.position, answer.amount)
    };
    let new_count = arc(0, 0, 0, 1, OPEN);
    let inhibitor = arc(0, 1, 0, 0, 4);
    let post = arc(0, 2, 1, 5, 0);
    let pre = arc(0, 3, full, full, OPEN);
    let above = PlainArc { pre: full, ..arc(0, 2, 0, 0, OPEN) };
    assert_eq!(answer(&[new_count, inhibitor, above, pre]), (11, 2, 999_999));
    assert_eq!(answer(&[new_count, inhibitor, post, pre]), (12, 2, 1));
    assert_eq!(answer(&[new_count, inhibitor, pre]), (13, 1, 1));
    assert_eq!(answer(&[new_count, pre]), (14, 0, 1));
    assert_eq!(answer(&[pre]), (0, 0, 0));
}

#[test]
fn a_certificate_net_movements_17_the_run_18() {
    let net = example().sheet();
    let list = movements(&[0, 9]);
    assert_eq!(certify(&net[1..], &list[1..], &[]), refused(1, NET, 0));
    assert_eq!(certify(&net, &list[1..], &[]), refused(1, MOVEMENTS, 0));
    assert_eq!(certify(&net, &list, &[]), refused(17, ARGUMENT, 0));
    assert_eq!(certify(&net, &list, &[OPEN, OPEN]), refused(6, MOVEMENTS, 0));
    assert_eq!(certify(&net, &example_movements(), &[OPEN, OPEN]), short(11, MOVEMENTS, 0, 1));
    assert_eq!(certify(&net, &movements(&[0]), &[OPEN, OPEN]), refused(18, ARGUMENT, 0));
}

#[test]
fn a_movement_that_is_not_there_is_met_when_the_run_reaches_it() {
    let net = example().sheet();
    let mut marking = [1, 0];
    assert_eq!(ran_to(&net, &movements(&[0, 0, 9]), &mut marking), (1, short(11, MOVEMENTS, 0, 1)));
    assert_eq!(ran_to(&net, &movements(&[9, 0]), &mut marking), (0, refused(6, MOVEMENTS, 0)));
    assert_eq!(marking, [0, 1]);
}

/// 33 finite places, so that 10 is always there too; arcs at the first pairs.
fn crowded(arcs: &[PlainArc]) -> PlainNet {
    let mut pairs = vec![(1_000_000, 0); 33];
    pairs[0] = (OPEN, 0);
    pairs.push((1_000_000, 0));
    PlainNet::plain(2, &pairs, arcs)
}

#[test]
fn complementing_net_15_then_10() {
    // A dead mode, of which a number would pass 1,000,000 if it were written as a live one's.
    let (finite, above) = (arc(1, 0, 0, 0, 3), arc(0, 1, 1, 0, 0));
    let answer = |net: &PlainNet| complement(&net.sheet(), &mut []);
    let both = crowded(&[above, finite]);
    assert_eq!(answer(&both), Err(refused(15, NET, both.arc_offset(1))));
    // 15 is given for a dead mode too.
    let dead = crowded(&[arc(0, 0, 1, 0, 0), above]);
    assert_eq!(answer(&dead), Err(refused(15, NET, dead.arc_offset(0))));
    let one = crowded(&[arc(0, 0, 1, 0, OPEN), above]);
    assert_eq!(answer(&one), Err(refused(10, NET, 0)));
    assert_eq!(answer(&crowded(&[])), Err(refused(10, NET, 0)));
    let blank = crowded(&[above, arc(1, 0, 0, 0, OPEN)]);
    assert_eq!(answer(&blank), Err(refused(8, NET, blank.arc_offset(1))));
    let after = complement(&followed(&both.sheet(), &[0]), &mut []);
    assert_eq!(after, Err(refused(3, NET, both.sheet().len() as u64)));
}

#[test]
fn replay_tests_all_sheets_before_it_starts() {
    let (net, w, m) = (example().sheet(), weights(&[250, 0]), movements(&[9]));
    let (bad_w, bad_m) = (with(&w, 4, &[2]), with(&m, 4, &[3]));
    let print = |sheets: &[&[u8]]| String::from_utf8(replay(&sheets.concat())).unwrap();
    assert_eq!(print(&[&with(&net, 4, &[0]), &bad_w, &bad_m]), "bad 0 2 4\n");
    assert_eq!(print(&[&net, &bad_w, &bad_m]), "bad 1 2 4\n");
    assert_eq!(print(&[&net, &w, &bad_m]), "bad 2 2 4\n");
    assert_eq!(print(&[&net, &w, &bad_m, &[1]]), "bad 2 2 4\n");
    assert_eq!(print(&[&net, &w, &m, &[1]]), "bad 2 3 7\n");
    assert_eq!(print(&[&net, &w, &m]), "start 750\nrefused 1 9 6 0 0\nend 0 750\n");
}
