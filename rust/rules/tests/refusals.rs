//! The table "Refusal numbers": each number, with each kind of its position.

use crate::support::*;
use reference::build::{OPEN, PlainNet, arc, movements, sheet, weights};
use reference::*;

fn net_refusal(bytes: &[u8]) -> Answer {
    let (answer, taken) = read_net(bytes);
    assert_eq!(taken, 0);
    answer
}

fn weights_refusal(bytes: &[u8], pairs: usize) -> Answer {
    let (answer, taken) = read_weights(bytes, pairs);
    assert_eq!(taken, 0);
    answer
}

fn movements_refusal(bytes: &[u8]) -> Answer {
    let (answer, taken) = read_movements(bytes);
    assert_eq!(taken, 0);
    answer
}

/// All three readers on the same bytes.
fn all_refuse(bytes: &[u8], number: u32, position: u64) {
    assert_eq!(net_refusal(bytes), refused(number, NET, position));
    assert_eq!(weights_refusal(bytes, 2), refused(number, WEIGHTS, position));
    assert_eq!(movements_refusal(bytes), refused(number, MOVEMENTS, position));
}

#[test]
fn number_0_has_thing_0_and_position_0() {
    assert_eq!(read_net(&example().sheet()).0, refused(0, 0, 0));
    assert_eq!(read_weights(&example_weights(), 2).0, refused(0, 0, 0));
    assert_eq!(read_movements(&movements(&[])), (refused(0, 0, 0), 5));
    assert_eq!(test(&example().sheet(), &[3, 0], 0), refused(0, 0, 0));
}

#[test]
fn number_1_fewer_than_4_bytes_or_than_4_and_l() {
    all_refuse(&[], 1, 0);
    all_refuse(&[0, 0, 0], 1, 0);
    all_refuse(&[0, 0, 0, 1], 1, 0);
    all_refuse(&[0, 0, 0, 2, 1], 1, 0);
    all_refuse(&[255, 255, 255, 255, 1, 0, 0], 1, 0);
    let net = example().sheet();
    assert_eq!(net_refusal(&net[..net.len() - 1]), refused(1, NET, 0));
}

#[test]
fn number_2_version_is_not_1() {
    all_refuse(&[0, 0, 0, 1, 0], 2, 4);
    all_refuse(&[0, 0, 0, 3, 3, 0, 0], 2, 4);
    // Only net sheets have a version 2.
    assert_eq!(weights_refusal(&with(&example_weights(), 4, &[2]), 2), refused(2, WEIGHTS, 4));
    assert_eq!(movements_refusal(&with(&example_movements(), 4, &[2])), refused(2, MOVEMENTS, 4));
    assert_eq!(net_refusal(&with(&example().sheet(), 4, &[255])), refused(2, NET, 4));
}

#[test]
fn number_3_l_is_0() {
    all_refuse(&[0, 0, 0, 0], 3, 0);
    all_refuse(&[0, 0, 0, 0, 1, 9], 3, 0);
}

#[test]
fn number_3_a_field_of_a_net_sheet_runs_past_l() {
    let net = example();
    let bytes = net.sheet();
    // Where each count, then K and the first marking of each pair, then the arc count begins.
    let fields = [5, 7, 9, 11, 13, 15, 19, 23, 27, 31, 33];
    assert_eq!((net.pair_offset(0), net.arc_offset(0)), (15, 33));
    for ends in fields.windows(2) {
        for length in ends[0]..ends[1] {
            assert_eq!(net_refusal(&resized(&bytes, length)), refused(3, NET, ends[0]));
        }
    }
    for length in 33..65 {
        let arc = if length < 49 { 33 } else { 49 };
        assert_eq!(net_refusal(&resized(&bytes, length)), refused(3, NET, arc));
    }
}

#[test]
fn number_3_a_field_of_a_weight_sheet_runs_past_l() {
    let bytes = example_weights();
    for (length, field) in [(5, 5), (6, 5), (7, 7), (10, 7), (11, 11), (14, 11)] {
        assert_eq!(weights_refusal(&resized(&bytes, length), 2), refused(3, WEIGHTS, field));
    }
}

#[test]
fn number_3_a_lone_last_byte_of_a_movement_sheet() {
    assert_eq!(movements_refusal(&sheet(&[0])), refused(3, MOVEMENTS, 5));
    assert_eq!(movements_refusal(&sheet(&[0, 0, 0, 1, 9])), refused(3, MOVEMENTS, 9));
}

#[test]
fn number_3_bytes_left_over_inside_l() {
    assert_eq!(net_refusal(&resized(&example().sheet(), 66)), refused(3, NET, 65));
    assert_eq!(net_refusal(&resized(&example().sheet(), 200)), refused(3, NET, 65));
    assert_eq!(weights_refusal(&resized(&example_weights(), 17), 2), refused(3, WEIGHTS, 15));
}

#[test]
fn readers_hand_back_the_bytes_after_the_sheet() {
    assert_eq!(read_net(&followed(&example().sheet(), &[9; 7])), (ACCEPTED, 65));
    assert_eq!(read_weights(&followed(&example_weights(), &[9; 7]), 2), (ACCEPTED, 15));
    assert_eq!(read_movements(&followed(&example_movements(), &[9; 7])), (ACCEPTED, 13));
}

#[test]
fn number_3_bytes_after_a_sheet_that_is_an_argument() {
    let (net, w, m) = (example().sheet(), example_weights(), example_movements());
    let (long_net, long_w, long_m) = (followed(&net, &[0]), followed(&w, &[0]), followed(&m, &[0]));
    let net_answer = refused(3, NET, 65);
    let mut counts = [3, 0];
    assert_eq!(begin(&long_net, &mut counts), net_answer);
    assert_eq!(test(&long_net, &counts, 0), net_answer);
    assert_eq!(fire(&long_net, &mut counts, 0), net_answer);
    assert_eq!(ran_to(&long_net, &m, &mut counts), (0, net_answer));
    assert_eq!(certify(&long_net, &m, &counts), net_answer);
    assert_eq!(figure(&long_net, &w, &counts), Err(net_answer));
    assert_eq!(change(&long_net, &w, 0), Err(net_answer));
    assert_eq!(is_dead(&long_net, 0), Err(net_answer));
    assert_eq!(first_dead(&long_net), Err(net_answer));
    assert_eq!(size(&long_net), Err(net_answer));
    assert_eq!(complement(&long_net, &mut [0; 100]), Err(net_answer));
    assert_eq!(figure(&net, &long_w, &counts), Err(refused(3, WEIGHTS, 15)));
    assert_eq!(change(&net, &long_w, 0), Err(refused(3, WEIGHTS, 15)));
    assert_eq!(ran_to(&net, &long_m, &mut counts), (0, refused(3, MOVEMENTS, 13)));
    assert_eq!(certify(&net, &long_m, &counts), refused(3, MOVEMENTS, 13));
    assert_eq!(counts, [3, 0]);
}

#[test]
fn number_4_a_count_outside_its_limits() {
    let bytes = example().sheet();
    for (offset, count) in
        [(5, 0), (5, 65), (7, 65), (9, 0), (9, 65), (11, 0), (13, 0), (13, 65), (31, 2_049)]
    {
        let bytes = with(&bytes, offset, &u16::to_be_bytes(count));
        assert_eq!(net_refusal(&bytes), refused(4, NET, offset));
    }
}

#[test]
fn number_4_a_running_total_passes_256() {
    let bytes = |colours: &[u16], modes: &[u16]| {
        let pairs = vec![(OPEN, 0); colours.iter().map(|&c| usize::from(c)).sum()];
        PlainNet { colours: colours.to_vec(), modes: modes.to_vec(), pairs, arcs: vec![] }.sheet()
    };
    assert_eq!(net_refusal(&bytes(&[64, 64, 64, 63, 2, 1], &[])), refused(4, NET, 17));
    assert_eq!(net_refusal(&bytes(&[1], &[64, 64, 64, 63, 2, 1])), refused(4, NET, 19));
    assert_eq!(read_net(&bytes(&[64, 64, 64, 63, 1], &[64, 64, 64, 63, 1])).0, ACCEPTED);
}

#[test]
fn number_4_too_many_movements() {
    assert_eq!(read_movements(&movements(&[0; 8_192])), (ACCEPTED, 5 + 2 * 8_192));
    assert_eq!(movements_refusal(&movements(&[0; 8_193])), refused(4, MOVEMENTS, 5));
}

#[test]
fn number_5_a_number_outside_its_range_in_a_net_sheet() {
    let bytes = example().sheet();
    let too_large = 1_000_001u32.to_be_bytes();
    // K and the first marking of each pair, then Pre, Post and I of each arc.
    for offset in [15, 19, 23, 27, 37, 41, 45, 53, 57, 61] {
        assert_eq!(net_refusal(&with(&bytes, offset, &too_large)), refused(5, NET, offset));
        assert_eq!(net_refusal(&with(&bytes, offset, &[255, 255, 255, 254])), refused(5, NET, offset));
    }
    // Unbounded is legal for K and I only.
    for offset in [19, 27, 37, 41, 53, 57] {
        assert_eq!(net_refusal(&with(&bytes, offset, &[255; 4])), refused(5, NET, offset));
    }
    for offset in [15, 23, 45, 61] {
        assert_eq!(read_net(&with(&bytes, offset, &[255; 4])).0, ACCEPTED);
    }
}

#[test]
fn number_5_a_weight_outside_its_range() {
    for weight in [1_000_001, -1_000_001, i32::MAX, i32::MIN] {
        assert_eq!(weights_refusal(&weights(&[weight, 0]), 2), refused(5, WEIGHTS, 7));
        assert_eq!(weights_refusal(&weights(&[0, weight]), 2), refused(5, WEIGHTS, 11));
    }
    assert_eq!(read_weights(&weights(&[1_000_000, -1_000_000]), 2).0, ACCEPTED);
    let minus_one = figure(&example().sheet(), &with(&example_weights(), 7, &[255; 4]), &[3, 0]);
    assert_eq!(minus_one, Ok(-3));
}

#[test]
fn number_5_a_count_outside_its_range_in_a_marking() {
    let (net, w) = (example().sheet(), example_weights());
    for count in [1_000_001, OPEN] {
        let mut counts = [3, count];
        let answer = refused(5, ARGUMENT, 1);
        assert_eq!(test(&net, &counts, 0), answer);
        assert_eq!(fire(&net, &mut counts, 0), answer);
        assert_eq!(ran_to(&net, &movements(&[]), &mut counts), (0, answer));
        assert_eq!(figure(&net, &w, &counts), Err(answer));
        assert_eq!(counts, [3, count]);
        assert_eq!(test(&net, &[count, 0], 0), refused(5, ARGUMENT, 0));
    }
}

#[test]
fn number_6_an_arc_without_its_mode_or_pair() {
    let bytes = example().sheet();
    assert_eq!(net_refusal(&with(&bytes, 33, &[0, 1])), refused(6, NET, 33));
    assert_eq!(net_refusal(&with(&bytes, 35, &[0, 2])), refused(6, NET, 35));
    assert_eq!(net_refusal(&with(&bytes, 49, &[255, 255])), refused(6, NET, 49));
    assert_eq!(net_refusal(&with(&bytes, 51, &[1, 0])), refused(6, NET, 51));
    let no_modes = PlainNet::plain(0, &[(OPEN, 0)], &[arc(0, 0, 1, 0, OPEN)]);
    assert_eq!(net_refusal(&no_modes.sheet()), refused(6, NET, no_modes.arc_offset(0)));
}

#[test]
fn number_6_a_movement_or_an_argument_without_its_mode() {
    let (net, w) = (example().sheet(), example_weights());
    let mut counts = [3, 0];
    for mode in [1, 256, 65_535] {
        assert_eq!(test(&net, &counts, mode), refused(6, ARGUMENT, 0));
        assert_eq!(fire(&net, &mut counts, mode), refused(6, ARGUMENT, 0));
        assert_eq!(change(&net, &w, mode), Err(refused(6, ARGUMENT, 0)));
        assert_eq!(is_dead(&net, mode), Err(refused(6, ARGUMENT, 0)));
        assert_eq!(certify(&net, &movements(&[0, mode]), &counts), refused(6, MOVEMENTS, 0));
    }
    assert_eq!(counts, [3, 0]);
    assert_eq!(ran_to(&net, &movements(&[0, 1]), &mut counts), (1, refused(6, MOVEMENTS, 0)));
    assert_eq!(counts, [2, 1]);
}

#[test]
fn number_7_an_arc_not_above_the_one_before() {
    let pairs = [(OPEN, 0), (OPEN, 0)];
    for (first, second) in [((0, 1), (0, 1)), ((0, 1), (0, 0)), ((1, 0), (0, 1)), ((1, 1), (0, 0))] {
        let arcs = [arc(first.0, first.1, 1, 0, OPEN), arc(second.0, second.1, 1, 0, OPEN)];
        let net = PlainNet::plain(2, &pairs, &arcs);
        assert_eq!(net_refusal(&net.sheet()), refused(7, NET, net.arc_offset(1)));
    }
    let net = PlainNet::plain(2, &pairs, &[arc(0, 1, 1, 0, OPEN), arc(1, 0, 1, 0, OPEN)]);
    assert_eq!(read_net(&net.sheet()).0, ACCEPTED);
}

#[test]
fn number_8_a_blank_arc() {
    let mut net = example();
    net.arcs[1] = arc(0, 1, 0, 0, OPEN);
    assert_eq!(net_refusal(&net.sheet()), refused(8, NET, net.arc_offset(1)));
    for not_blank in [arc(0, 1, 1, 0, OPEN), arc(0, 1, 0, 1, OPEN), arc(0, 1, 0, 0, 1_000_000)] {
        net.arcs[1] = not_blank;
        assert_eq!(read_net(&net.sheet()).0, ACCEPTED);
    }
}

#[test]
fn number_9_a_first_marking_above_a_finite_capacity() {
    let mut net = example();
    net.pairs[0] = (5, 6);
    assert_eq!(net_refusal(&net.sheet()), refused(9, NET, net.pair_offset(0) + 4));
    net.pairs = vec![(5, 5), (0, 1)];
    assert_eq!(net_refusal(&net.sheet()), refused(9, NET, net.pair_offset(1) + 4));
    net.pairs = vec![(5, 5), (0, 0)];
    assert_eq!(read_net(&net.sheet()).0, ACCEPTED);
}

#[test]
fn number_9_a_count_above_a_finite_capacity() {
    let (net, w) = (example().sheet(), example_weights());
    let answer = refused(9, ARGUMENT, 0);
    let mut counts = [6, 0];
    assert_eq!(test(&net, &counts, 0), answer);
    assert_eq!(fire(&net, &mut counts, 0), answer);
    assert_eq!(ran_to(&net, &movements(&[0]), &mut counts), (0, answer));
    assert_eq!(figure(&net, &w, &counts), Err(answer));
    assert_eq!(counts, [6, 0]);
    let second = PlainNet::plain(1, &[(OPEN, 0), (2, 0)], &[]).sheet();
    assert_eq!(test(&second, &[9, 3], 0), refused(9, ARGUMENT, 1));
}

#[test]
fn number_10_the_output_slice_is_shorter() {
    for length in [0, 1, 90] {
        let mut output = vec![170; length];
        assert_eq!(complement(&example().sheet(), &mut output), Err(refused(10, NET, 0)));
        assert_eq!(output, vec![170; length]);
    }
    assert_eq!(complement(&example().sheet(), &mut [0; 91]), Ok(91));
}

/// Places of these colours, every pair of K 1.
fn finite(colours: &[u16]) -> PlainNet {
    let pairs = vec![(1, 0); colours.iter().map(|&c| usize::from(c)).sum()];
    PlainNet { colours: colours.to_vec(), modes: vec![], pairs, arcs: vec![] }
}

#[test]
fn number_10_the_complement_exceeds_the_sheets_limits() {
    let answer_of = |net: &PlainNet| {
        let mut output = vec![170; 70_000];
        let answer = Answer::of(&complement(&net.sheet(), &mut output));
        assert!(answer == ACCEPTED || output == vec![170; 70_000]);
        answer
    };
    let too_large = refused(10, NET, 0);
    assert_eq!(answer_of(&finite(&[1; 32])), ACCEPTED);
    assert_eq!(answer_of(&finite(&[1; 33])), too_large);
    assert_eq!(answer_of(&finite(&[64, 64])), ACCEPTED);
    assert_eq!(answer_of(&finite(&[64, 64, 1])), too_large);
    // One pair of unbounded K: 65 places, then 257 pairs.
    for colours in [&[1; 33][..], &[64, 64, 1]] {
        let mut net = finite(colours);
        net.pairs[0].0 = OPEN;
        assert_eq!(answer_of(&net), too_large);
        net.pairs[1].0 = OPEN;
        assert_eq!(answer_of(&net), ACCEPTED);
    }
    let mut net = finite(&[8]);
    net.modes = vec![64, 64, 1];
    net.arcs = (0..1_024).map(|n| arc(n / 8, n % 8, 1, 0, OPEN)).collect();
    assert_eq!(answer_of(&net), ACCEPTED);
    net.arcs.push(arc(128, 0, 1, 0, OPEN));
    assert_eq!(answer_of(&net), too_large);
    // An arc that becomes blank is left out: the 2,048 counts what is written.
    net.arcs[1_024] = arc(128, 0, 0, 0, 0);
    assert_eq!(answer_of(&net), too_large);
    net.arcs[1_024] = arc(128, 0, 0, 0, 1);
    assert_eq!(answer_of(&net), ACCEPTED);
}

/// Three pairs, one mode; the marking is 2, 2, 2.
fn three(capacity: u32, flows: [(u32, u32, u32); 3]) -> Vec<u8> {
    let arcs: Vec<_> = (0..3).zip(flows).map(|(pair, (pre, post, i))| arc(0, pair, pre, post, i)).collect();
    PlainNet::plain(1, &[(capacity, 2); 3], &arcs).sheet()
}

/// Test and fire name an argument, run and certificate a movement; nothing is written.
fn all_name(net: &[u8], number: u32, pair: u64, amount: u64) {
    let mut counts = [2; 3];
    assert_eq!(test(net, &counts, 0), short(number, ARGUMENT, pair, amount));
    assert_eq!(fire(net, &mut counts, 0), short(number, ARGUMENT, pair, amount));
    assert_eq!(fire_step(net, &mut counts, &[0]), short(number, ARGUMENT, pair, amount));
    assert_eq!(ran_to(net, &movements(&[0]), &mut counts), (0, short(number, MOVEMENTS, pair, amount)));
    assert_eq!(certify(net, &movements(&[0]), &counts), short(number, MOVEMENTS, pair, amount));
    assert_eq!(counts, [2; 3]);
}

#[test]
fn number_11_pre_above_the_count() {
    all_name(&three(5, [(2, 0, 5), (3, 0, 5), (4, 0, 5)]), 11, 1, 1);
    all_name(&three(5, [(2, 0, 5), (2, 0, 5), (9, 0, 5)]), 11, 2, 7);
    all_name(&three(5, [(1_000_000, 0, 5), (3, 0, 5), (4, 0, 5)]), 11, 0, 999_998);
}

#[test]
fn number_12_count_plus_post_above_the_capacity() {
    // Pre is not taken off: 2 and 4 are 6.
    all_name(&three(5, [(0, 3, 5), (2, 4, 5), (0, 9, 5)]), 12, 1, 1);
    all_name(&three(5, [(0, 3, 5), (2, 3, 5), (0, 9, 5)]), 12, 2, 6);
    all_name(&three(5, [(0, 1_000_000, 5), (2, 3, 5), (0, 9, 5)]), 12, 0, 999_997);
}

#[test]
fn number_13_count_above_the_inhibitor() {
    all_name(&three(5, [(0, 0, 2), (0, 0, 1), (0, 0, 0)]), 13, 1, 1);
    all_name(&three(5, [(0, 0, 2), (1, 1, 2), (1, 1, 0)]), 13, 2, 2);
}

#[test]
fn number_14_new_count_above_a_million() {
    all_name(&three(OPEN, [(2, 1_000_000, OPEN), (1, 1_000_000, OPEN), (0, 1_000_000, OPEN)]), 14, 1, 1);
    all_name(&three(OPEN, [(2, 1_000_000, OPEN), (2, 1_000_000, OPEN), (0, 1_000_000, OPEN)]), 14, 2, 2);
}

#[test]
fn number_15_a_finite_inhibitor_at_an_unbounded_capacity() {
    let arcs = [arc(0, 0, 1, 0, 4), arc(0, 1, 0, 1, OPEN), arc(1, 1, 0, 1, 1_000_000), arc(1, 2, 0, 0, 0)];
    let net = PlainNet::plain(2, &[(5, 0), (OPEN, 0), (OPEN, 0)], &arcs);
    let mut output = [170; 300];
    assert_eq!(complement(&net.sheet(), &mut output), Err(refused(15, NET, net.arc_offset(2))));
    assert_eq!(output, [170; 300]);
}

#[test]
fn number_16_is_given_no_more() {
    let largest = 1_000_000;
    // Both modes are dead: mode 0 at pair 1, mode 1 at both.
    let arcs = [arc(0, 0, 1, 1, 1), arc(0, 1, 1, 0, 0), arc(1, 0, 2, 1, 1), arc(1, 1, largest, 0, 0)];
    let net = PlainNet::plain(2, &[(largest, 0), (largest - 1, 0)], &arcs);
    let below = largest - 1;
    let expected = [
        arc(0, 0, 1, 1, OPEN),
        arc(0, 1, 1, 0, OPEN),
        arc(0, 2, below, below, OPEN),
        arc(0, 3, below, below, OPEN),
        arc(1, 0, 2, 1, OPEN),
        arc(1, 1, largest, 0, OPEN),
        arc(1, 2, below, below, OPEN),
        arc(1, 3, below, below, OPEN),
    ];
    let pairs = [(OPEN, 0), (OPEN, 0), (OPEN, largest), (OPEN, below)];
    assert_eq!(complement_of(&net.sheet()), PlainNet::plain(2, &pairs, &expected).sheet());
}

#[test]
fn number_17_a_marking_or_claim_not_one_for_each_pair() {
    let (net, w) = (example().sheet(), example_weights());
    let answer = refused(17, ARGUMENT, 0);
    for length in [0, 1, 3, 300] {
        let mut counts = vec![9; length];
        assert_eq!(begin(&net, &mut counts), answer);
        assert_eq!(test(&net, &counts, 0), answer);
        assert_eq!(fire(&net, &mut counts, 0), answer);
        assert_eq!(ran_to(&net, &movements(&[0]), &mut counts), (0, answer));
        assert_eq!(certify(&net, &movements(&[0]), &counts), answer);
        assert_eq!(figure(&net, &w, &counts), Err(answer));
        assert_eq!(counts, vec![9; length]);
    }
}

#[test]
fn number_17_weights_not_one_for_each_pair() {
    for count in [0, 1, 3, 300, 65_535] {
        let bytes = with(&example_weights(), 5, &u16::to_be_bytes(count));
        assert_eq!(weights_refusal(&bytes, 2), refused(17, WEIGHTS, 5));
        assert_eq!(figure(&example().sheet(), &bytes, &[3, 0]), Err(refused(17, WEIGHTS, 5)));
        assert_eq!(change(&example().sheet(), &bytes, 0), Err(refused(17, WEIGHTS, 5)));
    }
    // The pair count that the reader is given is not range-checked.
    assert_eq!(read_weights(&weights(&[]), 0), (ACCEPTED, 7));
    assert_eq!(read_weights(&weights(&[1; 300]), 300), (ACCEPTED, 7 + 1_200));
    assert_eq!(weights_refusal(&weights(&[1; 2]), 65_538), refused(17, WEIGHTS, 5));
}

#[test]
fn number_18_a_certificate_ends_at_another_marking() {
    let net = example().sheet();
    let list = movements(&[0]);
    assert_eq!(certify(&net, &list, &[2, 1]), ACCEPTED);
    assert_eq!(certify(&net, &list, &[3, 0]), refused(18, ARGUMENT, 0));
    assert_eq!(certify(&net, &list, &[2, 0]), refused(18, ARGUMENT, 1));
    // The claim's counts are compared and not range-checked.
    assert_eq!(certify(&net, &list, &[2, OPEN]), refused(18, ARGUMENT, 1));
    assert_eq!(certify(&net, &list, &[1_000_001, 1]), refused(18, ARGUMENT, 0));
}
