//! What accepted calls give and write.

use crate::support::*;
use reference::build::{OPEN, PlainNet, arc, movements, weights};
use reference::*;

#[test]
fn begin_writes_the_first_marking() {
    let mut marking = [9, 9];
    assert_eq!(begin(&example().sheet(), &mut marking), ACCEPTED);
    assert_eq!(marking, [3, 0]);
}

#[test]
fn pairs_and_modes_are_numbered_across_the_whole_net() {
    let arcs = [arc(0, 4, 0, 1, OPEN), arc(2, 1, 0, 2, OPEN), arc(4, 0, 0, 3, OPEN)];
    let net =
        PlainNet { colours: vec![2, 3], modes: vec![3, 2], pairs: vec![(OPEN, 0); 5], arcs: arcs.to_vec() };
    let mut marking = [0; 5];
    let all = ran_to(&net.sheet(), &movements(&[0, 1, 2, 3, 4]), &mut marking);
    assert_eq!((all, marking), ((5, ACCEPTED), [3, 2, 0, 0, 1]));
    assert_eq!(test(&net.sheet(), &marking, 5), refused(6, ARGUMENT, 0));
    assert_eq!(size(&net.sheet()), Ok(Size { pairs: 5, modes: 5, arcs: 3 }));
}

#[test]
fn a_mode_without_arcs_is_always_enabled_and_changes_nothing() {
    let net = PlainNet::plain(1, &[(0, 0), (5, 5), (OPEN, 1_000_000)], &[]).sheet();
    let mut marking = [0, 5, 1_000_000];
    assert_eq!(fire(&net, &mut marking, 0), ACCEPTED);
    assert_eq!(marking, [0, 5, 1_000_000]);
    assert_eq!(is_dead(&net, 0), Ok(false));
    assert_eq!(change(&net, &weights(&[1, 2, 3]), 0), Ok(0));
}

#[test]
fn a_net_without_transitions_reads_and_complements() {
    let net = PlainNet::plain(0, &[(5, 2)], &[]).sheet();
    assert_eq!(read_net(&net), (ACCEPTED, net.len()));
    assert_eq!(ran_to(&net, &movements(&[]), &mut [2]), (0, ACCEPTED));
    assert_eq!(ran_to(&net, &movements(&[0]), &mut [2]), (0, refused(6, MOVEMENTS, 0)));
    assert_eq!(complement_of(&net), PlainNet::plain(0, &[(OPEN, 2), (OPEN, 3)], &[]).sheet());
    assert_eq!(first_dead(&net), Ok(None));
    assert_eq!(size(&net), Ok(Size { pairs: 1, modes: 0, arcs: 0 }));
}

#[test]
fn running_starts_from_the_counts_found() {
    let mut marking = [1, 7];
    let ran = ran_to(&example().sheet(), &example_movements(), &mut marking);
    assert_eq!(ran, (1, short(11, MOVEMENTS, 0, 1)));
    assert_eq!(marking, [0, 8]);
}

#[test]
fn the_figure_is_summed_exactly() {
    let net =
        PlainNet { colours: vec![64; 4], modes: vec![], pairs: vec![(OPEN, 0); 256], arcs: vec![] }.sheet();
    let marking = [1_000_000; 256];
    assert_eq!(figure(&net, &weights(&[1_000_000; 256]), &marking), Ok(256_000_000_000_000));
    assert_eq!(figure(&net, &weights(&[-1_000_000; 256]), &marking), Ok(-256_000_000_000_000));
}

#[test]
fn a_weight_change_is_post_less_pre() {
    let arcs = [arc(0, 0, 3, 1, OPEN), arc(0, 1, 0, 5, 7), arc(1, 1, 1_000_000, 0, OPEN)];
    let net = PlainNet::plain(3, &[(OPEN, 0), (5, 0)], &arcs).sheet();
    let w = weights(&[10, -100]);
    assert_eq!(change(&net, &w, 0), Ok(-20 - 500));
    assert_eq!(change(&net, &w, 1), Ok(100_000_000));
    assert_eq!(change(&net, &w, 2), Ok(0));
}

#[test]
fn new_places_follow_the_old_with_their_finite_pairs() {
    let pairs = vec![(5, 1), (OPEN, 2), (7, 3), (OPEN, 4), (0, 0)];
    let arcs = vec![arc(0, 2, 0, 0, 3), arc(0, 4, 0, 0, 0), arc(1, 0, 2, 1, 4), arc(1, 3, 1, 1, OPEN)];
    let net = PlainNet { colours: vec![3, 1, 1], modes: vec![2], pairs, arcs };
    let expected = PlainNet {
        colours: vec![3, 1, 1, 2, 1],
        modes: vec![2],
        pairs: [1, 2, 3, 4, 0, 4, 4, 0].map(|count| (OPEN, count)).to_vec(),
        // The inhibitor arc 0,4 has I = K = 0: both its arcs are blank and left out.
        arcs: vec![
            arc(0, 6, 4, 4, OPEN),
            arc(1, 0, 2, 1, OPEN),
            arc(1, 3, 1, 1, OPEN),
            arc(1, 5, 1, 2, OPEN),
        ],
    };
    assert_eq!(complement_of(&net.sheet()), expected.sheet());
}

#[test]
fn the_reserved_amount_does_not_leak_away() {
    // K less I above Post: complement Post is that plus Pre less Post, and not the original Pre.
    let net = PlainNet::plain(1, &[(9, 0)], &[arc(0, 0, 2, 3, 4)]);
    let arcs = [arc(0, 0, 2, 3, OPEN), arc(0, 1, 5, 4, OPEN)];
    assert_eq!(complement_of(&net.sheet()), PlainNet::plain(1, &[(OPEN, 0), (OPEN, 9)], &arcs).sheet());
}

#[test]
fn a_dead_mode_gives_back_what_it_takes_at_every_complement_pair() {
    // Mode 0 is dead at pair 1 alone, and mode 1, which has the same arc at pair 0, is live.
    let arcs = [arc(0, 0, 2, 1, 4), arc(0, 1, 0, 4, OPEN), arc(1, 0, 2, 1, 4)];
    let net = PlainNet::plain(2, &[(5, 1), (3, 0)], &arcs);
    let expected = [
        arc(0, 0, 2, 1, OPEN),
        arc(0, 1, 0, 4, OPEN),
        arc(0, 2, 1, 1, OPEN),
        arc(0, 3, 4, 4, OPEN),
        arc(1, 0, 2, 1, OPEN),
        arc(1, 2, 1, 2, OPEN),
    ];
    let pairs = [(OPEN, 1), (OPEN, 0), (OPEN, 4), (OPEN, 3)];
    assert_eq!(complement_of(&net.sheet()), PlainNet::plain(2, &pairs, &expected).sheet());
}

#[test]
fn an_arc_of_a_dead_mode_that_becomes_blank_is_left_out() {
    // Pre 6 at K 5: complement Pre is 0, and so is complement Post. The output is 16 bytes shorter, to the byte.
    let net = PlainNet::plain(1, &[(5, 1)], &[arc(0, 0, 6, 0, OPEN)]);
    let expected = PlainNet::plain(1, &[(OPEN, 1), (OPEN, 4)], &[arc(0, 0, 6, 0, OPEN)]).sheet();
    assert_eq!(complement_of(&net.sheet()), expected);
    let mut output = vec![170; expected.len()];
    assert_eq!(complement(&net.sheet(), &mut output), Ok(expected.len()));
    let shorter = &mut output[..expected.len() - 1];
    assert_eq!(complement(&net.sheet(), shorter), Err(refused(10, NET, 0)));
    // Blank at its own pair too, where the mode is dead at another: no arc is left of it there.
    let arcs = [arc(0, 0, 0, 0, 5), arc(0, 1, 0, 1, OPEN)];
    let net = PlainNet::plain(1, &[(5, 0), (0, 0)], &arcs);
    let expected = [arc(0, 1, 0, 1, OPEN), arc(0, 3, 1, 1, OPEN)];
    let pairs = [(OPEN, 0), (OPEN, 0), (OPEN, 5), (OPEN, 0)];
    assert_eq!(complement_of(&net.sheet()), PlainNet::plain(1, &pairs, &expected).sheet());
}

#[test]
fn a_dead_mode_whose_blank_arcs_are_left_out_may_bring_a_complement_within_its_limits() {
    // 1,025 arcs of Pre 1 at K 1 give 2,050; of Pre 2 the modes are dead, and the complement arcs blank.
    let net = |pre: u32| PlainNet {
        colours: vec![8],
        modes: vec![64, 64, 1],
        pairs: vec![(1, 0); 8],
        arcs: (0..1_025).map(|n| arc(n / 8, n % 8, pre, 0, OPEN)).collect(),
    };
    assert_eq!(complement(&net(1).sheet(), &mut [0; 36_000]), Err(refused(10, NET, 0)));
    let length = complement(&net(2).sheet(), &mut [0; 36_000]).unwrap();
    assert_eq!(length, 11 + 2 * 2 + 2 * 3 + 8 * 16 + 16 * 1_025);
}

#[test]
fn an_inhibitor_above_the_capacity_reserves_nothing() {
    let net = PlainNet::plain(1, &[(5, 0)], &[arc(0, 0, 2, 3, 9)]);
    let arcs = [arc(0, 0, 2, 3, OPEN), arc(0, 1, 3, 2, OPEN)];
    assert_eq!(complement_of(&net.sheet()), PlainNet::plain(1, &[(OPEN, 0), (OPEN, 5)], &arcs).sheet());
}
