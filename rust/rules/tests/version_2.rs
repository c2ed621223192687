//! Net sheets of version 2: their fields, refusals and limits.

use crate::support::*;
use reference::build::{OPEN, PlainArc, PlainNet, arc, movements, sheet_in};
use reference::*;

fn version_2(net: &PlainNet) -> Vec<u8> {
    net.sheet_in(Version::Two)
}

fn refusal(bytes: &[u8]) -> Answer {
    let (answer, taken) = read_net(bytes);
    assert_eq!(taken, 0);
    answer
}

/// Modes of 2, 0 and 1 arcs.
fn three_modes() -> PlainNet {
    let arcs = [arc(0, 0, 1, 0, 4), arc(0, 1, 0, 1, OPEN), arc(2, 0, 0, 1, OPEN)];
    PlainNet { colours: vec![1, 1], modes: vec![1, 2], pairs: vec![(5, 3), (OPEN, 0)], arcs: arcs.to_vec() }
}

#[test]
fn the_example_byte_by_byte() {
    let bytes = [
        &[0, 0, 0, 58, 2, 0][..],                            // L, version, rule
        &[0, 2, 0, 1, 0, 1, 0, 1, 0, 1],                     // places, transitions, colours, modes
        &[0, 0, 0, 5, 0, 0, 0, 3],                           // aboard
        &[255, 255, 255, 255, 0, 0, 0, 0],                   // ashore
        &[0, 2],                                             // arcs of mode 0
        &[0, 0, 0, 0, 0, 1, 0, 0, 0, 0, 0, 0, 0, 4],         // pair 0: Pre 1, Post 0, I 4
        &[0, 1, 0, 0, 0, 0, 0, 0, 0, 1, 255, 255, 255, 255], // pair 1: Pre 0, Post 1
    ]
    .concat();
    assert_eq!(version_2(&example()), bytes);
    assert_eq!(read_net(&bytes), (ACCEPTED, 62));
    assert_eq!((example().arc_offset_2(0), example().arc_offset_2(1)), (34, 48));
    assert_eq!(size(&bytes), Ok(Size { pairs: 2, modes: 1, arcs: 2 }));
    let mut marking = [3, 0];
    let ran = run(&bytes, &example_movements(), &mut marking);
    assert_eq!(ran, Ran { accepted: 3, arcs: 8, answer: short(11, MOVEMENTS, 0, 1) });
    assert_eq!(marking, [0, 3]);
}

#[test]
fn number_2_any_other_version() {
    for version in [0, 3, 255] {
        assert_eq!(refusal(&with(&version_2(&example()), 4, &[version])), refused(2, NET, 4));
    }
}

#[test]
fn number_3_where_l_is_1_and_where_a_field_runs_past_l() {
    assert_eq!(refusal(&[0, 0, 0, 1, 2]), refused(3, NET, 5));
    let bytes = version_2(&three_modes());
    // The rule byte, the counts, K and the first marking of each pair; then the arcs of mode 0, 1 and 2 under their counts.
    let fields = [5, 6, 8, 10, 12, 14, 16, 18, 22, 26, 30, 34, 36, 50, 64, 66, 68, 82];
    assert_eq!(bytes.len(), 82);
    for ends in fields.windows(2) {
        for length in ends[0]..ends[1] {
            assert_eq!(refusal(&resized(&bytes, length)), refused(3, NET, ends[0]), "{length}");
        }
    }
    assert_eq!(refusal(&resized(&bytes, 83)), refused(3, NET, 82));
    assert_eq!(size(&followed(&bytes, &[0])), Err(refused(3, NET, 82)));
    assert_eq!(read_net(&followed(&bytes, &[0])), (ACCEPTED, 82));
}

#[test]
fn number_4_another_rule_byte_comes_before_the_counts() {
    for rule in [2, 3, 255] {
        assert_eq!(refusal(&with(&version_2(&example()), 5, &[rule])), refused(4, NET, 5));
        assert_eq!(refusal(&[0, 0, 0, 2, 2, rule]), refused(4, NET, 5));
    }
    for rule in [0, 1] {
        assert_eq!(refusal(&[0, 0, 0, 2, 2, rule]), refused(3, NET, 6));
    }
}

#[test]
fn number_4_a_count_outside_its_limits() {
    let bytes = version_2(&example());
    for (offset, count) in [(6, 0), (6, 65), (8, 65), (10, 0), (10, 65), (12, 0), (14, 0), (14, 65)] {
        assert_eq!(refusal(&with(&bytes, offset, &u16::to_be_bytes(count))), refused(4, NET, offset));
    }
}

/// 256 pairs, this many modes, and so many arcs one after another from mode 0 and pair 0 on.
fn filled(modes: u16, arcs: u32) -> PlainNet {
    let arcs = (0..arcs).map(|n| arc((n / 256) as u16, (n % 256) as u16, 1, 1, OPEN));
    let modes = vec![64; usize::from(modes / 64)].into_iter().chain((modes % 64 > 0).then_some(modes % 64));
    PlainNet {
        colours: vec![64; 4],
        modes: modes.collect(),
        pairs: vec![(OPEN, 1); 256],
        arcs: arcs.collect(),
    }
}

#[test]
fn number_4_at_the_arc_count_whose_running_total_passes_2_048() {
    let eight = filled(8, 2_048);
    assert_eq!(read_net(&version_2(&eight)).0, ACCEPTED);
    let mut nine = filled(9, 2_048);
    assert_eq!(size(&version_2(&nine)), Ok(Size { pairs: 256, modes: 9, arcs: 2_048 }));
    // The ninth mode's count follows the 2,048 arcs, and is refused whether its arc is there or not.
    let ninth = nine.count_offset_2(8);
    assert_eq!(ninth, version_2(&nine).len() as u64 - 2);
    assert_eq!(refusal(&with(&version_2(&nine), ninth, &[0, 1])), refused(4, NET, ninth));
    nine.arcs.push(arc(8, 0, 1, 1, OPEN));
    assert_eq!(refusal(&version_2(&nine)), refused(4, NET, ninth));
    // At its field 3 comes first.
    assert_eq!(refusal(&resized(&version_2(&nine), ninth + 1)), refused(3, NET, ninth));
}

#[test]
fn a_first_count_of_2_048_is_refused_by_the_257th_arc_at_the_latest() {
    let (net, bytes) = (filled(8, 2_048), version_2(&filled(8, 2_048)));
    let count = net.count_offset_2(0);
    assert_eq!(refusal(&with(&bytes, count, &2_049u16.to_be_bytes())), refused(4, NET, count));
    assert_eq!(refusal(&with(&bytes, count, &[255, 255])), refused(4, NET, count));
    // The 257th arc of mode 0 is at the count of mode 1, 256: that pair is not there.
    let at = net.arc_offset_2(255) + 14;
    let long = with(&bytes, count, &2_048u16.to_be_bytes());
    assert_eq!(refusal(&long), refused(6, NET, at));
    assert_eq!(refusal(&with(&long, at, &[0, 255])), refused(7, NET, at));
}

#[test]
fn the_largest_and_the_smallest_sheet() {
    let mut largest = filled(256, 2_048);
    (largest.colours, largest.modes) = (vec![4; 64], vec![4; 64]);
    assert_eq!(read_net(&version_2(&largest)), (ACCEPTED, 31_498));
    assert_eq!(read_net(&version_2(&PlainNet::plain(0, &[(OPEN, 0)], &[]))), (ACCEPTED, 20));
    // Modes without arcs have their counts still: it is longer than version 1.
    let empty = filled(256, 0);
    assert_eq!(size(&version_2(&empty)), Ok(Size { pairs: 256, modes: 256, arcs: 0 }));
    assert_eq!(version_2(&empty).len(), empty.sheet().len() + 511);
}

/// The net with its second arc another.
fn with_second(second: PlainArc) -> PlainNet {
    let mut net = three_modes();
    net.arcs[1] = second;
    net
}

#[test]
fn an_arcs_refusals_and_their_order() {
    let net = three_modes();
    let (bytes, at) = (version_2(&net), net.arc_offset_2(1));
    assert_eq!(at, 50);
    // Everything is wrong with it at first, and is put right in turn.
    let mut second = arc(0, 2, 1_000_001, 1_000_001, 1_000_001);
    let mut told = |change: fn(&mut PlainArc)| {
        change(&mut second);
        read_net(&version_2(&with_second(second))).0
    };
    assert_eq!(told(|_| ()), refused(6, NET, at));
    assert_eq!(told(|arc| arc.pair = 65_535), refused(6, NET, at));
    assert_eq!(told(|arc| arc.pair = 0), refused(7, NET, at));
    assert_eq!(told(|arc| arc.pair = 1), refused(5, NET, at + 2));
    assert_eq!(told(|arc| arc.pre = OPEN), refused(5, NET, at + 2));
    assert_eq!(told(|arc| arc.pre = 0), refused(5, NET, at + 6));
    assert_eq!(told(|arc| arc.post = OPEN), refused(5, NET, at + 6));
    assert_eq!(told(|arc| arc.post = 0), refused(5, NET, at + 10));
    assert_eq!(told(|arc| arc.inhibitor = OPEN), refused(8, NET, at));
    assert_eq!(told(|arc| arc.inhibitor = 0), ACCEPTED);
    // Of a mode's first arc 7 is not asked, though the arc before is of the same pair.
    assert_eq!(read_net(&with(&bytes, net.arc_offset_2(2), &[0, 1])).0, ACCEPTED);
    assert_eq!(read_net(&bytes).0, ACCEPTED);
}

#[test]
fn number_9_and_the_pairs_numbers() {
    let bytes = version_2(&example());
    let too_large = 1_000_001u32.to_be_bytes();
    for offset in [16, 20, 24, 28] {
        assert_eq!(refusal(&with(&bytes, offset, &too_large)), refused(5, NET, offset));
    }
    assert_eq!(refusal(&with(&bytes, 20, &6u32.to_be_bytes())), refused(9, NET, 20));
}

#[test]
fn a_complement_is_of_the_version_given() {
    let net = example();
    let of = |version: Version| complement_of(&net.sheet_in(version));
    assert_eq!((of(Version::One).len(), of(Version::Two).len()), (91, 86));
    let expected = PlainNet::plain(
        1,
        &[(OPEN, 3), (OPEN, 0), (OPEN, 2)],
        &[arc(0, 0, 1, 0, OPEN), arc(0, 1, 0, 1, OPEN), arc(0, 2, 1, 2, OPEN)],
    );
    assert_eq!(of(Version::Two), version_2(&expected));
    // A short output is one shorter than the sheet of its version.
    assert_eq!(complement(&version_2(&net), &mut [0; 86]), Ok(86));
    assert_eq!(complement(&version_2(&net), &mut [0; 85]), Err(refused(10, NET, 0)));
}

#[test]
fn number_15_is_at_the_arc_in_the_sheet_given() {
    let mut net = three_modes();
    net.arcs[2] = arc(2, 1, 0, 0, 4);
    assert_eq!(complement(&net.sheet(), &mut [0; 99]), Err(refused(15, NET, net.arc_offset(2))));
    assert_eq!(net.arc_offset_2(2), 68);
    assert_eq!(complement(&version_2(&net), &mut [0; 99]), Err(refused(15, NET, 68)));
    assert_eq!(audit(&version_2(&net), &[], &[]), Err(refused(15, NET, 68)));
}

#[test]
fn a_net_without_modes_ends_with_its_pairs() {
    let net = version_2(&PlainNet::plain(0, &[(5, 2)], &[]));
    assert_eq!(run(&net, &movements(&[]), &mut [2]).answer, ACCEPTED);
    assert_eq!(refusal(&resized(&net, 22)), refused(3, NET, 20));
    assert_eq!(complement_of(&net), version_2(&PlainNet::plain(0, &[(OPEN, 2), (OPEN, 3)], &[])));
    assert_eq!(read_net(&sheet_in(Version::Two, &net[5..])), (ACCEPTED, 20));
}
