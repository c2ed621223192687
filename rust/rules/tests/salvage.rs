//! Salvage of a cut movement sheet.

use crate::support::*;
use generator::{Random, Style, form, list, net, spoil};
use reference::build::{OPEN, PlainNet, arc, movements};
use reference::*;

/// What is salvaged with room enough, and the fresh sheet.
fn salvaged(net: &[u8], damaged: &[u8]) -> Result<(Salvaged, Vec<u8>), Answer> {
    let mut output = vec![170; 20_000];
    let salvaged = salvage(net, damaged, &mut output)?;
    assert!(untouched(&output[salvaged.length..]));
    output.truncate(salvaged.length);
    Ok((salvaged, output))
}

/// Kept, dropped and why, with the sheet of these modes.
fn of(kept: &[u16], dropped: usize, stop: Answer) -> Result<(Salvaged, Vec<u8>), Answer> {
    let sheet = movements(kept);
    Ok((Salvaged { length: sheet.len(), kept: kept.len(), dropped, stop }, sheet))
}

/// One pair without bounds, and modes without arcs, which are always accepted.
fn idle(modes: usize) -> Vec<u8> {
    PlainNet::plain(modes, &[(OPEN, 0)], &[]).sheet()
}

#[test]
fn a_whole_sheet_comes_back_and_what_is_refused_is_dropped() {
    let net = example().sheet();
    assert_eq!(salvaged(&net, &movements(&[])), of(&[], 0, ACCEPTED));
    assert_eq!(salvaged(&net, &movements(&[0, 0])), of(&[0, 0], 0, ACCEPTED));
    // The fourth finds none left, and what comes after it is dropped with it.
    assert_eq!(salvaged(&net, &example_movements()), of(&[0; 3], 1, short(11, MOVEMENTS, 0, 1)));
    assert_eq!(salvaged(&net, &movements(&[0; 7])), of(&[0; 3], 4, short(11, MOVEMENTS, 0, 1)));
    assert_eq!(salvaged(&net, &movements(&[0, 9, 0])), of(&[0], 2, refused(6, MOVEMENTS, 0)));
}

#[test]
fn the_stop_tells_number_pair_and_amount() {
    let arcs = [arc(0, 0, 0, 7, OPEN), arc(1, 1, 0, 0, 4), arc(2, 1, 9, 0, OPEN), arc(3, 2, 0, 3, OPEN)];
    let net = PlainNet::plain(4, &[(5, 0), (9, 6), (OPEN, 999_999)], &arcs);
    let stop = |mode| salvaged(&net.sheet(), &movements(&[mode])).unwrap().0.stop;
    assert_eq!(stop(0), short(12, MOVEMENTS, 0, 2));
    assert_eq!(stop(1), short(13, MOVEMENTS, 1, 2));
    assert_eq!(stop(2), short(11, MOVEMENTS, 1, 3));
    assert_eq!(stop(3), short(14, MOVEMENTS, 2, 2));
    assert_eq!(stop(4), refused(6, MOVEMENTS, 0));
}

#[test]
fn bytes_past_the_declared_length_are_ignored() {
    let net = idle(4);
    let sheet = movements(&[3, 2]);
    for more in 0..5 {
        assert_eq!(salvaged(&net, &followed(&sheet, &vec![9; more])), of(&[3, 2], 0, ACCEPTED));
    }
    // A lone last byte within L is dropped, though there are bytes after it.
    let lone = with(&followed(&sheet, &[1, 1]), 0, &[0, 0, 0, 6]);
    assert_eq!(salvaged(&net, &lone), of(&[3, 2], 0, ACCEPTED));
    assert_eq!(salvaged(&net, &with(&lone, 0, &[0, 0, 0, 4])), of(&[3], 0, ACCEPTED));
}

#[test]
fn what_is_there_is_used_where_the_length_claims_more() {
    let net = idle(4);
    let sheet = movements(&[3, 2, 1]);
    for (cut, kept) in [(5, 0), (6, 0), (7, 1), (8, 1), (9, 2), (10, 2), (11, 3)] {
        assert_eq!(salvaged(&net, &sheet[..cut]), of(&[3, 2, 1][..kept], 0, ACCEPTED));
        // However much more it claims.
        let most = with(&sheet[..cut], 0, &[255; 4]);
        assert_eq!(salvaged(&net, &most), of(&[3, 2, 1][..kept], 0, ACCEPTED));
    }
}

#[test]
fn number_1_fewer_than_5_bytes() {
    let net = idle(1);
    for length in 0..5 {
        assert_eq!(salvaged(&net, &[0, 0, 0, 1, 1][..length]), Err(refused(1, MOVEMENTS, 0)));
    }
    assert_eq!(salvaged(&net, &[0, 0, 0, 1, 1]), of(&[], 0, ACCEPTED));
    // Even where L is 0.
    assert_eq!(salvaged(&net, &[0, 0, 0, 0]), Err(refused(1, MOVEMENTS, 0)));
}

#[test]
fn number_3_where_l_is_0_then_2() {
    let net = idle(1);
    assert_eq!(salvaged(&net, &[0, 0, 0, 0, 1]), Err(refused(3, MOVEMENTS, 0)));
    assert_eq!(salvaged(&net, &[0, 0, 0, 0, 9, 0, 0]), Err(refused(3, MOVEMENTS, 0)));
    for version in [0, 2, 3, 255] {
        assert_eq!(salvaged(&net, &[0, 0, 0, 1, version]), Err(refused(2, MOVEMENTS, 4)));
        assert_eq!(salvaged(&net, &[255, 0, 0, 1, version, 0]), Err(refused(2, MOVEMENTS, 4)));
    }
}

#[test]
fn at_most_8_192_modes_are_considered() {
    let net = idle(2);
    for (length, considered) in [(8_191, 8_191), (8_192, 8_192), (8_193, 8_192), (9_000, 8_192)] {
        let sheet = movements(&vec![1; length]);
        assert_eq!(salvaged(&net, &sheet), of(&vec![1; considered], 0, ACCEPTED));
        assert_eq!(salvaged(&net, &followed(&sheet, &[1])), of(&vec![1; considered], 0, ACCEPTED));
        let refused_at = |at: usize| {
            let mut list = vec![1; length];
            list[at] = 7;
            salvaged(&net, &movements(&list))
        };
        assert_eq!(refused_at(8_000), of(&vec![1; 8_000], considered - 8_000, refused(6, MOVEMENTS, 0)));
        if length > 8_192 {
            // One past the 8,192nd is neither kept nor dropped.
            assert_eq!(refused_at(8_192), of(&vec![1; 8_192], 0, ACCEPTED));
        }
    }
}

#[test]
fn number_10_an_output_shorter_than_the_fresh_sheet() {
    let net = example().sheet();
    for (damaged, length) in [(movements(&[]), 5), (example_movements(), 11), (movements(&[9, 9, 9]), 5)] {
        let mut short = vec![170; length - 1];
        assert_eq!(salvage(&net, &damaged, &mut short), Err(refused(10, NET, 0)));
        assert!(untouched(&short));
        assert_eq!(salvage(&net, &damaged, &mut vec![0; length]).unwrap().length, length);
    }
}

#[test]
fn the_net_then_1_3_2_and_10() {
    let (sheet, long) = (example().sheet(), followed(&example().sheet(), &[0]));
    assert_eq!(salvage(&long, &[], &mut []), Err(refused(3, NET, 65)));
    assert_eq!(salvage(&sheet, &[], &mut []), Err(refused(1, MOVEMENTS, 0)));
    assert_eq!(salvage(&sheet, &[0, 0, 0, 0, 9], &mut []), Err(refused(3, MOVEMENTS, 0)));
    assert_eq!(salvage(&sheet, &[0, 0, 0, 1, 9], &mut []), Err(refused(2, MOVEMENTS, 4)));
    assert_eq!(salvage(&sheet, &[0, 0, 0, 1, 1], &mut []), Err(refused(10, NET, 0)));
}

/// The sheet cut or its length changed, or both.
fn damaged(random: &mut Random, sheet: &[u8]) -> Vec<u8> {
    let mut sheet = sheet[..random.below(sheet.len() + 1)].to_vec();
    if random.once_in(3) {
        spoil(random, &mut sheet);
    }
    sheet
}

#[test]
fn the_fresh_sheet_runs_whole_and_with_the_first_dropped_mode_it_would_not() {
    let (mut random, mut whole, mut dropped) = (Random::new(91), 0, 0);
    for _ in 0..4_000 {
        let style = random.pick(&[Style::Small, Style::Edges, Style::Lively]);
        let net = net(&mut random, style, 4, 3, 12);
        let (sheet, list) = (net.sheet_in(form(&mut random)), list(&mut random, &net, 12));
        let damaged = damaged(&mut random, &movements(&list));
        let Ok((salvaged, fresh)) = salvaged(&sheet, &damaged) else { continue };
        let mut marking: Vec<u32> = net.pairs.iter().map(|pair| pair.1).collect();
        let first = marking.clone();
        assert_eq!(ran_to(&sheet, &fresh, &mut marking), (salvaged.kept as u64, ACCEPTED));
        assert_eq!(fresh[5..], damaged[5..][..2 * salvaged.kept]);
        if salvaged.dropped == 0 {
            assert_eq!(salvaged.stop, ACCEPTED);
            whole += 1;
            continue;
        }
        let next = &damaged[5 + 2 * salvaged.kept..][..2];
        let longer = resized(&followed(&fresh, next), fresh.len() as u64 + 2);
        assert_eq!(ran_to(&sheet, &longer, &mut first.clone()), (salvaged.kept as u64, salvaged.stop));
        dropped += 1;
    }
    assert!(whole > 500 && dropped > 300, "{whole} {dropped}");
}
