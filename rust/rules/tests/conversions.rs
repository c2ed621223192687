//! Conversion of net sheets from version 1 to 2 and back.

use crate::support::*;
use generator::{Random, Style, form, net, spoil, spoil_net};
use reference::build::PlainNet;
use reference::*;

type Conversion = fn(&[u8], &mut [u8]) -> Result<usize, Answer>;

/// What a conversion gives with room for the largest sheet.
fn converted(convert: Conversion, sheet: &[u8]) -> Result<Vec<u8>, Answer> {
    let mut output = vec![170; 35_083];
    let length = convert(sheet, &mut output)?;
    assert!(untouched(&output[length..]));
    output.truncate(length);
    Ok(output)
}

#[test]
fn old_bytes_are_returned_exactly() {
    let mut random = Random::new(61);
    for round in 0..2_000 {
        let style = random.pick(&[Style::Small, Style::Edges, Style::Lively]);
        let (places, transitions, arcs) = if round % 50 == 0 { (64, 64, 2_048) } else { (4, 4, 20) };
        let net = net(&mut random, style, places, transitions, arcs);
        let (one, two) = (net.sheet_in(Version::One), net.sheet_in(Version::Two));
        assert_eq!(converted(to_version_2, &one), Ok(two.clone()));
        assert_eq!(converted(to_version_1, &two), Ok(one));
    }
}

#[test]
fn a_conversion_answers_2_to_any_version_but_its_source() {
    let (one, two) = (example().sheet_in(Version::One), example().sheet_in(Version::Two));
    assert_eq!(converted(to_version_2, &two), Err(refused(2, NET, 4)));
    assert_eq!(converted(to_version_1, &one), Err(refused(2, NET, 4)));
    for version in [0, 3, 255] {
        for (convert, sheet) in [(to_version_2 as Conversion, &one), (to_version_1, &two)] {
            assert_eq!(converted(convert, &with(sheet, 4, &[version])), Err(refused(2, NET, 4)));
        }
    }
}

#[test]
fn number_2_comes_after_1_and_l_is_0_and_before_all_fields() {
    assert_eq!(converted(to_version_2, &[0, 0, 0]), Err(refused(1, NET, 0)));
    assert_eq!(converted(to_version_2, &[0, 0, 0, 2, 2]), Err(refused(1, NET, 0)));
    assert_eq!(converted(to_version_2, &[0, 0, 0, 0, 2]), Err(refused(3, NET, 0)));
    assert_eq!(converted(to_version_2, &[0, 0, 0, 1, 2]), Err(refused(2, NET, 4)));
    assert_eq!(converted(to_version_2, &[0, 0, 0, 1, 1]), Err(refused(3, NET, 5)));
    assert_eq!(converted(to_version_1, &[0, 0, 0, 1, 2]), Err(refused(3, NET, 5)));
    assert_eq!(converted(to_version_1, &[0, 0, 0, 2, 2, 7]), Err(refused(4, NET, 5)));
    assert_eq!(converted(to_version_1, &[0, 0, 0, 2, 1, 7]), Err(refused(2, NET, 4)));
}

#[test]
fn the_nets_refusals_come_before_10() {
    let (one, two) = (example().sheet_in(Version::One), example().sheet_in(Version::Two));
    let (long, longer) = (followed(&one, &[0]), followed(&two, &[0]));
    for room in [0, 61, 62, 100] {
        assert_eq!(to_version_2(&long, &mut vec![0; room]), Err(refused(3, NET, 65)));
        assert_eq!(to_version_1(&longer, &mut vec![0; room]), Err(refused(3, NET, 62)));
    }
}

#[test]
fn number_10_an_output_one_byte_too_short() {
    let (one, two) = (example().sheet_in(Version::One), example().sheet_in(Version::Two));
    for (convert, from, to) in [(to_version_2 as Conversion, &one, &two), (to_version_1, &two, &one)] {
        let (mut short, mut enough) = (vec![170; to.len() - 1], vec![170; to.len()]);
        assert_eq!(convert(from, &mut short), Err(refused(10, NET, 0)));
        assert!(untouched(&short));
        assert_eq!(convert(from, &mut enough), Ok(to.len()));
        assert_eq!(&enough, to);
    }
}

#[test]
fn a_conversion_refuses_what_the_reader_refuses() {
    let mut random = Random::new(62);
    for _ in 0..4_000 {
        let mut plain = net(&mut random, Style::Small, 3, 3, 9);
        let form = form(&mut random);
        if random.once_in(2) {
            spoil_net(&mut random, &mut plain);
        }
        let mut sheet = plain.sheet_in(form);
        spoil(&mut random, &mut sheet);
        let [one, two] = [to_version_2 as Conversion, to_version_1].map(|convert| converted(convert, &sheet));
        match (size(&sheet), sheet.get(4)) {
            (Ok(_), Some(1)) => assert!(one.is_ok() && two == Err(refused(2, NET, 4))),
            (Ok(_), _) if sheet[5] == 1 => {
                assert_eq!((one, two), (Err(refused(2, NET, 4)), Err(refused(23, NET, 0))));
            }
            (Ok(_), _) => assert!(two.is_ok() && one == Err(refused(2, NET, 4))),
            (Err(answer), Some(1)) => assert_eq!(one, Err(answer)),
            (Err(answer), _) => assert_eq!(two, Err(answer)),
        }
    }
}

#[test]
fn both_versions_of_the_empty_net() {
    let net = PlainNet::plain(0, &[(5, 2)], &[]);
    assert_eq!(converted(to_version_2, &net.sheet()).unwrap().len(), 20);
    assert_eq!(converted(to_version_1, &net.sheet_in(Version::Two)).unwrap().len(), 21);
}
