//! Every refusal in words, from the call that gives it.

use pnet::*;
use reference::build::{OPEN, PlainNet, arc, movements, sheet, weights};
use reference::{Form, Rule};

/// The small net of docs/RULES.md, with other arcs and pairs.
fn net(pairs: &[(u32, u32)], arcs: &[reference::build::PlainArc]) -> Vec<u8> {
    PlainNet::plain(1, pairs, arcs).sheet()
}

fn arcs() -> [reference::build::PlainArc; 2] {
    [arc(0, 0, 1, 0, 4), arc(0, 1, 0, 1, OPEN)]
}

fn example() -> Vec<u8> {
    net(&[(5, 3), (OPEN, 0)], &arcs())
}

fn says<V: std::fmt::Debug>(result: Result<V, Refusal>, words: &str) {
    assert_eq!(result.unwrap_err().to_string(), words);
}

#[test]
fn of_a_sheet() {
    says(read_net(&[0, 0]), "1: the net sheet is cut short");
    says(read_weights(&[0, 0, 0, 1, 7], 2), "2: the weight sheet is not of version 1");
    says(read_movements(&[0; 4]), "3: the movement sheet has length 0");
    says(begin(&example(), &mut [0]), "17: the counts are not one for each pair");
    says(read_net(&sheet(&[0, 0])), "4: the rule or count at byte 5 of the net sheet is outside its limits");
    says(read_net(&sheet(&[0, 1, 0, 65])), "4: the count at byte 7 of the net sheet is outside its limits");
    says(
        read_weights(&weights(&[1_000_001]), 1),
        "5: the number at byte 7 of the weight sheet is outside its range",
    );
    says(read_weights(&weights(&[1]), 2), "17: the weights are not one for each pair");
}

/// The body of a sheet, without its length and version.
fn body(sheet: &[u8]) -> &[u8] {
    &sheet[5..]
}

#[test]
fn a_wrong_length_says_which_cause_it_has() {
    let (net, kilograms, list) = (example(), weights(&[250, 0]), movements(&[0, 0]));
    let cut = |whole: &[u8], at: usize| sheet(&body(whole)[..at - 5]);
    let longer = |whole: &[u8]| sheet(&[body(whole), &[7, 7]].concat());
    let after = |whole: &[u8]| [whole, &[7]].concat();
    says(read_net(&[0; 4]), "3: the net sheet has length 0");
    // Cut within a field, and just before one.
    says(size(&cut(&net, 60)), "3: the net sheet ends before the field at byte 49 does");
    says(size(&after(&cut(&net, 49))), "3: the net sheet ends before the field at byte 49 does");
    says(size(&longer(&net)), "3: the net sheet has bytes left over from byte 65 on");
    says(size(&after(&net)), "3: the net sheet has bytes left over from byte 65 on");
    says(read_weights(&cut(&kilograms, 9), 2), "3: the weight sheet ends before the field at byte 7 does");
    says(
        figure(&net, &cut(&kilograms, 11), &[0, 0]),
        "3: the weight sheet ends before the field at byte 11 does",
    );
    says(
        change(&net, &longer(&kilograms), Mode(0)),
        "3: the weight sheet has bytes left over from byte 15 on",
    );
    says(
        figure(&net, &after(&kilograms), &[0, 0]),
        "3: the weight sheet has bytes left over from byte 15 on",
    );
    says(read_movements(&cut(&list, 8)), "3: the movement sheet has bytes left over from byte 7 on");
    let ran = run(&net, &after(&list), &mut [3, 0]).result;
    assert_eq!(ran.unwrap_err().fault(), Fault::WrongLength(Length::BytesLeftOver));
    let lone = certify(&net, &sheet(&vec![0; 2 * 8_193 + 1]), &[3, 0]);
    says(lone, "3: the movement sheet has bytes left over from byte 16391 on");
}

#[test]
fn the_size_of_a_net() {
    assert_eq!(size(&example()), Ok(Size { pairs: 2, modes: 1, arcs: 2 }));
    says(size(&[0, 0]), "1: the net sheet is cut short");
}

#[test]
fn the_arcs_that_a_run_visits() {
    let visited = |list: &[u16], counts: &[u32]| {
        let ran = run(&example(), &movements(list), &mut counts.to_vec());
        (ran.accepted, ran.arcs, ran.result.map_err(|refusal| refusal.number()))
    };
    assert_eq!(visited(&[], &[3, 0]), (0, 0, Ok(())));
    assert_eq!(visited(&[0, 0], &[3, 0]), (2, 4, Ok(())));
    // A refused movement counts, and one that is not there has no arcs.
    assert_eq!(visited(&[0, 0, 0, 0, 0], &[3, 0]), (3, 8, Err(11)));
    assert_eq!(visited(&[0, 1, 0], &[3, 0]), (1, 2, Err(6)));
    assert_eq!(visited(&[0], &[6, 0]), (0, 0, Err(9)));
}

#[test]
fn of_a_salvage() {
    let (plain, room, list) = (example(), &mut [170; 20], movements(&[0, 0, 0, 0, 0]));
    // Five movements were listed, and the sheet was cut in the fifth.
    let salvaged = salvage(&plain, &list[..14], room).unwrap();
    assert_eq!((salvaged.length, salvaged.kept, salvaged.dropped), (11, 3, 1));
    assert_eq!(room[..12], [&movements(&[0, 0, 0])[..], &[170]].concat());
    assert_eq!(salvaged.stop.unwrap().to_string(), "11: pair 0 holds 1 too few");
    assert_eq!(salvaged.stop.unwrap().thing(), Thing::Movements);
    let whole = salvage(&plain, &list[..10], room).unwrap();
    assert_eq!((whole.kept, whole.dropped, whole.stop), (2, 0, None));
    says(salvage(&plain, &[0; 4], room), "1: the movement sheet is cut short");
    says(salvage(&plain, &[0; 5], room), "3: the movement sheet has length 0");
    says(salvage(&plain, &[0, 0, 0, 9, 2], room), "2: the movement sheet is not of version 1");
    let too_long = "10: what is to be written exceeds the room for it, or the limits of a sheet";
    says(salvage(&plain, &list, &mut room[..10]), too_long);
    says(salvage(&plain[1..], &list, room), "1: the net sheet is cut short");
}

#[test]
fn of_a_fleet() {
    let (plain, kilograms, list) = (example(), weights(&[250, 0]), movements(&[0, 0, 0, 0]));
    let add = |mut record: Fleet, net: &[u8], weights: &[u8], list: &[u8]| {
        let found = record;
        let counted = fleet_add(&mut record, net, weights, list);
        assert!(counted.is_ok() || record == found);
        counted.map(|()| record)
    };
    let zeros = Fleet::default();
    let one = Fleet { ships: 1, movements: 3, refused: [0, 1, 0, 0, 0], added: 0, removed: 750 };
    assert_eq!(add(zeros, &plain, &kilograms, &list), Ok(one));
    assert_eq!(
        add(one, &plain, &weights(&[-250, 0]), &movements(&[0, 9])).unwrap(),
        Fleet { ships: 2, movements: 4, refused: [1, 1, 0, 0, 0], added: 250, removed: 750 }
    );
    let most = 1_000_000_000_000_000_000;
    let told = |record| add(record, &plain, &kilograms, &list);
    says(told(Fleet { ships: 1_001, ..zeros }), "25: the record is out of its bounds");
    says(told(Fleet { added: -1, ..zeros }), "25: the record is out of its bounds");
    let full = told(Fleet { ships: 1_000, ..zeros });
    says(full, "4: the record has 1,000 ships, and has no place for another");
    assert_eq!((full.unwrap_err().offset(), full.unwrap_err().thing()), (None, Thing::Argument));
    says(told(Fleet { removed: most, ..zeros }), "24: a figure of the record would pass 10^18");
    says(add(zeros, &plain[1..], &kilograms, &list), "1: the net sheet is cut short");
    says(add(zeros, &plain, &kilograms[..9], &list), "1: the weight sheet is cut short");
    let after = [&list[..], &[7]].concat();
    says(add(zeros, &plain, &kilograms, &after), "3: the movement sheet has bytes left over from byte 13 on");
}

#[test]
fn of_a_net() {
    let pairs = [(5, 3), (OPEN, 0)];
    says(
        read_net(&net(&pairs, &[arc(1, 0, 1, 1, 1)])),
        "6: the mode or pair at byte 33 of the net sheet is not there",
    );
    says(
        read_net(&net(&pairs, &[arc(0, 1, 1, 1, 1), arc(0, 0, 1, 1, 1)])),
        "7: the arc at byte 49 is not above the one before",
    );
    says(read_net(&net(&pairs, &[arc(0, 0, 0, 0, OPEN)])), "8: the arc at byte 33 is blank");
    says(read_net(&net(&[(5, 6)], &[])), "9: the first marking at byte 17 is above the pair's capacity");
}

#[test]
fn of_a_marking_and_a_mode() {
    let plain = example();
    says(test(&plain, &[1_000_001, 0], Mode(0)), "5: pair 0 holds more than 1,000,000");
    says(test(&plain, &[6, 0], Mode(0)), "9: pair 0 holds more than its capacity");
    says(test(&plain, &[0, 0], Mode(1)), "6: the mode or pair is not there");
    let missing = run(&plain, &movements(&[1]), &mut [3, 0]).result;
    says(missing, "6: the mode is not there");
    says(test(&plain, &[0, 0], Mode(0)), "11: pair 0 holds 1 too few");
    says(test(&plain, &[5, 0], Mode(0)), "13: pair 0 holds 1 over the inhibitor");
    says(
        test(&plain, &[1, 1_000_000], Mode(0)),
        "14: pair 1 would hold 1 over the counter's limit, 1,000,000",
    );
    let full = net(&[(5, 5)], &[arc(0, 0, 1, 1, OPEN)]);
    says(test(&full, &[5], Mode(0)), "12: pair 0 has no room for 1 of what is added");
    says(certify(&plain, &movements(&[0]), &[3, 1]), "18: pair 0 ends at another count than is claimed");
}

#[test]
fn of_the_weak_capacity_rule() {
    let rack = PlainNet::plain(2, &[(5, 5)], &[arc(0, 0, 1, 1, OPEN), arc(1, 0, 1, 3, OPEN)]);
    let (strict, weak) = (rack.sheet(), rack.sheet_in(Form::Two(Rule::Weak)));
    says(test(&strict, &[5], Mode(0)), "12: pair 0 has no room for 1 of what is added");
    assert_eq!(test(&weak, &[5], Mode(0)), Ok(()));
    says(test(&weak, &[5], Mode(1)), "12: pair 0 has no room for 2 of what is added");
    says(test_step(&weak, &[5], &[Mode(0), Mode(1)]), "12: pair 0 has no room for 2 of what is added");
    assert_eq!((is_dead(&strict, Mode(1)), is_dead(&weak, Mode(1))), (Ok(false), Ok(false)));
    let full = PlainNet::plain(1, &[(5, 5)], &[arc(0, 0, 5, 5, OPEN)]);
    assert_eq!(is_dead(&full.sheet(), Mode(0)), Ok(true));
    assert_eq!(is_dead(&full.sheet_in(Form::Two(Rule::Weak)), Mode(0)), Ok(false));
}

#[test]
fn of_an_amount_above_1() {
    let one = |pair: (u32, u32), arc| net(&[(5, 3), pair], &[arc]);
    says(test(&one((9, 2), arc(0, 1, 9, 0, OPEN)), &[3, 2], Mode(0)), "11: pair 1 holds 7 too few");
    let over = one((10, 3), arc(0, 1, 3, 9, 3));
    says(fire(&over, &mut [3, 3], Mode(0)), "12: pair 1 has no room for 2 of what is added");
    let inhibited = one((9, 7), arc(0, 1, 1, 2, 4));
    says(certify(&inhibited, &movements(&[0]), &[3, 7]), "13: pair 1 holds 3 over the inhibitor");
    let limit = run(&one((OPEN, 0), arc(0, 1, 1, 6, OPEN)), &movements(&[0]), &mut [3, 999_999]).result;
    says(limit, "14: pair 1 would hold 4 over the counter's limit, 1,000,000");
    assert_eq!(limit.unwrap_err().amount(), 4);
    assert_eq!(test(&example(), &[6, 0], Mode(0)).unwrap_err().amount(), 0);
}

#[test]
fn of_a_step() {
    let plain = example();
    let once = [Mode(0)];
    says(test_step(&plain, &[3, 0], &[]), "4: the step has no mode, or more than 64");
    says(test_step(&plain, &[3, 0], &[Mode(0); 65]), "4: the step has no mode, or more than 64");
    says(fire_step(&plain, &mut [3, 0], &[Mode(0), Mode(1)]), "6: the mode or pair is not there");
    says(fire_step(&plain, &mut [3, 0], &[Mode(0); 9]), "11: pair 0 holds 6 too few");
    says(test_step(&plain, &[5, 0], &once), "13: pair 0 holds 1 over the inhibitor");
    let mut marking = [3, 0];
    assert_eq!((fire_step(&plain, &mut marking, &[Mode(0); 3]), marking), (Ok(()), [0, 3]));
}

#[test]
fn of_a_complement() {
    let room = &mut [0; LARGEST_NET];
    says(
        complement(&example(), &mut room[..90]),
        "10: what is to be written exceeds the room for it, or the limits of a sheet",
    );
    says(
        complement(&net(&[(OPEN, 0)], &[arc(0, 0, 1, 0, 4)]), room),
        "15: the arc at byte 23 inhibits a pair of unbounded capacity",
    );
    // A mode that can never happen is no reason to refuse the net.
    let retired = net(&[(1_000_000, 0)], &[arc(0, 0, 1, 0, 0)]);
    assert_eq!((is_dead(&retired, Mode(0)), complement(&retired, room)), (Ok(true), Ok(65)));
}

#[test]
fn of_a_stripped_pair() {
    let (plain, room) = (example(), &mut [0; LARGEST_NET]);
    let length = strip(&plain, Pair(0), room).unwrap();
    let stripped = room[..length].to_vec();
    // Mode n + 1 takes n.
    assert_eq!(size(&stripped), Ok(Size { pairs: 2, modes: 7, arcs: 8 }));
    let mut marking = [3, 1];
    assert_eq!((fire(&stripped, &mut marking, Mode(4)), marking), (Ok(()), [0, 1]));
    says(strip(&plain, Pair(2), room), "6: the mode or pair is not there");
    let unbounded = strip(&plain, Pair(1), room);
    says(unbounded, "15: the pair to strip has unbounded capacity");
    assert_eq!(unbounded.unwrap_err().offset(), None);
    let too_long = "10: what is to be written exceeds the room for it, or the limits of a sheet";
    says(strip(&plain, Pair(0), &mut room[..length - 1]), too_long);
    says(strip(&net(&[(64, 0)], &[]), Pair(0), room), too_long);
}

#[test]
fn of_version_2_and_conversions() {
    let (one, room) = (example(), &mut [0; LARGEST_NET]);
    let length = to_version_2(&one, room).unwrap();
    let two = room[..length].to_vec();
    assert_eq!(two, PlainNet::plain(1, &[(5, 3), (OPEN, 0)], &arcs()).sheet_in(reference::Version::Two));
    assert_eq!(to_version_1(&two, room), Ok(one.len()));
    assert_eq!(room[..one.len()], one);
    says(to_version_2(&two, room), "2: the net sheet is of no version that this call reads");
    says(to_version_1(&one, room), "2: the net sheet is of no version that this call reads");
    says(
        to_version_1(&two, &mut room[..64]),
        "10: what is to be written exceeds the room for it, or the limits of a sheet",
    );
    assert_eq!(size(&two), size(&one));
    let with = |at: usize, byte: u8| {
        let mut sheet = two.clone();
        sheet[at] = byte;
        sheet
    };
    says(read_net(&with(4, 3)), "2: the net sheet is of no version that this call reads");
    says(to_version_1(&with(5, 1), room), "23: a net of the weak capacity rule has no sheet of version 1");
    says(to_version_1(&with(5, 1), &mut []), "23: a net of the weak capacity rule has no sheet of version 1");
    says(read_net(&with(5, 2)), "4: the rule or count at byte 5 of the net sheet is outside its limits");
    says(read_net(&with(5, 9)), "4: the rule or count at byte 5 of the net sheet is outside its limits");
    says(read_net(&with(32, 9)), "4: the count at byte 32 of the net sheet is outside its limits");
    says(read_net(&with(35, 7)), "6: the mode or pair at byte 34 of the net sheet is not there");
    says(read_net(&with(49, 0)), "7: the arc at byte 48 is not above the one before");
    says(read_net(&[0, 0, 0, 1, 2]), "3: the net sheet ends before the field at byte 5 does");
    says(size(&[&two[..], &[7]].concat()), "3: the net sheet has bytes left over from byte 62 on");
}

#[test]
fn of_an_export() {
    let (plain, room) = (example(), &mut [170; LARGEST_NET]);
    let bounded = export_pnml(&plain, room);
    says(bounded, "19: the capacity or inhibitor at byte 15 of the net sheet is not unbounded");
    assert_eq!((bounded.unwrap_err().offset(), bounded.unwrap_err().thing()), (Some(15), Thing::Net));
    let inhibited = net(&[(OPEN, 3)], &[arc(0, 0, 1, 0, 4)]);
    says(
        export_pnml(&inhibited, room),
        "19: the capacity or inhibitor at byte 35 of the net sheet is not unbounded",
    );
    let open = net(&[(OPEN, 3)], &[arc(0, 0, 1, 0, OPEN)]);
    let length = export_pnml(&open, room).unwrap();
    let too_long = "10: what is to be written exceeds the room for it, or the limits of a sheet";
    says(export_pnml(&open, &mut room[..length - 1]), too_long);
    says(export_pnml(&open[1..], room), "1: the net sheet is cut short");
    says(
        export_pnml(&[&open[..], &[7]].concat(), room),
        "3: the net sheet has bytes left over from byte 39 on",
    );
}

#[test]
fn of_an_import() {
    let (net, text, room) =
        (net(&[(OPEN, 3)], &[arc(0, 0, 1, 0, OPEN)]), &mut [0; LARGEST_PNML], &mut [170; 39]);
    let length = export_pnml(&net, text).unwrap();
    let text = &mut text[..length];
    assert_eq!(import_pnml(text, room), Ok(39));
    assert_eq!(room[..], net);
    let too_long = "10: what is to be written exceeds the room for it, or the limits of a sheet";
    says(import_pnml(text, &mut room[..38]), too_long);
    // The place's identifier begins 204 bytes after the text does, with its letter: its third digit is 4 and not 0.
    text[207] = b'4';
    let refused = import_pnml(text, room);
    says(refused, "20: no export agrees with the text from byte 207 on");
    assert_eq!((refused.unwrap_err().offset(), refused.unwrap_err().thing()), (Some(207), Thing::Net));
    let cut = import_pnml(&text[..200], room);
    says(cut, "20: the text is cut short at byte 200");
    assert_eq!((cut.unwrap_err().number(), cut.unwrap_err().fault()), (20, Fault::TextCutShort));
    says(import_pnml(&[], room), "20: the text is cut short at byte 0");
    let many = PlainNet { colours: vec![64, 1], modes: vec![], pairs: vec![(OPEN, 0); 65], arcs: vec![] };
    let mut text = [0; LARGEST_PNML];
    let length = export_pnml(&many.sheet(), &mut text).unwrap();
    let too_large = import_pnml(&text[..length], &mut []);
    says(too_large, "4: the text has more than 64 pairs or modes");
    assert_eq!((too_large.unwrap_err().offset(), too_large.unwrap_err().thing()), (None, Thing::Argument));
}

#[test]
fn of_an_exclusion() {
    let plain = example();
    assert_eq!(exclude(&plain, &weights(&[1, 1]), &[3, 1]), Ok(()));
    says(exclude(&plain, &weights(&[1, 1]), &[2, 1]), "22: the claim has the figure of the first marking");
    let refusal = exclude(&plain, &weights(&[250, 0]), &[2, 1]);
    says(refusal, "21: mode 0 changes the figure, which so excludes nothing");
    assert_eq!(refusal.unwrap_err().mode(), Some(Mode(0)));
    says(exclude(&plain, &weights(&[1, 1]), &[6, 1]), "9: pair 0 holds more than its capacity");
    says(exclude(&plain, &weights(&[1]), &[6, 1]), "17: the weights are not one for each pair");
}

#[test]
fn positions_are_pairs_or_offsets_or_nothing() {
    let refusal = test(&example(), &[0, 0], Mode(0)).unwrap_err();
    assert_eq!((refusal.pair(), refusal.offset(), refusal.thing()), (Some(Pair(0)), None, Thing::Argument));
    let refusal = read_net(&sheet(&[0, 0])).unwrap_err();
    assert_eq!((refusal.pair(), refusal.offset(), refusal.number()), (None, Some(5), 4));
    let refusal = test_step(&example(), &[0, 0], &[]).unwrap_err();
    assert_eq!(
        (refusal.offset(), refusal.fault(), refusal.thing()),
        (None, Fault::CountOutside, Thing::Argument)
    );
    let refusal = test(&example(), &[0, 0], Mode(1)).unwrap_err();
    assert_eq!((refusal.pair(), refusal.offset(), refusal.position()), (None, None, 0));
}

#[test]
fn a_reader_hands_back_what_follows() {
    let both = [example(), movements(&[0])].concat();
    let rest = read_net(&both).unwrap();
    assert_eq!(read_movements(rest), Ok(&[][..]));
    says(first_marking(&both), "3: the net sheet has bytes left over from byte 65 on");
}
