//! The same answers, values and lent slices as `reference`, on generated inputs.

use std::collections::BTreeSet;

use generator::{Random, Style, form, list, marking, net, spoil, spoil_net, total};
use reference::build::{PlainNet, movements, sheet_in, weights};
use reference::{Form, Version};

const STYLES: [Style; 3] = [Style::Small, Style::Edges, Style::Lively];

/// An answer as number, thing, position and amount.
type Plain = (u32, u8, u64, u64);

fn of_swift(answer: swift::Answer) -> Plain {
    (answer.number, answer.thing, answer.position, answer.amount)
}

fn of_reference(answer: reference::Answer) -> Plain {
    (answer.number, answer.thing, answer.position, answer.amount)
}

/// A net from tiny to the largest, with the style of its numbers.
fn any_net(random: &mut Random) -> (PlainNet, Style) {
    let style = random.pick(&STYLES);
    let (places, transitions, arcs) = random.pick(&[
        (1, 1, 2),
        (3, 2, 6),
        (5, 4, 24),
        (5, 4, 24),
        (20, 20, 200),
        (64, 64, 2_048),
        (10, 2, 80),
    ]);
    (net(random, style, places, transitions, arcs), style)
}

/// A net's sheet of either version and rule.
fn any_sheet(random: &mut Random, net: &PlainNet) -> Vec<u8> {
    net.sheet_in(form(random))
}

/// A net's sheet of either version and rule, the net or the sheet spoiled once in so many times.
fn sheet_of(random: &mut Random, net: &PlainNet, times: usize) -> Vec<u8> {
    let mut net = net.clone();
    if random.once_in(2 * times) {
        spoil_net(random, &mut net);
    }
    let sheet = any_sheet(random, &net);
    maybe_spoiled(random, sheet, 2 * times)
}

/// A sheet, spoiled once in so many times.
fn maybe_spoiled(random: &mut Random, mut sheet: Vec<u8>, times: usize) -> Vec<u8> {
    if random.once_in(times) {
        spoil(random, &mut sheet);
    }
    sheet
}

fn same_read(bytes: &[u8], seen: &mut BTreeSet<u32>) {
    let ((swift, taken), (plain, plainly)) = (swift::read_net(bytes), reference::read_net(bytes));
    assert_eq!((of_swift(swift), taken), (of_reference(plain), plainly), "{bytes:?}");
    seen.insert(swift.number);
    let plain = reference::size(bytes).map(|size| [size.pairs, size.modes, size.arcs]);
    assert_eq!(swift::size(bytes).map_err(of_swift), plain.map_err(of_reference), "{bytes:?}");
}

fn same_run(net: &[u8], list: &[u8], counts: &[u32], seen: &mut BTreeSet<u32>) {
    let (mut swiftly, mut plainly) = (counts.to_vec(), counts.to_vec());
    let (ran, plain) = (swift::run(net, list, &mut swiftly), reference::run(net, list, &mut plainly));
    assert_eq!(of_swift(ran.answer), of_reference(plain.answer), "{net:?} {list:?} {counts:?}");
    assert_eq!((ran.accepted, ran.arcs), (plain.accepted, plain.arcs), "{net:?} {list:?} {counts:?}");
    assert_eq!(swiftly, plainly, "{net:?} {list:?} {counts:?}");
    seen.insert(ran.answer.number);
}

/// A call that writes a sheet into a slice.
type Writes<A> = fn(&[u8], &mut [u8]) -> Result<usize, A>;

/// The same length, or refusal, and the same bytes in a slice of this length.
fn same_sheet(
    calls: (Writes<swift::Answer>, Writes<reference::Answer>),
    net: &[u8],
    room: usize,
    seen: &mut BTreeSet<u32>,
) {
    let (mut swiftly, mut plainly) = (vec![170; room], vec![170; room]);
    let swift = calls.0(net, &mut swiftly).map_err(of_swift);
    let plain = calls.1(net, &mut plainly).map_err(of_reference);
    assert_eq!(swift, plain, "{net:?}");
    assert!(swiftly == plainly, "{net:?}");
    seen.insert(swift.err().map_or(0, |answer| answer.0));
}

fn same_complement(net: &[u8], room: usize, seen: &mut BTreeSet<u32>) {
    same_sheet((swift::complement, reference::complement), net, room, seen);
}

fn same_conversions(net: &[u8], room: usize, seen: &mut BTreeSet<u32>) {
    same_sheet((swift::to_version_2, reference::to_version_2), net, room, seen);
    same_sheet((swift::to_version_1, reference::to_version_1), net, room, seen);
}

/// The same pair and excess, or the same refusal; the number of a refusal, or 0.
fn same_audit(net: &[u8], counts: &[u32], both: &[u32]) -> (u32, Option<i64>) {
    let swift = swift::audit(net, counts, both).map_err(of_swift);
    let plain = reference::audit(net, counts, both).map_err(of_reference);
    let plain = plain.map(|found| found.map(|out| (out.pair.0, out.excess)));
    assert_eq!(swift, plain, "{net:?} {counts:?} {both:?}");
    match swift {
        Ok(found) => (0, found.map(|(_, excess)| excess)),
        Err(answer) => (answer.0, None),
    }
}

fn same_exclusion(net: &[u8], weights: &[u8], claim: &[u32], seen: &mut BTreeSet<u32>) {
    let swift = of_swift(swift::exclude(net, weights, claim));
    assert_eq!(swift, of_reference(reference::exclude(net, weights, claim)), "{net:?} {weights:?} {claim:?}");
    seen.insert(swift.0);
}

fn same_replay(input: &[u8]) -> String {
    let swift = String::from_utf8(swift::replay(input)).unwrap();
    let plain = String::from_utf8(reference::replay(input)).unwrap();
    assert_eq!(swift, plain, "{input:?}");
    swift
}

#[test]
fn reading_gives_the_same_answer() {
    let (mut random, mut seen) = (Random::new(11), BTreeSet::new());
    for _ in 0..20_000 {
        let net = net(&mut random, Style::Small, 4, 3, 12);
        let mut sheet = any_sheet(&mut random, &net);
        spoil(&mut random, &mut sheet);
        same_read(&sheet, &mut seen);
    }
    for _ in 0..20_000 {
        let mut net = net(&mut random, Style::Small, 4, 3, 12);
        spoil_net(&mut random, &mut net);
        same_read(&any_sheet(&mut random, &net), &mut seen);
    }
    for _ in 0..600 {
        let net = any_net(&mut random).0;
        same_read(&sheet_of(&mut random, &net, 2), &mut seen);
    }
    assert_eq!(seen, (0..=9).collect());
}

#[test]
fn reading_any_bytes_gives_the_same_answer() {
    let (mut random, mut seen) = (Random::new(12), BTreeSet::new());
    for _ in 0..20_000 {
        let fields: Vec<u8> =
            (0..random.below(60)).map(|_| [0, random.next() as u8 % 4][random.below(2)]).collect();
        let version = random.pick(&Version::BOTH);
        let bytes = if random.once_in(3) { fields } else { sheet_in(version, &fields) };
        same_read(&bytes, &mut seen);
    }
    assert!(seen.len() > 5);
}

#[test]
fn every_byte_of_a_sheet_written_over_gives_the_same_answer() {
    let (mut random, mut seen) = (Random::new(13), BTreeSet::new());
    for _ in 0..20 {
        let net = net(&mut random, Style::Small, 4, 3, 12);
        let sheet = any_sheet(&mut random, &net);
        for at in 0..sheet.len() {
            for byte in [0, 1, 2, 15, 16, 64, 65, 127, 128, 255] {
                let mut spoiled = sheet.clone();
                spoiled[at] = byte;
                same_read(&spoiled, &mut seen);
            }
        }
    }
}

#[test]
fn running_gives_the_same_answer() {
    let (mut random, mut seen) = (Random::new(14), BTreeSet::new());
    for _ in 0..12_000 {
        let (net, style) = any_net_for_lists(&mut random);
        let counts = marking(&mut random, style, &net);
        let list = movements(&list(&mut random, &net, 40));
        let list = maybe_spoiled(&mut random, list, 20);
        let sheet = sheet_of(&mut random, &net, 10);
        same_run(&sheet, &list, &counts, &mut seen);
    }
    assert_eq!(seen, (0..=9).chain(11..=14).chain([17]).collect());
}

/// The same report, or refusal, and the same fresh sheet of damaged movements.
fn same_salvage(net: &[u8], damaged: &[u8], room: usize, seen: &mut BTreeSet<u32>) {
    let (mut swiftly, mut plainly) = (vec![170; room], vec![170; room]);
    let swift = swift::salvage(net, damaged, &mut swiftly).map_err(of_swift);
    let plain = reference::salvage(net, damaged, &mut plainly).map_err(of_reference);
    let told = swift.map(|told| (told.length, told.kept, told.dropped, of_swift(told.stop)));
    let plain = plain.map(|told| (told.length, told.kept, told.dropped, of_reference(told.stop)));
    assert_eq!(told, plain, "{net:?} {damaged:?}");
    assert!(swiftly == plainly, "{net:?} {damaged:?}");
    seen.insert(told.map_or_else(|answer| answer.0, |(.., stop)| 100 + stop.0));
}

#[test]
fn salvaging_gives_the_same_sheet() {
    let (mut random, mut seen) = (Random::new(45), BTreeSet::new());
    for _ in 0..12_000 {
        let (net, _) = any_net_for_lists(&mut random);
        let list = movements(&list(&mut random, &net, 40));
        let cut = random.below(list.len() + 1);
        let list = if random.once_in(2) { list } else { list[..cut].to_vec() };
        let damaged = maybe_spoiled(&mut random, list, 3);
        let room = if random.once_in(8) { random.below(90) } else { 36_000 };
        let sheet = sheet_of(&mut random, &net, 15);
        same_salvage(&sheet, &damaged, room, &mut seen);
    }
    let stops = [100, 106].into_iter().chain(111..=114);
    assert_eq!(seen, (1..=10).chain(stops).collect());
}

#[test]
fn at_every_cut_the_same_is_salvaged() {
    let (mut random, mut seen) = (Random::new(46), BTreeSet::new());
    for length in [0, 1, 30, 8_191, 8_192, 8_193, 8_300] {
        let net = net(&mut random, Style::Lively, 2, 3, 6);
        let modes = total(&net.modes).max(1);
        let list = movements(&(0..length).map(|_| random.below(modes) as u16).collect::<Vec<_>>());
        for cut in (0..=list.len()).filter(|&cut| cut < 60 || cut + 4 > list.len()) {
            same_salvage(&net.sheet(), &list[..cut], 36_000, &mut seen);
        }
    }
    assert!(seen.contains(&100));
}

/// Mostly small nets, where refusals are near; the large ones are slow in the reference.
fn any_net_for_lists(random: &mut Random) -> (PlainNet, Style) {
    if random.once_in(100) {
        return any_net(random);
    }
    let style = random.pick(&STYLES);
    let (places, transitions, arcs) = random.pick(&[(1, 2, 3), (3, 2, 6), (5, 4, 24), (9, 9, 80)]);
    (net(random, style, places, transitions, arcs), style)
}

#[test]
fn long_runs_give_the_same_answer() {
    let (mut random, mut seen) = (Random::new(15), BTreeSet::new());
    for places in [1, 2, 4, 8, 12, 20, 40, 64] {
        for arcs in [4, 40, 400, 2_048] {
            let net = net(&mut random, Style::Lively, places, 8, arcs);
            let counts = marking(&mut random, Style::Lively, &net);
            let list = movements(&list(&mut random, &net, 1_500));
            same_run(&any_sheet(&mut random, &net), &list, &counts, &mut seen);
        }
    }
    assert!(seen.contains(&0));
}

#[test]
fn every_width_of_a_net_runs_the_same() {
    let (mut random, mut seen) = (Random::new(16), BTreeSet::new());
    for pairs in 1..=256 {
        let mut net = net(&mut random, Style::Small, 1, 3, 9);
        net.pairs.resize(pairs, (9, 4));
        net.colours = vec![4; pairs / 4];
        net.colours.extend((pairs % 4 > 0).then_some((pairs % 4) as u16));
        net.modes = vec![2];
        net.arcs = (0..2 * pairs)
            .map(|n| reference::build::arc((n / pairs) as u16, (n % pairs) as u16, 1, 1, 9 - (n % 5) as u32))
            .collect();
        assert_eq!(total(&net.colours), pairs);
        for most in [3, 300] {
            let list = movements(&list(&mut random, &net, most));
            let counts: Vec<u32> = (0..pairs).map(|_| 1 + random.below(8) as u32).collect();
            for sheet in Form::ALL.map(|form| net.sheet_in(form)) {
                same_run(&sheet, &list, &counts, &mut seen);
                same_run(&sheet, &list, &vec![5; pairs], &mut seen);
            }
        }
    }
}

#[test]
fn complementing_gives_the_same_sheet() {
    let (mut random, mut seen) = (Random::new(17), BTreeSet::new());
    for _ in 0..6_000 {
        let net = any_net_for_lists(&mut random).0;
        let room = if random.once_in(8) { random.below(300) } else { 36_000 };
        let sheet = sheet_of(&mut random, &net, 5);
        same_complement(&sheet, room, &mut seen);
    }
    for _ in 0..300 {
        let net = any_net(&mut random).0;
        same_complement(&any_sheet(&mut random, &net), 36_000, &mut seen);
    }
    assert_eq!(seen, (0..=10).chain([15]).collect());
}

#[test]
fn converting_gives_the_same_sheet() {
    let (mut random, mut seen) = (Random::new(43), BTreeSet::new());
    for round in 0..6_000 {
        let net = if round % 20 == 0 { any_net(&mut random).0 } else { any_net_for_lists(&mut random).0 };
        let room = if random.once_in(8) { random.below(300) } else { 36_000 };
        let sheet = sheet_of(&mut random, &net, 5);
        same_conversions(&sheet, room, &mut seen);
    }
    assert_eq!(seen, (0..=10).chain([23]).collect());
}

/// The same sheet, or refusal, of a stripped pair.
fn same_strip(net: &[u8], pair: u16, room: usize, seen: &mut BTreeSet<u32>) {
    let (mut swiftly, mut plainly) = (vec![170; room], vec![170; room]);
    let swift = swift::strip(net, pair, &mut swiftly).map_err(of_swift);
    let plain = reference::strip(net, pair, &mut plainly).map_err(of_reference);
    assert_eq!(swift, plain, "{net:?} {pair}");
    assert!(swiftly == plainly, "{net:?} {pair}");
    seen.insert(swift.err().map_or(0, |answer| answer.0));
}

#[test]
fn stripping_gives_the_same_sheet() {
    let (mut random, mut seen) = (Random::new(44), BTreeSet::new());
    for round in 0..8_000 {
        let net = if round % 20 == 0 { any_net(&mut random).0 } else { any_net_for_lists(&mut random).0 };
        let room = if random.once_in(8) { random.below(300) } else { 36_000 };
        let sheet = sheet_of(&mut random, &net, 5);
        same_strip(&sheet, random.below(net.pairs.len() + 1) as u16, room, &mut seen);
    }
    assert_eq!(seen, (0..=10).chain([15]).collect());
}

#[test]
fn at_the_limits_of_stripping_the_answers_are_the_same() {
    let mut seen = BTreeSet::new();
    for form in Form::ALL {
        for capacity in [0, 1, 61, 62, 63, 64, 65, 1_000_000] {
            for modes in [vec![1; 63], vec![1; 64], vec![64; 3], vec![64, 64, 64, 1], vec![64; 4], vec![]] {
                let net = PlainNet { colours: vec![2], modes, pairs: vec![(capacity, 0); 2], arcs: vec![] };
                same_strip(&net.sheet_in(form), 1, 36_000, &mut seen);
            }
            for arcs in [1_984, 1_985, 2_047, 2_048] {
                let mut net = finite(vec![20]);
                net.pairs[7].0 = capacity.max(2);
                net.arcs = (0..arcs).map(|n| reference::build::arc(n / 20, n % 20, 1, 0, u32::MAX)).collect();
                same_strip(&net.sheet_in(form), 7, 36_000, &mut seen);
            }
        }
    }
    assert_eq!(seen, [0, 10].into());
}

fn fields(record: &swift::Fleet) -> reference::Fleet {
    let swift::Fleet { ships, movements, refused, added, removed } = *record;
    reference::Fleet { ships, movements, refused, added, removed }
}

/// The same answer to a ship, and the same record after it.
fn same_fleet(record: &mut swift::Fleet, [net, weights, list]: [&[u8]; 3], seen: &mut BTreeSet<u32>) {
    let mut plainly = fields(record);
    let plain = of_reference(reference::fleet_add(&mut plainly, net, weights, list));
    let found = *record;
    let answer = of_swift(swift::fleet_add(record, net, weights, list));
    assert_eq!((answer, fields(record)), (plain, plainly), "{found:?} {net:?} {weights:?} {list:?}");
    seen.insert(answer.0);
}

/// A record at its bounds, or past one of them.
fn any_record(random: &mut Random) -> swift::Fleet {
    let most = 1_000_000_000_000_000_000;
    let mut record = swift::Fleet {
        ships: random.pick(&[0, 1, 999, 1_000]),
        movements: random.pick(&[0, 8_191_999, 8_192_000]),
        refused: [(); 5].map(|()| random.pick(&[0, 999, 1_000])),
        added: random.pick(&[0, most - 1_000_000, most - 1, most]),
        removed: random.pick(&[0, most - 1_000_000, most - 1, most]),
    };
    let by = random.below(5);
    match random.below(12) {
        0 => record.ships = random.pick(&[1_001, u64::MAX]),
        1 => record.movements = random.pick(&[8_192_001, u64::MAX]),
        2 => record.refused[by] = random.pick(&[1_001, u64::MAX]),
        3 => record.added = random.pick(&[-1, most + 1, i64::MIN, i64::MAX]),
        4 => record.removed = random.pick(&[-1, most + 1, i64::MIN, i64::MAX]),
        _ => {}
    }
    record
}

#[test]
fn a_fleet_gives_the_same_record() {
    let (mut random, mut seen) = (Random::new(47), BTreeSet::new());
    let mut carried = swift::Fleet::default();
    for round in 0..10_000 {
        let net = any_net_for_lists(&mut random).0;
        let kilograms = weights(&generator::weights(&mut random, total(&net.colours)));
        let kilograms = maybe_spoiled(&mut random, kilograms, 15);
        let list = movements(&list(&mut random, &net, 30));
        let list = maybe_spoiled(&mut random, list, 15);
        let sheet = sheet_of(&mut random, &net, 10);
        if round % 1_400 == 0 {
            carried = swift::Fleet::default();
        }
        same_fleet(&mut carried, [&sheet, &kilograms, &list], &mut seen);
        same_fleet(&mut any_record(&mut random), [&sheet, &kilograms, &list], &mut seen);
    }
    assert_eq!(seen, (0..=9).chain([17, 24, 25]).collect());
}

/// The counts of a net and its complement: in step, or one of them anything.
fn both_markings(random: &mut Random, net: &PlainNet) -> (Vec<u32>, Vec<u32>) {
    let counts: Vec<u32> = net.pairs.iter().map(|pair| pair.1).collect();
    let bounded = net.pairs.iter().filter(|pair| pair.0 != u32::MAX);
    let mut both: Vec<u32> = counts.iter().copied().chain(bounded.map(|pair| pair.0 - pair.1)).collect();
    if random.once_in(2) {
        let at = random.below(both.len());
        both[at] = random.pick(&[0, 1, both[at] ^ 1, u32::MAX]);
    }
    if random.once_in(10) {
        let length = random.below(both.len() + 2);
        both.resize(length, 0);
    }
    (counts, both)
}

#[test]
fn auditing_gives_the_same_answer() {
    let (mut random, mut seen) = (Random::new(41), BTreeSet::new());
    let (mut none, mut found) = (0, 0);
    for round in 0..6_000 {
        let net = if round % 20 == 0 { any_net(&mut random).0 } else { any_net_for_lists(&mut random).0 };
        let (mut counts, both) = both_markings(&mut random, &net);
        if random.once_in(4) {
            let pair = random.below(counts.len());
            counts[pair] = random.pick(&[0, counts[pair] ^ 1, u32::MAX]);
        }
        let sheet = sheet_of(&mut random, &net, 10);
        let (number, excess) = same_audit(&sheet, &counts, &both);
        seen.insert(number);
        none += usize::from(number == 0 && excess.is_none());
        found += usize::from(excess.is_some());
        same_audit(&sheet, &counts[1..], &both);
    }
    assert_eq!(seen, (0..=10).chain([15, 17]).collect());
    assert!(none > 500 && found > 500, "{none} {found}");
}

#[test]
fn excluding_gives_the_same_answer() {
    let (mut random, mut seen) = (Random::new(42), BTreeSet::new());
    for _ in 0..8_000 {
        let (net, style) = any_net_for_lists(&mut random);
        let claim = marking(&mut random, style, &net);
        let kilograms = weights(&generator::weights(&mut random, total(&net.colours)));
        let sheet = sheet_of(&mut random, &net, 10);
        same_exclusion(&sheet, &maybe_spoiled(&mut random, kilograms, 15), &claim, &mut seen);
        let (net, kilograms) = generator::balanced(&mut random);
        let claim = marking(&mut random, Style::Small, &net);
        same_exclusion(&any_sheet(&mut random, &net), &weights(&kilograms), &claim, &mut seen);
    }
    assert_eq!(seen, (0..=9).chain([17, 21, 22]).collect());
}

#[test]
fn complementing_into_every_length_gives_the_same_bytes() {
    let (mut random, mut seen) = (Random::new(18), BTreeSet::new());
    for _ in 0..20 {
        let net = net(&mut random, Style::Small, 3, 2, 6);
        let sheet = any_sheet(&mut random, &net);
        for room in 0..300 {
            same_complement(&sheet, room, &mut seen);
            same_conversions(&sheet, room, &mut seen);
        }
    }
}

#[test]
fn replay_prints_the_same_text() {
    let mut random = Random::new(19);
    let mut firsts = BTreeSet::new();
    for _ in 0..8_000 {
        let (net, _) = any_net_for_lists(&mut random);
        let pairs = total(&net.colours);
        let w = weights(&generator::weights(&mut random, pairs));
        let list = movements(&list(&mut random, &net, 30));
        let mut input = sheet_of(&mut random, &net, 10);
        for sheet in [w, list] {
            input.extend(maybe_spoiled(&mut random, sheet, 15));
        }
        let text = same_replay(&input);
        firsts.insert(text.split(['\n', ' ']).next().unwrap().to_string());
        firsts.extend(text.lines().map(|line| line.split(' ').next().unwrap().to_string()));
    }
    assert!(["start", "refused", "end", "bad"].iter().all(|&word| firsts.contains(word)));
}

#[test]
fn long_replays_print_the_same_text() {
    let mut random = Random::new(20);
    for places in [1, 3, 10, 40] {
        let net = net(&mut random, Style::Lively, places, 8, 60);
        let pairs = total(&net.colours);
        for scale in [0, 1, 1_000, 1_000_000] {
            let w: Vec<i32> = (0..pairs).map(|_| random.below(2 * scale + 1) as i32 - scale as i32).collect();
            let list = movements(&list(&mut random, &net, 8_000));
            same_replay(&[any_sheet(&mut random, &net), weights(&w), list].concat());
        }
    }
}

#[test]
fn replay_of_short_and_long_inputs() {
    for length in [0, 1, 3, 4, 5, 65_535, 65_536, 65_537, 70_000] {
        for byte in [0, 1, 255] {
            same_replay(&vec![byte; length]);
        }
    }
}

#[test]
fn figures_of_every_length_print_the_same() {
    // One pair that gains 1 a movement: figures pass every power of ten with both signs.
    let arcs = [reference::build::arc(0, 0, 0, 1, u32::MAX), reference::build::arc(1, 0, 0, 9, u32::MAX)];
    for first in [0, 1, 8, 98, 998, 9_998, 99_998, 999_980] {
        let net = PlainNet::plain(2, &[(u32::MAX, first)], &arcs).sheet();
        for weight in [0, 1, -1, 10, 11, 99, 100, -101, 1_000, 10_000, 99_999, 100_000, -1_000_000, 1_000_000]
        {
            same_replay(&[net.clone(), weights(&[weight]), movements(&[0, 0, 1, 0])].concat());
        }
    }
}

#[test]
fn the_largest_figure_prints_the_same() {
    let net = PlainNet {
        colours: vec![64; 4],
        modes: vec![1],
        pairs: vec![(u32::MAX, 1_000_000); 256],
        arcs: vec![],
    };
    for weight in [1_000_000, -1_000_000] {
        let text = same_replay(&[net.sheet(), weights(&[weight; 256]), movements(&[0; 3])].concat());
        assert!(text.contains("256000000000000\n"));
    }
}

/// Places of these colours, every pair of K 5.
fn finite(colours: Vec<u16>) -> PlainNet {
    let pairs = vec![(5, 2); total(&colours)];
    PlainNet { colours, modes: vec![64, 64, 1], pairs, arcs: vec![] }
}

#[test]
fn at_the_complements_limits_the_answers_are_the_same() {
    let mut seen = BTreeSet::new();
    for colours in [vec![1; 32], vec![1; 33], vec![64; 2], vec![64, 64, 1], vec![4; 32], vec![2; 64]] {
        let mut net = finite(colours);
        same_complement(&net.sheet(), 36_000, &mut seen);
        // One complement pair, and often one place, fewer.
        net.pairs[0].0 = u32::MAX;
        same_complement(&net.sheet(), 36_000, &mut seen);
    }
    for arcs in [1_023, 1_024, 1_025] {
        // The modes of Pre 6 are dead, and their complement arcs blank.
        for pre in [1, 6] {
            let mut net = finite(vec![8]);
            net.arcs = (0..arcs).map(|n| reference::build::arc(n / 8, n % 8, pre, 0, u32::MAX)).collect();
            same_complement(&net.sheet(), 36_000, &mut seen);
            seen.insert(same_audit(&net.sheet(), &[2; 8], &[[2; 8], [3; 8]].concat()).0);
            // This one is blank at its original pair.
            net.arcs.push(reference::build::arc(128, 7, 0, 0, 4));
            for sheet in Form::ALL.map(|form| net.sheet_in(form)) {
                same_complement(&sheet, 36_000, &mut seen);
                seen.insert(same_audit(&sheet, &[2; 8], &[[2; 8], [3; 8]].concat()).0);
            }
        }
    }
    assert_eq!(seen, [0, 10].into());
}

#[test]
fn at_the_limits_of_lists_and_arcs_the_answers_are_the_same() {
    let mut seen = BTreeSet::new();
    let mut net = finite(vec![20]);
    for length in [8_191, 8_192, 8_193] {
        same_run(&net.sheet(), &movements(&vec![1; length]), &[2; 20], &mut seen);
    }
    for arcs in [2_047, 2_048, 2_049] {
        net.arcs = (0..arcs).map(|n| reference::build::arc(n / 20, n % 20, 1, 0, u32::MAX)).collect();
        for sheet in Form::ALL.map(|form| net.sheet_in(form)) {
            same_read(&sheet, &mut seen);
            same_run(&sheet, &movements(&[0, 50, 102, 128, 0]), &[2; 20], &mut seen);
        }
    }
    assert_eq!(seen, [0, 4, 11].into());
}
