//! "Equal nets answer equally": the same net in both versions, over every call. "Only offsets in the net sheet, the sheets written and their
//! lengths, refusal 10 for a short output, and the conversions may differ."

use pnet::{LARGEST_NET, Mode, Pair, Refusal, TEXT_ROOM};

use crate::case::Case;
use crate::guarded;
use crate::hits::Call;
use crate::rules::is_weak;
use crate::same::{Plain, Same, members, told};

/// Every call on the case and on the same net in the other version, where the net is accepted and its text in PNML has so much room.
pub fn answer_equally(same: &mut Same, case: &Case, text_room: usize) {
    let Some(other) = in_other_version(same, &case.net) else { return };
    for (own, others) in answers(case, &case.net).into_iter().zip(answers(case, &other)) {
        assert_eq!(own, others, "{}: {:?} and {other:?}", same.part, case.net);
    }
    same.hits.value("equal nets, and equal answers");
    let texts = [&case.net, &other].map(|net| guarded::export_pnml(net, text_room).ok());
    assert_eq!(texts[0], texts[1], "{}: {:?}", same.part, case.net);
    if texts[0].is_some() {
        same.hits.value("equal nets, and equal texts");
    }
    let complements = [&case.net, &other].map(|net| guarded::complement(net, LARGEST_NET).ok());
    if let [Some(own), Some(others)] = complements {
        assert_eq!(in_other_version(same, &own), Some(others), "{}: {:?}", same.part, case.net);
        same.hits.value("equal nets, and equal complements");
    }
    let stripped = [&case.net, &other].map(|net| guarded::strip(net, Pair(case.pair), LARGEST_NET).ok());
    if let [Some(own), Some(others)] = stripped {
        assert_eq!(in_other_version(same, &own), Some(others), "{}: {:?}", same.part, case.net);
        same.hits.value("equal nets, and equally stripped");
    }
}

/// The sheet of the other version of a net that is accepted, where there is one: converted back it is the same bytes. A net of rule 1 has none.
fn in_other_version(same: &mut Same, net: &[u8]) -> Option<Vec<u8>> {
    let from_1 = same.to_version_2(net, LARGEST_NET);
    let from_2 = same.to_version_1(net, LARGEST_NET);
    if is_weak(net) && reference::size(net).is_ok() {
        assert!(from_1.is_none() && from_2.is_none(), "{}: {net:?}", same.part);
    }
    assert!(from_1.is_none() || from_2.is_none(), "{}: {net:?}", same.part);
    if let Some(two) = &from_1 {
        assert_eq!(same.to_version_1(two, LARGEST_NET).as_deref(), Some(net), "{}", same.part);
        same.hits.value("bytes returned exactly from version 1");
    }
    if let Some(one) = &from_2 {
        assert_eq!(same.to_version_2(one, LARGEST_NET).as_deref(), Some(net), "{}", same.part);
        same.hits.value("bytes returned exactly from version 2");
    }
    from_1.or(from_2)
}

/// The sheet of version 1 of a net that is accepted: of one of rule 1, that of the same numbers and rule 0.
pub fn in_version_1(same: &mut Same, net: &[u8]) -> Vec<u8> {
    let mut net = net.to_vec();
    if is_weak(&net) {
        net[5] = 0;
    }
    if net[4] == 1 { net } else { in_other_version(same, &net).expect("the net is accepted") }
}

/// A call, its answer, and its value or what it wrote, as numbers.
type Told = (Call, Plain, Vec<i64>);

/// Of every call what may not differ.
fn answers(case: &Case, net: &[u8]) -> Vec<Told> {
    [of_a_marking(case, net), of_sheets(case, net), of_the_net(case, net)].concat()
}

fn counts(marking: &[u32]) -> Vec<i64> {
    marking.iter().map(|&count| count.into()).collect()
}

/// A call that writes the marking.
fn writing(case: &Case, call: Call, write: impl FnOnce(&mut [u32]) -> Result<(), Refusal>) -> Told {
    let mut marking = case.marking.clone();
    let answer = told(&write(&mut marking));
    (call, answer, counts(&marking))
}

fn of_a_marking(case: &Case, net: &[u8]) -> Vec<Told> {
    let (mode, step, marking) = (Mode(case.mode), members(&case.step), &case.marking);
    let audited = guarded::audit(net, marking, &case.both);
    let found = audited.ok().flatten();
    vec![
        writing(case, Call::Begin, |marking| guarded::begin(net, marking)),
        writing(case, Call::Fire, |marking| guarded::fire(net, marking, mode)),
        writing(case, Call::FireStep, |marking| guarded::fire_step(net, marking, &step)),
        (Call::Test, told(&guarded::test(net, marking, mode)), vec![]),
        (Call::TestStep, told(&guarded::test_step(net, marking, &step)), vec![]),
        (
            Call::Audit,
            without_offset(told(&audited)),
            found.map(|out| vec![out.pair.0.into(), out.excess]).unwrap_or_default(),
        ),
    ]
}

fn of_sheets(case: &Case, net: &[u8]) -> Vec<Told> {
    let (movements, weights) = (&case.movements, &case.weights);
    let mut marking = case.marking.clone();
    let ran = guarded::run(net, movements, &mut marking);
    let value = [&[ran.accepted as i64, ran.arcs as i64][..], &counts(&marking)].concat();
    let figure = guarded::figure(net, weights, &case.marking);
    let change = guarded::change(net, weights, Mode(case.mode));
    vec![
        (Call::Run, told(&ran.result), value),
        salvage(case, net),
        fleet(case, net),
        (Call::Certify, told(&guarded::certify(net, movements, &case.claim)), vec![]),
        (Call::Figure, told(&figure), figure.into_iter().collect()),
        (Call::Change, told(&change), change.into_iter().collect()),
        (Call::Exclude, told(&guarded::exclude(net, weights, &case.claim)), vec![]),
        statement(case, net),
    ]
}

fn fleet(case: &Case, net: &[u8]) -> Told {
    let reference::Fleet { ships, movements, refused, added, removed } = case.record;
    let mut record = pnet::Fleet { ships, movements, refused, added, removed };
    let counted = guarded::fleet_add(&mut record, net, &case.weights, &case.movements);
    let counts = [&[record.ships, record.movements][..], &record.refused].concat();
    let numbers = counts.into_iter().map(|count| count as i64).chain([record.added, record.removed]);
    (Call::FleetAdd, told(&counted), numbers.collect())
}

/// A salvage writes a movement sheet, the same for both.
fn salvage(case: &Case, net: &[u8]) -> Told {
    let salvaged = guarded::salvage(net, &case.movements, case.movements.len() + 5);
    let answer = told(&salvaged);
    let value = salvaged.map(|(of, fresh)| {
        let numbers = [of.length, of.kept, of.dropped].map(|number| number as i64);
        numbers.into_iter().chain(fresh.into_iter().map(i64::from)).collect()
    });
    (Call::Salvage, answer, value.unwrap_or_default())
}

/// Three sheets that are accepted are never too long, and few bytes come after them here.
fn statement(case: &Case, net: &[u8]) -> Told {
    let input = [net, &case.weights, &case.movements].concat();
    assert!(input.len() <= 65_536);
    let said = guarded::statement(&input, TEXT_ROOM);
    (Call::Statement, told(&said), said.unwrap_or_default().into_iter().map(i64::from).collect())
}

fn of_the_net(case: &Case, net: &[u8]) -> Vec<Told> {
    let (dead, first) = (guarded::is_dead(net, Mode(case.mode)), guarded::first_dead(net));
    let named = first.ok().flatten().map(|(mode, pair)| vec![mode.0.into(), pair.0.into()]);
    let size = guarded::size(net);
    let sizes = size.map(|size| [size.pairs, size.modes, size.arcs].map(|count| count as i64).to_vec());
    let complement = guarded::complement(net, LARGEST_NET);
    let stripped = guarded::strip(net, Pair(case.pair), LARGEST_NET);
    vec![
        (Call::IsDead, told(&dead), dead.into_iter().map(i64::from).collect()),
        (Call::FirstDead, told(&first), named.unwrap_or_default()),
        (Call::Size, told(&size), sizes.unwrap_or_default()),
        (Call::Complement, without_offset(told(&complement)), vec![]),
        (Call::Strip, told(&stripped), vec![]),
        (Call::ExportPnml, without_offset(told(&guarded::export_pnml(net, 0))), vec![]),
    ]
}

/// 15 and 19 are at an offset in the net sheet.
fn without_offset(answer: Plain) -> Plain {
    (answer.0, answer.1, if matches!(answer.0, 15 | 19) { 0 } else { answer.2 }, answer.3)
}
