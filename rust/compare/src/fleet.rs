//! The fleet's record, carried over many ships, and records at their bounds and out of them.

use reference::Fleet;
use reference::build::{OPEN, PlainNet, arc, movements, weights};

use crate::guarded;
use crate::same::Same;
use generator::{self, Random, Style, form, list, net, spoil};

/// 10^18.
const MOST: i64 = 1_000_000_000_000_000_000;

/// A ship's net, weights and movements.
type Ship = [Vec<u8>; 3];

/// A ship without a fault.
fn ship(random: &mut Random) -> Ship {
    let style = random.pick(&[Style::Small, Style::Edges, Style::Lively]);
    let net = net(random, style, 3, 3, 9);
    let kilograms = generator::weights(random, net.pairs.len());
    [net.sheet_in(form(random)), weights(&kilograms), movements(&list(random, &net, 12))]
}

/// The figures of a ship at its start and where its run ends.
fn figures([net, weights, movements]: &Ship) -> (i64, i64) {
    let mut marking = guarded::first_marking(net).expect("the net was accepted");
    let first = guarded::figure(net, weights, &marking).expect("the weights were accepted");
    guarded::run(net, movements, &mut marking);
    (first, guarded::figure(net, weights, &marking).expect("the weights were accepted"))
}

/// From zeros: so many ships, some of them spoiled; the starting figures of those counted plus added less removed are their last figures.
pub fn carried(same: &mut Same, random: &mut Random, ships: usize) {
    let (mut record, mut first, mut last, mut counted) = (Fleet::default(), 0, 0, 0);
    for _ in 0..ships {
        let mut ship = ship(random);
        if random.once_in(8) {
            let sheet = random.below(3);
            spoil(random, &mut ship[sheet]);
        }
        let (answer, after) = same.fleet_add(&record, &ship[0], &ship[1], &ship[2]);
        if answer.0 == 0 {
            let (starts, ends) = figures(&ship);
            (first, last, counted) = (first + starts, last + ends, counted + 1);
            same.hits.value("a ship counted");
        } else {
            assert_eq!(after, record, "{}: {ship:?}", same.part);
            same.hits.value("a ship refused, and the record as found");
        }
        record = after;
        let of = |same: &Same| format!("{}: {record:?}", same.part);
        assert_eq!(first + record.added - record.removed, last, "{}", of(same));
        assert_eq!(record.ships, counted, "{}", of(same));
        assert!(
            record.refused.iter().sum::<u64>() <= counted && record.movements <= 8_192 * counted,
            "{}",
            of(same)
        );
    }
}

/// 1,000 ships whose every movement is refused, and one more, which is ship 1,001.
pub fn full(same: &mut Same) {
    let net = PlainNet::plain(1, &[(OPEN, 0)], &[arc(0, 0, 1, 0, OPEN)]).sheet();
    let [kilograms, list] = [weights(&[1]), movements(&[0])];
    let mut record = Fleet::default();
    for ships in 1..=1_000 {
        let (answer, after) = same.fleet_add(&record, &net, &kilograms, &list);
        assert_eq!((answer.0, after.ships, after.refused), (0, ships, [0, ships, 0, 0, 0]));
        record = after;
    }
    let (answer, after) = same.fleet_add(&record, &net, &kilograms, &list);
    assert_eq!((answer, after), ((4, 3, 0, 0), record));
}

/// A record at its bounds, and in one of three past one of them.
pub fn any_record(random: &mut Random) -> Fleet {
    let figure =
        |random: &mut Random| random.pick(&[0, 0, MOST - 1_000_000_000, MOST - 1_000, MOST - 1, MOST]);
    let mut record = Fleet {
        ships: random.pick(&[0, 1, 998, 999, 999, 1_000]),
        movements: random.pick(&[0, 8_191_990, 8_192_000]),
        refused: [(); 5].map(|()| random.pick(&[0, 999, 1_000])),
        added: figure(random),
        removed: figure(random),
    };
    let by = random.below(5);
    match random.below(15) {
        0 => record.ships = random.pick(&[1_001, 1_002, u64::MAX]),
        1 => record.movements = random.pick(&[8_192_001, u64::MAX]),
        2 => record.refused[by] = random.pick(&[1_001, u64::MAX]),
        3 => record.added = random.pick(&[-1, MOST + 1, i64::MIN, i64::MAX]),
        4 => record.removed = random.pick(&[-1, MOST + 1, i64::MIN, i64::MAX]),
        _ => {}
    }
    record
}

/// A ship into a record at its bounds, and another into what it left: a refusal count or the movements may have passed them.
pub fn at_bounds(same: &mut Same, random: &mut Random) {
    let (one, other) = (ship(random), ship(random));
    let (first, record) = same.fleet_add(&any_record(random), &one[0], &one[1], &one[2]);
    let (second, _) = same.fleet_add(&record, &other[0], &other[1], &other[2]);
    if (first.0, second.0) == (0, 25) {
        same.hits.value("a record counted past its bounds");
    }
    // Each figure comes to stand at 10^18, and one past it.
    let net = PlainNet::plain(1, &[(OPEN, 0)], &[arc(0, 0, 0, 1_000, OPEN)]).sheet();
    let (weight, most) = (random.pick(&[-1, 1]), MOST - 1_000 + random.below(2) as i64);
    let near = Fleet { added: most, removed: most, ..Fleet::default() };
    let (answer, after) = same.fleet_add(&near, &net, &weights(&[weight]), &movements(&[0]));
    assert_eq!(answer.0, if most > MOST - 1_000 { 24 } else { 0 }, "{}: {near:?}", same.part);
    if after.added == MOST {
        same.hits.value("added 10^18");
    } else if after.removed == MOST {
        same.hits.value("removed 10^18");
    }
}
