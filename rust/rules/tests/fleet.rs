//! The fleet statement: one ship after another into one running record.

use crate::support::*;
use generator::{Random, Style, form, list, net};
use reference::build::{OPEN, PlainNet, arc, movements, weights};
use reference::*;

const ZEROS: Fleet = Fleet { ships: 0, movements: 0, refused: [0; 5], added: 0, removed: 0 };

/// 10^18.
const MOST: i64 = 1_000_000_000_000_000_000;

/// A ship's net, weights and movements.
type Ship = (Vec<u8>, Vec<u8>, Vec<u8>);

/// The answer, and the record after it; a ship that is refused must leave it as found.
fn counted(record: Fleet, (net, weights, movements): &Ship) -> (Answer, Fleet) {
    let mut after = record;
    let answer = fleet_add(&mut after, net, weights, movements);
    assert!(answer == ACCEPTED || after == record);
    (answer, after)
}

/// The small net of docs/RULES.md with these movements.
fn ship(list: &[u16]) -> Ship {
    (example().sheet(), example_weights(), movements(list))
}

#[test]
fn a_ship_is_counted_with_its_movements_and_its_figures() {
    let (answer, record) = counted(ZEROS, &ship(&[0, 0]));
    assert_eq!(answer, ACCEPTED);
    assert_eq!(record, Fleet { ships: 1, movements: 2, removed: 500, ..ZEROS });
    let (_, record) = counted(record, &ship(&[]));
    assert_eq!(record, Fleet { ships: 2, movements: 2, removed: 500, ..ZEROS });
}

/// One mode for each way to be refused at the first marking, and one that is accepted and adds 3 of 7 kg and takes 2 of 100 kg.
fn ways() -> PlainNet {
    let arcs = [
        arc(0, 0, 2, 0, OPEN),
        arc(0, 1, 0, 3, OPEN),
        arc(1, 0, 9, 0, OPEN),
        arc(2, 0, 0, 9, OPEN),
        arc(3, 0, 0, 0, 1),
        arc(4, 2, 0, 1, OPEN),
    ];
    PlainNet::plain(5, &[(8, 6), (OPEN, 0), (OPEN, 1_000_000)], &arcs)
}

#[test]
fn a_refused_movement_counts_under_its_number_and_stops_the_ship() {
    let of = |list: &[u16]| (ways().sheet(), weights(&[100, 7, 1]), movements(list));
    for (mode, at) in [(5, 0), (1, 1), (2, 2), (3, 3), (4, 4)] {
        let mut refused = [0; 5];
        refused[at] = 1;
        let (answer, record) = counted(ZEROS, &of(&[0, mode, 0]));
        // The change of mode 0 is 21 - 200.
        assert_eq!(
            (answer, record),
            (ACCEPTED, Fleet { ships: 1, movements: 1, refused, added: 0, removed: 179 })
        );
    }
    let all: Fleet = (1..=5).fold(ZEROS, |record, mode| counted(record, &of(&[mode])).1);
    assert_eq!(all, Fleet { ships: 5, refused: [1; 5], ..ZEROS });
}

#[test]
fn added_and_removed_are_sums_over_movements_and_not_over_pairs_or_ships() {
    // Mode 0 gives 30 kg and mode 1 takes 50 kg.
    let net = PlainNet::plain(2, &[(OPEN, 9)], &[arc(0, 0, 0, 3, OPEN), arc(1, 0, 5, 0, OPEN)]).sheet();
    let ship = (net, weights(&[10]), movements(&[0, 1, 0, 1]));
    assert_eq!(counted(ZEROS, &ship).1, Fleet { ships: 1, movements: 4, added: 60, removed: 100, ..ZEROS });
    let negative = (ship.0, weights(&[-10]), ship.2);
    assert_eq!(
        counted(ZEROS, &negative).1,
        Fleet { ships: 1, movements: 4, added: 100, removed: 60, ..ZEROS }
    );
}

/// Each bound of 25: the largest record within it, and one past it.
#[test]
fn number_25_a_record_out_of_its_bounds() {
    let out = (refused(25, NET, 0), true);
    let told = |record: Fleet| {
        let (answer, after) = counted(record, &ship(&[0]));
        (answer, after == record)
    };
    assert_eq!(told(Fleet { ships: 1_001, ..ZEROS }), out);
    assert_eq!(told(Fleet { ships: u64::MAX, ..ZEROS }), out);
    assert_eq!(told(Fleet { movements: 8_192_000, ..ZEROS }).0, ACCEPTED);
    assert_eq!(told(Fleet { movements: 8_192_001, ..ZEROS }), out);
    for at in 0..5 {
        let with = |count| {
            let mut refused = [1_000; 5];
            refused[at] = count;
            Fleet { refused, ..ZEROS }
        };
        assert_eq!(told(with(1_000)).0, ACCEPTED);
        assert_eq!(told(with(1_001)), out);
        assert_eq!(told(with(u64::MAX)), out);
    }
    for figure in [-1, MOST + 1, i64::MIN, i64::MAX] {
        assert_eq!(told(Fleet { added: figure, ..ZEROS }), out);
        assert_eq!(told(Fleet { removed: figure, ..ZEROS }), out);
    }
    assert_eq!(told(Fleet { added: MOST, ..ZEROS }).0, ACCEPTED);
}

#[test]
fn number_4_ship_1_001() {
    assert_eq!(counted(Fleet { ships: 999, ..ZEROS }, &ship(&[])).1.ships, 1_000);
    assert_eq!(counted(Fleet { ships: 1_000, ..ZEROS }, &ship(&[])).0, refused(4, ARGUMENT, 0));
    let mut record = ZEROS;
    for count in 1..=1_000 {
        let (answer, after) = counted(record, &ship(&[0, 0, 0, 0]));
        assert_eq!((answer, after.ships), (ACCEPTED, count));
        record = after;
    }
    // Counted from zeros a record stays within its bounds.
    assert_eq!(record.refused, [0, 1_000, 0, 0, 0]);
    assert_eq!(counted(record, &ship(&[0])).0, refused(4, ARGUMENT, 0));
}

#[test]
fn number_24_a_figure_would_pass_10_to_the_18th() {
    let told = |added: i64, removed: i64, weight: i32| {
        // One movement that gives 1,000 tokens.
        let net = PlainNet::plain(1, &[(OPEN, 0)], &[arc(0, 0, 0, 1_000, OPEN)]).sheet();
        let (answer, after) =
            counted(Fleet { added, removed, ..ZEROS }, &(net, weights(&[weight]), movements(&[0])));
        if answer == ACCEPTED { Ok((after.added, after.removed)) } else { Err(answer) }
    };
    let passed = Err(refused(24, NET, 0));
    assert_eq!(told(MOST - 1_000, 0, 1), Ok((MOST, 0)));
    assert_eq!(told(MOST - 999, 0, 1), passed);
    assert_eq!(told(MOST - 1_000, 0, -1), Ok((MOST - 1_000, 1_000)));
    assert_eq!(told(0, MOST - 1_000, -1), Ok((0, MOST)));
    assert_eq!(told(0, MOST - 999, -1), passed);
    assert_eq!(told(MOST, MOST, 0), Ok((MOST, MOST)));
    assert_eq!(told(MOST, MOST, -1), passed);
}

#[test]
fn the_largest_change_is_exact() {
    // 256 pairs that each go from 0 to 1,000,000 and back, at 1,000,000 kg: 2.56 * 10^14 each way.
    let arcs = (0..512u16).map(|n| match n / 256 {
        0 => arc(0, n % 256, 0, 1_000_000, OPEN),
        _ => arc(1, n % 256, 1_000_000, 0, OPEN),
    });
    let net =
        PlainNet { colours: vec![64; 4], modes: vec![2], pairs: vec![(OPEN, 0); 256], arcs: arcs.collect() };
    let list: Vec<u16> = (0..1_000).map(|n| n % 2).collect();
    let ship = (net.sheet(), weights(&[1_000_000; 256]), movements(&list));
    let sum = 500 * 256_000_000_000_000;
    assert_eq!(
        counted(ZEROS, &ship).1,
        Fleet { ships: 1, movements: 1_000, added: sum, removed: sum, ..ZEROS }
    );
}

#[test]
fn a_lent_record_may_leave_its_bounds_and_is_then_refused() {
    let full = Fleet { refused: [1_000, 0, 0, 0, 0], ..ZEROS };
    let (answer, over) = counted(full, &ship(&[7]));
    assert_eq!((answer, over.refused[0]), (ACCEPTED, 1_001));
    assert_eq!(counted(over, &ship(&[])).0, refused(25, NET, 0));
    let (answer, over) = counted(Fleet { movements: 8_192_000, ..ZEROS }, &ship(&[0]));
    assert_eq!((answer, over.movements), (ACCEPTED, 8_192_001));
    assert_eq!(counted(over, &ship(&[])).0, refused(25, NET, 0));
}

#[test]
fn in_order_25_4_net_weights_movements_24() {
    let (bad, out) = (vec![0, 0], Fleet { ships: 1_001, added: MOST + 1, ..ZEROS });
    let full = Fleet { ships: 1_000, removed: MOST, ..ZEROS };
    let near = Fleet { removed: MOST, ..ZEROS };
    let (net, kilograms, list) = ship(&[0]);
    let told = |record, net: &[u8], weights: &[u8], movements: &[u8]| {
        counted(record, &(net.to_vec(), weights.to_vec(), movements.to_vec())).0
    };
    assert_eq!(told(out, &bad, &bad, &bad), refused(25, NET, 0));
    assert_eq!(told(full, &bad, &bad, &bad), refused(4, ARGUMENT, 0));
    assert_eq!(told(near, &bad, &bad, &bad), refused(1, NET, 0));
    assert_eq!(told(near, &followed(&net, &[0]), &bad, &bad), refused(3, NET, 65));
    assert_eq!(told(near, &net, &bad, &bad), refused(1, WEIGHTS, 0));
    assert_eq!(told(near, &net, &weights(&[1]), &bad), refused(17, WEIGHTS, 5));
    assert_eq!(told(near, &net, &followed(&kilograms, &[0]), &bad), refused(3, WEIGHTS, 15));
    assert_eq!(told(near, &net, &kilograms, &bad), refused(1, MOVEMENTS, 0));
    assert_eq!(told(near, &net, &kilograms, &followed(&list, &[0])), refused(3, MOVEMENTS, 7));
    assert_eq!(told(near, &net, &kilograms, &list), refused(24, NET, 0));
    assert_eq!(told(near, &net, &kilograms, &movements(&[])), ACCEPTED);
}

/// A ship and its figures at the start and where its run ends.
fn any_ship(random: &mut Random) -> (Ship, i64, i64) {
    let style = random.pick(&[Style::Small, Style::Edges, Style::Lively]);
    let net = net(random, style, 4, 3, 12);
    let (sheet, kilograms) =
        (net.sheet_in(form(random)), weights(&generator::weights(random, net.pairs.len())));
    let list = movements(&list(random, &net, 12));
    let mut marking: Vec<u32> = net.pairs.iter().map(|pair| pair.1).collect();
    let first = figure(&sheet, &kilograms, &marking).unwrap();
    run(&sheet, &list, &mut marking);
    let last = figure(&sheet, &kilograms, &marking).unwrap();
    ((sheet, kilograms, list), first, last)
}

#[test]
fn starting_figures_plus_added_less_removed_are_the_last_figures() {
    let mut random = Random::new(101);
    for _ in 0..20 {
        let (mut record, mut first, mut last, mut ships) = (ZEROS, 0, 0, 0);
        for _ in 0..60 {
            let (mut ship, starts, ends) = any_ship(&mut random);
            if random.once_in(8) {
                ship.2.pop();
            }
            let (answer, after) = counted(record, &ship);
            if answer == ACCEPTED {
                (first, last, ships) = (first + starts, last + ends, ships + 1);
            }
            record = after;
            assert_eq!(first + record.added - record.removed, last);
            assert_eq!(record.ships, ships);
            assert!(record.refused.iter().sum::<u64>() <= ships);
        }
    }
}
