//! Damage of every kind that the refusal table names.

use reference::Form;
use reference::build::{OPEN, PlainNet, sheet};

use crate::case::Case;
use generator::{Random, total};

/// One fault more, in any of the things.
pub fn damage(random: &mut Random, case: &mut Case, plain: &mut PlainNet) {
    match random.below(20) {
        0..=2 => spoil_sheet(random, &mut case.net),
        3..=7 => {
            spoil_net(random, plain);
            case.net = plain.sheet_in(case.form);
        }
        8 => spoil_sheet(random, &mut case.weights),
        9 => spoil_weights(random, case),
        10 => spoil_sheet(random, &mut case.movements),
        11 => spoil_movements(random, case),
        12 => spoil_marking(random, case),
        13 => {
            let length = random.below(case.claim.len() + 3);
            case.claim.resize(length, 1);
        }
        14 => case.mode = random.pick(&[total(&plain.modes) as u16, 256, 65_535]),
        15 => {
            let length = random.pick(&[0, 65, 66, 8_192]);
            case.step.resize(length, 0);
        }
        16 => {
            let length = random.below(case.both.len() + 3);
            case.both.resize(length, 1);
        }
        17 => case.pair = random.pick(&[plain.pairs.len() as u16, 256, 65_535]),
        18 if case.form != Form::One => spoil_version_2(random, &mut case.net, plain),
        _ => case.room = random.below(case.net.len() + 64),
    }
}

/// What version 2 has alone: its rule byte, which may not be there, and the modes' arc counts.
fn spoil_version_2(random: &mut Random, net: &mut Vec<u8>, plain: &PlainNet) {
    let modes = total(&plain.modes);
    match random.below(4) {
        0 => put(net, 5, &[random.pick(&[2, 3, 255])]),
        1 => *net = vec![0, 0, 0, 1, 2],
        _ if modes == 0 => put(net, 5, &[2]),
        _ => {
            let mode = random.below(modes) as u16;
            let own = plain.arcs.iter().filter(|arc| arc.mode == mode).count() as u16;
            let count = random.pick(&[2_048, 2_049, 65_535, own + 1, own.saturating_sub(1)]);
            put(net, plain.count_offset_2(mode) as usize, &count.to_be_bytes());
        }
    }
}

/// 1, 2, 3 of any sheet: cut off, its version, its length, a field cut in two, bytes left over inside and after it.
fn spoil_sheet(random: &mut Random, sheet: &mut Vec<u8>) {
    let length = sheet.len();
    match random.below(9) {
        0 => sheet.truncate(random.below(length.max(1))),
        1 => sheet.truncate(random.below(4)),
        2 => put(sheet, 0, &random.pick(&[OPEN, length as u32, 1 << 31, length as u32 + 1]).to_be_bytes()),
        3 => put(sheet, 4, &[random.pick(&[0, 1, 2, 3, 255])]),
        4 => put(sheet, 0, &[0; 4]),
        5 => {
            sheet.truncate(5 + random.below(length.max(6) - 5));
            relabel(sheet);
        }
        6 => {
            sheet.extend((0..1 + random.below(20)).map(|_| random.next() as u8));
            relabel(sheet);
        }
        7 => sheet.extend((0..1 + random.below(20)).map(|_| random.next() as u8)),
        _ => {
            let at = random.below(length.max(1));
            put(sheet, at, &[random.next() as u8]);
        }
    }
}

/// L says how long the bytes are; where there are fewer than 4, it is near its largest, and they hold a part of it.
pub fn relabel(sheet: &mut [u8]) {
    let length = (sheet.len() as u32).wrapping_sub(4);
    put(sheet, 0, &length.to_be_bytes());
}

fn put(sheet: &mut [u8], at: usize, bytes: &[u8]) {
    sheet.iter_mut().skip(at).zip(bytes).for_each(|(old, new)| *old = *new);
}

/// 4 to 9 of a net, before it is written.
fn spoil_net(random: &mut Random, net: &mut PlainNet) {
    let (place, pair) = (random.below(net.colours.len()), random.below(net.pairs.len()));
    if net.arcs.is_empty() || random.once_in(3) {
        return match random.below(7) {
            0 => net.colours[place] = random.pick(&[0, 65, 256, 65_535]),
            1 => net.modes.push(random.pick(&[0, 65, 256])),
            2 => net.colours.extend(vec![64; 1 + random.below(64)]),
            3 => net.modes.extend(vec![64; 1 + random.below(64)]),
            4 => net.pairs[pair].0 = random.pick(&[1_000_001, OPEN - 1]),
            5 => net.pairs[pair].1 = random.pick(&[1_000_001, OPEN]),
            _ => net.pairs[pair] = random.pick(&[(0, 1), (5, 6), (999_999, 1_000_000)]),
        };
    }
    let (at, other) = (random.below(net.arcs.len()), random.below(net.arcs.len()));
    let (modes, pairs) = (total(&net.modes) as u16, total(&net.colours) as u16);
    let arc = &mut net.arcs[at];
    match random.below(8) {
        0 => arc.mode = random.pick(&[modes, 256, 65_535]),
        1 => arc.pair = random.pick(&[pairs, 256, 65_535]),
        2 => arc.pre = random.pick(&[1_000_001, OPEN]),
        3 => arc.post = random.pick(&[1_000_001, OPEN]),
        4 => arc.inhibitor = random.pick(&[1_000_001, OPEN - 1]),
        5 => (arc.pre, arc.post, arc.inhibitor) = (0, 0, OPEN),
        6 if at != other => net.arcs.swap(at, other),
        _ => net.arcs.insert(at, net.arcs[at]),
    }
}

/// 17 and 5 of weights.
fn spoil_weights(random: &mut Random, case: &mut Case) {
    match random.below(3) {
        0 => put(&mut case.weights, 5, &random.pick(&[0u16, 1, 300, 65_535]).to_be_bytes()),
        1 => case.pairs = random.pick(&[0, case.pairs.wrapping_add(1), 65_536, usize::MAX]),
        _ => {
            let weight = random.pick(&[1_000_001, -1_000_001, i32::MAX, i32::MIN]);
            let at = 7 + 4 * random.below((case.weights.len() / 4).max(2) - 1);
            put(&mut case.weights, at, &weight.to_be_bytes());
        }
    }
}

/// A lone byte, too many movements, or both.
fn spoil_movements(random: &mut Random, case: &mut Case) {
    let bytes = match random.below(4) {
        0 => 1 + 2 * random.below(20),
        1 => 2 * 8_193,
        2 => 2 * 8_193 + 1,
        _ => 2 * 8_192,
    };
    case.movements = sheet(&vec![0; bytes]);
}

/// 17, 5 and 9 of a marking.
fn spoil_marking(random: &mut Random, case: &mut Case) {
    let (length, pair) = (random.below(case.marking.len() + 3), random.below(case.marking.len().max(1)));
    match random.below(3) {
        0 => case.marking.resize(length, 1),
        _ => {
            let odd = random.pick(&[1_000_001, OPEN, 1_000_000, 9, 10]);
            case.marking.iter_mut().skip(pair).take(1).for_each(|count| *count = odd);
        }
    }
}
