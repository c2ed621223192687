//! The first fault of a refused sheet or movement, in the order of docs/RULES.md.

use std::convert::Infallible;

use crate::answer::{Answer, LARGEST, MOVEMENTS, NET, UNBOUNDED};
use crate::layout::{Arc, Layout, places_at};
use crate::sheet::{four, two};

/// The first fault of a net sheet that has one after its version byte, "the fields left to right".
pub fn of_net(sheet: &[u8]) -> Answer {
    let Err(answer) = fields(sheet);
    answer
}

fn refuse<V>(number: u32, offset: usize) -> Result<V, Answer> {
    Err(Answer::refused(number, NET, offset))
}

/// The fields of a sheet that has a fault: where none is found in them, bytes are left over.
fn fields(sheet: &[u8]) -> Result<Infallible, Answer> {
    let version = sheet[4];
    if version == 2 {
        of_rule(sheet)?;
    }
    let at = places_at(sheet);
    let places = count(sheet, at, 1, 64)?;
    let transitions = count(sheet, at + 2, 0, 64)?;
    let at = at + 4;
    let pairs = counts(sheet, at, places)?;
    let at = at + 2 * places;
    let modes = counts(sheet, at, transitions)?;
    let at = at + 2 * transitions;
    for offset in (at..).step_by(8).take(pairs) {
        of_pair(sheet, offset)?;
    }
    let at = at + 8 * pairs;
    match version {
        1 => of_arcs(sheet, at, pairs, modes),
        _ => of_arcs_of_modes(sheet, at, pairs, modes),
    }
}

/// "4 for another rule byte" than 0 and 1.
fn of_rule(sheet: &[u8]) -> Result<(), Answer> {
    match sheet.get(5) {
        None => refuse(3, 5),
        Some(0 | 1) => Ok(()),
        Some(_) => refuse(4, 5),
    }
}

/// "Arc count (2 bytes, 0..2,048); the arcs."
fn of_arcs(sheet: &[u8], at: usize, pairs: usize, modes: usize) -> Result<Infallible, Answer> {
    let arcs = count(sheet, at, 0, 2_048)?;
    let mut least = 0;
    for offset in (at + 2..).step_by(16).take(arcs) {
        least = of_arc(sheet, offset, pairs, modes, least)? + 1;
    }
    refuse(3, at + 2 + 16 * arcs)
}

/// "For each mode, a 2-byte arc count and that many arcs": 4 "at the arc count whose running total passes 2,048".
fn of_arcs_of_modes(sheet: &[u8], at: usize, pairs: usize, modes: usize) -> Result<Infallible, Answer> {
    let (mut at, mut left) = (at, 2_048);
    for _ in 0..modes {
        let arcs = count(sheet, at, 0, left)?;
        let mut least = 0;
        for offset in (at + 2..).step_by(14).take(arcs) {
            least = of_short_arc(sheet, offset, pairs, least)? + 1;
        }
        (at, left) = (at + 2 + 14 * arcs, left - arcs);
    }
    refuse(3, at)
}

/// "At a field 3 comes before its other rules"; a count outside its limits is 4.
fn count(sheet: &[u8], offset: usize, least: usize, most: usize) -> Result<usize, Answer> {
    match two(sheet, offset) {
        None => refuse(3, offset),
        Some(count) if count < least || count > most => refuse(4, offset),
        Some(count) => Ok(count),
    }
}

/// "Or the running total passes 256."
fn counts(sheet: &[u8], at: usize, fields: usize) -> Result<usize, Answer> {
    let mut total = 0;
    for offset in (at..).step_by(2).take(fields) {
        total += count(sheet, offset, 1, 64)?;
        if total > 256 {
            return refuse(4, offset);
        }
    }
    Ok(total)
}

/// A number 0..1,000,000, or unbounded where that is legal.
fn number(sheet: &[u8], offset: usize, unbounded: bool) -> Result<u32, Answer> {
    match four(sheet, offset) {
        None => refuse(3, offset),
        Some(number) if number <= LARGEST || (unbounded && number == UNBOUNDED) => Ok(number),
        Some(_) => refuse(5, offset),
    }
}

/// "For the first marking 5 comes before 9."
fn of_pair(sheet: &[u8], offset: usize) -> Result<(), Answer> {
    let capacity = number(sheet, offset, true)?;
    let count = number(sheet, offset + 4, false)?;
    if count > capacity { refuse(9, offset + 4) } else { Ok(()) }
}

/// "All 16 bytes must be there, then 6 for mode, 6 for pair, 7, 5 for Pre, Post and I in turn, 8."
fn of_arc(sheet: &[u8], offset: usize, pairs: usize, modes: usize, least: usize) -> Result<usize, Answer> {
    if sheet.len() < offset + 16 {
        return refuse(3, offset);
    }
    let mode = count(sheet, offset, 0, usize::MAX)?;
    let pair = count(sheet, offset + 2, 0, usize::MAX)?;
    if mode >= modes {
        return refuse(6, offset);
    }
    if pair >= pairs {
        return refuse(6, offset + 2);
    }
    if 256 * mode + pair < least {
        return refuse(7, offset);
    }
    of_numbers(sheet, offset, offset + 4)?;
    Ok(256 * mode + pair)
}

/// "7 now compares pairs within a mode": the least pair that is above the one before is told.
fn of_short_arc(sheet: &[u8], offset: usize, pairs: usize, least: usize) -> Result<usize, Answer> {
    if sheet.len() < offset + 14 {
        return refuse(3, offset);
    }
    let pair = count(sheet, offset, 0, usize::MAX)?;
    if pair >= pairs {
        return refuse(6, offset);
    }
    if pair < least {
        return refuse(7, offset);
    }
    of_numbers(sheet, offset, offset + 2)?;
    Ok(pair)
}

/// Pre, Post and I of an arc, from where they stand on.
fn of_numbers(sheet: &[u8], arc: usize, offset: usize) -> Result<(), Answer> {
    let pre = number(sheet, offset, false)?;
    let post = number(sheet, offset + 4, false)?;
    let inhibitor = number(sheet, offset + 8, true)?;
    if (pre, post, inhibitor) == (0, 0, UNBOUNDED) { refuse(8, arc) } else { Ok(()) }
}

/// Why a mode of the net is not enabled: "6, 11 over all pairs, 12, 13, 14", each by its amount.
pub fn of_movement(layout: &Layout, marking: &[u32; 256], mode: usize) -> Answer {
    if mode >= layout.modes {
        return Answer::refused(6, MOVEMENTS, 0);
    }
    let own = layout.arcs_of(mode);
    let count = |arc: Arc| marking[arc.pair()];
    let room = |arc: Arc| layout.room(layout.capacity(arc.pair()), arc.pre);
    // What is compared, and the most that it may be.
    let compared: [&dyn Fn(Arc) -> (u32, u32); 4] = [
        &|arc| (arc.pre, count(arc)),
        &|arc| (count(arc) + arc.post, room(arc)),
        &|arc| (count(arc), arc.inhibitor),
        &|arc| (count(arc) - arc.pre + arc.post, LARGEST),
    ];
    for (number, compared) in (11..).zip(compared) {
        for arc in own.iter().map(Arc::of) {
            let (compared, most) = compared(arc);
            if compared > most {
                return Answer::refused(number, MOVEMENTS, arc.pair()).by(compared - most);
            }
        }
    }
    unreachable!("a refused movement has a fault")
}
