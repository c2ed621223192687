//! "Net sheet": its fields from left to right.

use std::ops::RangeInclusive;

use crate::answer::{Answer, Refusal, Thing};
use crate::arc::{Arc, bound, number, read_arc, read_arc_of};
use crate::bound::Bound;
use crate::form::Form;
use crate::kinds::Mode;
use crate::limits::{ARCS, COLOURS, PLACES, SHORT_ARC_BYTES, TOTAL, TRANSITIONS};
use crate::net::Net;
use crate::rule::Rule;
use crate::sheet::{Read, Sheet, answer_and_taken, whole};
use crate::version::Version;

/// Reads a net sheet at the start of a run: the answer, and how many bytes the sheet takes.
pub fn read_net(run: &[u8]) -> (Answer, usize) {
    answer_and_taken(&net_at(run))
}

/// A net sheet that is a call's whole argument: "every other call takes either version".
pub fn whole_net(run: &[u8]) -> Result<Net, Answer> {
    whole_net_of(run, &Version::BOTH)
}

/// A net sheet of one of these versions that is a call's whole argument.
pub fn whole_net_of(run: &[u8], versions: &[Version]) -> Result<Net, Answer> {
    whole(run, Thing::Net, net_of(run, versions))
}

/// The net at the start of a run of bytes.
pub fn net_at(run: &[u8]) -> Read<Net> {
    net_of(run, &Version::BOTH)
}

fn net_of(run: &[u8], versions: &[Version]) -> Read<Net> {
    let mut sheet = Sheet::open(run, Thing::Net, versions)?;
    let form = form(&mut sheet)?;
    let places = count(&mut sheet, 1..=PLACES)?;
    let transitions = count(&mut sheet, 0..=TRANSITIONS)?;
    let colours = counts(&mut sheet, places)?;
    let modes = counts(&mut sheet, transitions)?;
    let (capacity, first) = pairs(&mut sheet, colours.iter().sum())?;
    let mut net = Net { form, colours, modes, capacity, first, arcs: Vec::new() };
    net.arcs = match form.version() {
        Version::One => arcs(&mut sheet, net.mode_count(), net.pair_count())?,
        Version::Two => arcs_of_modes(&mut sheet, net.all_modes(), net.pair_count())?,
    };
    Ok((net, sheet.close()?))
}

/// The version, and the rule byte of version 2: "4 for another rule byte" than 0 and 1.
fn form(sheet: &mut Sheet) -> Result<Form, Answer> {
    if sheet.version() == Version::One {
        return Ok(Form::One);
    }
    let offset = sheet.offset();
    let byte = sheet.one()?;
    let rule = Rule::BOTH.into_iter().find(|&rule| rule as u8 == byte);
    rule.map(Form::Two).ok_or(sheet.refuse(Refusal::Count, offset))
}

/// "A count outside its limits": 4 at the count field.
fn count(sheet: &mut Sheet, limits: RangeInclusive<u16>) -> Result<u16, Answer> {
    let offset = sheet.offset();
    let count = sheet.two()?;
    if !limits.contains(&count) {
        return Err(sheet.refuse(Refusal::Count, offset));
    }
    Ok(count)
}

/// Colours of each place, or modes of each transition: 4 too where "the running total passes 256".
fn counts(sheet: &mut Sheet, fields: u16) -> Result<Vec<u16>, Answer> {
    let mut counts = Vec::with_capacity(fields.into());
    let mut total = 0;
    for _ in 0..fields {
        let offset = sheet.offset();
        let count = count(sheet, 1..=COLOURS)?;
        total += count;
        if total > TOTAL {
            return Err(sheet.refuse(Refusal::Count, offset));
        }
        counts.push(count);
    }
    Ok(counts)
}

/// "For each pair K and the first marking (4 bytes each)"; "for the first marking 5 comes before 9".
fn pairs(sheet: &mut Sheet, pairs: u16) -> Result<(Vec<Bound>, Vec<u32>), Answer> {
    let room = usize::from(pairs);
    let (mut capacities, mut first) = (Vec::with_capacity(room), Vec::with_capacity(room));
    for _ in 0..pairs {
        let capacity = bound(sheet)?;
        let offset = sheet.offset();
        let count = number(sheet)?;
        if capacity.is_below(count) {
            return Err(sheet.refuse(Refusal::AboveCapacity, offset));
        }
        capacities.push(capacity);
        first.push(count);
    }
    Ok((capacities, first))
}

/// "Arc count (2 bytes, 0..2,048); the arcs."
fn arcs(sheet: &mut Sheet, modes: usize, pairs: usize) -> Result<Vec<Arc>, Answer> {
    let count = count(sheet, 0..=ARCS)?;
    let mut arcs: Vec<Arc> = Vec::with_capacity(count.into());
    for _ in 0..count {
        let arc = read_arc(sheet, modes, pairs, arcs.last())?;
        arcs.push(arc);
    }
    Ok(arcs)
}

/// "For each mode, a 2-byte arc count and that many arcs": 4 "at the arc count whose running total passes 2,048".
fn arcs_of_modes(
    sheet: &mut Sheet,
    modes: impl Iterator<Item = Mode>,
    pairs: usize,
) -> Result<Vec<Arc>, Answer> {
    let mut arcs: Vec<Arc> = Vec::with_capacity(sheet.left() / SHORT_ARC_BYTES);
    for mode in modes {
        let offset = sheet.offset();
        let count = sheet.two()?;
        if arcs.len() + usize::from(count) > usize::from(ARCS) {
            return Err(sheet.refuse(Refusal::Count, offset));
        }
        for _ in 0..count {
            let arc = read_arc_of(sheet, mode, pairs, arcs.last())?;
            arcs.push(arc);
        }
    }
    Ok(arcs)
}
