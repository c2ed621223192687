//! Where the parts of an accepted net sheet lie.

use std::borrow::Cow;
use std::ops::RangeInclusive;

use crate::answer::{Answer, LARGEST, NET};
use crate::fault;
use crate::sheet::{open, two};

/// The parts of an accepted net sheet.
pub struct Layout<'a> {
    /// Its version, 1 or 2.
    pub version: u8,
    /// Whether its rule byte is 1: "M + Post ≤ K + Pre".
    pub weak: bool,
    /// How many bytes the sheet takes, 4 + L.
    pub length: usize,
    /// How many pairs the net has.
    pub pairs: usize,
    /// How many modes it has.
    pub modes: usize,
    /// Colours of each place, 2 bytes each.
    pub colours: &'a [u8],
    /// Modes of each transition, 2 bytes each.
    pub mode_counts: &'a [u8],
    /// K and the first marking of each pair.
    pub table: &'a [[u8; 8]],
    /// Its arcs, 16 bytes each: those of version 2 with their modes put before them.
    pub arcs: Cow<'a, [[u8; 16]]>,
}

/// Reads a net sheet at the start of a run: the answer, and how many bytes the sheet takes.
pub fn read_net(run: &[u8]) -> (Answer, usize) {
    match net_at(run) {
        Ok(layout) => (Answer::ACCEPTED, layout.length),
        Err(answer) => (answer, 0),
    }
}

/// How many pairs, modes and arcs a net has: the net's refusals, then these.
pub fn size(net: &[u8]) -> Result<[usize; 3], Answer> {
    whole_net(net).map(|layout| [layout.pairs, layout.modes, layout.arcs.len()])
}

/// The versions of a net sheet.
const EITHER: RangeInclusive<u8> = 1..=2;

/// A net sheet that is a call's whole argument: left-over bytes are 3 at 4 + L.
pub fn whole_net(run: &[u8]) -> Result<Layout<'_>, Answer> {
    whole_net_of(run, EITHER)
}

/// A net sheet of these versions that is a call's whole argument.
pub fn whole_net_of(run: &[u8], versions: RangeInclusive<u8>) -> Result<Layout<'_>, Answer> {
    let layout = net_of(run, versions)?;
    if run.len() > layout.length {
        return Err(Answer::refused(3, NET, layout.length));
    }
    Ok(layout)
}

/// The net at the start of a run of bytes.
pub fn net_at(run: &[u8]) -> Result<Layout<'_>, Answer> {
    net_of(run, EITHER)
}

fn net_of(run: &[u8], versions: RangeInclusive<u8>) -> Result<Layout<'_>, Answer> {
    let sheet = open(run, NET, versions)?;
    parts(sheet).ok_or_else(|| fault::of_net(sheet))
}

/// Where the place count stands: in version 2 "a rule byte follows the version".
pub fn places_at(sheet: &[u8]) -> usize {
    if sheet[4] == 2 { 6 } else { 5 }
}

/// The parts of a sheet that has no fault.
fn parts(sheet: &[u8]) -> Option<Layout<'_>> {
    let (version, at) = (sheet[4], places_at(sheet));
    let (places, transitions) = (two(sheet, at)?, two(sheet, at + 2)?);
    if places == 0 || places > 64 || transitions > 64 || (version == 2 && sheet[5] > 1) {
        return None;
    }
    let (colours, rest) = sheet[at + 4..].split_at_checked(2 * places)?;
    let (mode_counts, rest) = rest.split_at_checked(2 * transitions)?;
    let (pairs, modes) = (total(colours)?, total(mode_counts)?);
    let (table, rest) = rest.split_at_checked(8 * pairs)?;
    let table = table.as_chunks().0;
    if !table_holds(table) {
        return None;
    }
    let test = Test::of(pairs);
    let arcs = match version {
        1 => Cow::Borrowed(arcs_at(rest, modes, test)?),
        _ => Cow::Owned(arcs_with_modes(rest, modes, test)?),
    };
    let weak = version == 2 && sheet[5] == 1;
    Some(Layout { version, weak, length: sheet.len(), pairs, modes, colours, mode_counts, table, arcs })
}

/// "Arc count (2 bytes, 0..2,048); the arcs."
fn arcs_at(bytes: &[u8], modes: usize, mut test: Test) -> Option<&[[u8; 16]]> {
    let (count, arcs) = bytes.split_first_chunk::<2>()?;
    let count = usize::from(u16::from_be_bytes(*count));
    if count > 2_048 || arcs.len() != 16 * count {
        return None;
    }
    let arcs = arcs.as_chunks().0;
    arcs.iter().map(Arc::of).for_each(|arc| test.arc(arc));
    // The keys rise, so that the last mode is the highest.
    let modes_hold = arcs.last().is_none_or(|bytes| Arc::of(bytes).mode() < modes);
    (modes_hold && test.holds()).then_some(arcs)
}

/// "For each mode, a 2-byte arc count and that many arcs of 14 bytes without the mode": the mode is put before each.
fn arcs_with_modes(bytes: &[u8], modes: usize, mut test: Test) -> Option<Vec<[u8; 16]>> {
    // How many arcs there are follows from the length, where each mode has its count.
    let length = bytes.len().checked_sub(2 * modes)?;
    if length > 14 * 2_048 {
        return None;
    }
    let (mut arcs, mut rest) = (Vec::with_capacity(length / 14), bytes);
    for mode in 0..modes as u16 {
        let (own, after) = rest.split_at_checked(2 + 14 * two(rest, 0)?)?;
        arcs.extend(own[2..].as_chunks().0.iter().map(|tail| {
            let bytes = with_mode(mode, tail);
            test.arc(Arc::of(&bytes));
            bytes
        }));
        rest = after;
    }
    (rest.is_empty() && test.holds()).then_some(arcs)
}

/// An arc of version 2 as version 1 has it.
#[inline(always)]
fn with_mode(mode: u16, tail: &[u8; 14]) -> [u8; 16] {
    let eight = |bytes: Option<&[u8; 8]>| u64::from_be_bytes(*bytes.expect("14 are more than 8"));
    let (pair_and_pre, post_and_inhibitor) = (eight(tail.first_chunk()) >> 16, eight(tail.last_chunk()));
    let high = u64::from(mode) << 48 | pair_and_pre;
    (u128::from(high) << 64 | u128::from(post_and_inhibitor)).to_be_bytes()
}

/// The total of counts of 1..64, where it is at most 256.
fn total(counts: &[u8]) -> Option<usize> {
    let mut total = 0;
    for count in counts.as_chunks().0 {
        let count = usize::from(u16::from_be_bytes(*count));
        if count == 0 || count > 64 {
            return None;
        }
        total += count;
    }
    (total <= 256).then_some(total)
}

/// K and the first marking of a pair.
#[inline(always)]
pub fn pair_of(bytes: &[u8; 8]) -> (u32, u32) {
    let both = u64::from_be_bytes(*bytes);
    ((both >> 32) as u32, both as u32)
}

/// K is 0..1,000,000 or unbounded, the first marking 0..1,000,000 and not above K.
fn table_holds(table: &[[u8; 8]]) -> bool {
    let mut bad = false;
    for bytes in table {
        let (capacity, count) = pair_of(bytes);
        bad |= capacity.wrapping_add(1) > LARGEST + 1;
        bad |= count > capacity.min(LARGEST);
    }
    !bad
}

/// An arc's fields.
#[derive(Clone, Copy)]
pub struct Arc {
    /// The mode times 65,536 plus the pair: "arcs rise strictly by mode, then pair".
    pub key: u32,
    /// Pre.
    pub pre: u32,
    /// Post.
    pub post: u32,
    /// I, 4,294,967,295 where unbounded.
    pub inhibitor: u32,
}

impl Arc {
    /// The arc whose bytes these are.
    #[inline(always)]
    pub fn of(bytes: &[u8; 16]) -> Arc {
        let all = u128::from_be_bytes(*bytes);
        let (key, pre) = ((all >> 96) as u32, (all >> 64) as u32);
        Arc { key, pre, post: (all >> 32) as u32, inhibitor: all as u32 }
    }

    /// The mode.
    #[inline(always)]
    pub fn mode(self) -> usize {
        (self.key >> 16) as usize
    }

    /// The pair; those of an accepted sheet are below 256.
    #[inline(always)]
    pub fn pair(self) -> usize {
        usize::from(self.key as u8)
    }
}

/// Whether every arc so far has its pair, is above the one before, holds numbers in range and is not blank.
struct Test {
    last_pair: u64,
    /// The least key that the next arc may have.
    least: u64,
    /// Each difference is below zero, its highest bit set, where its rule is broken: this is all of them together.
    broken: u64,
}

impl Test {
    fn of(pairs: usize) -> Test {
        Test { last_pair: pairs as u64 - 1, least: 0, broken: 0 }
    }

    #[inline(always)]
    fn arc(&mut self, arc: Arc) {
        let (key, most) = (u64::from(arc.key), u64::from(LARGEST));
        self.broken |= key.wrapping_sub(self.least);
        self.least = key + 1;
        self.broken |= self.last_pair.wrapping_sub(key & 0xFFFF);
        self.broken |= most.wrapping_sub(u64::from(arc.pre));
        self.broken |= most.wrapping_sub(u64::from(arc.post));
        self.broken |= (most + 1).wrapping_sub(u64::from(arc.inhibitor.wrapping_add(1)));
        self.broken |= u64::from(arc.pre | arc.post | !arc.inhibitor).wrapping_sub(1);
    }

    fn holds(&self) -> bool {
        self.broken >> 63 == 0
    }
}

impl Layout<'_> {
    /// The arcs of a mode.
    pub fn arcs_of(&self, mode: usize) -> &[[u8; 16]] {
        let from = self.arcs.partition_point(|bytes| Arc::of(bytes).mode() < mode);
        let rest = &self.arcs[from..];
        let count = rest.iter().take_while(|bytes| Arc::of(bytes).mode() == mode).count();
        &rest[..count]
    }

    /// The offset in the sheet of an arc's first byte.
    pub fn arc_offset(&self, arc: usize) -> usize {
        let after = self.arcs.len() - arc;
        match self.version {
            1 => self.length - 16 * after,
            // After it come also the counts of the modes above its own.
            _ => self.length - 14 * after - 2 * (self.modes - 1 - Arc::of(&self.arcs[arc]).mode()),
        }
    }

    /// The capacity K of a pair.
    #[inline(always)]
    pub fn capacity(&self, pair: usize) -> u32 {
        pair_of(&self.table[pair]).0
    }

    /// The most that M + Post may be where K and Pre are these: K, or by the weak rule K + Pre.
    #[inline(always)]
    pub fn room(&self, capacity: u32, pre: u32) -> u32 {
        capacity.saturating_add(if self.weak { pre } else { 0 })
    }
}
