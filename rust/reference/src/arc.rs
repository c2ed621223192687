//! "An arc is mode (2 bytes), pair (2), Pre, Post, I (4 each), 16 bytes"; in version 2 "14 bytes without the mode".

use crate::answer::{Answer, Refusal};
use crate::bound::Bound;
use crate::build::PlainArc;
use crate::kinds::{Mode, Pair};
use crate::limits::{ARC_BYTES, LARGEST, SHORT_ARC_BYTES};
use crate::sheet::Sheet;

/// "At each mode and pair stand Pre, Post and an inhibitor I."
#[derive(Clone, Copy, Debug, PartialEq, Eq)]
pub struct Flow {
    pub pre: u32,
    pub post: u32,
    pub inhibitor: Bound,
}

/// "Where no arc is written, Pre = Post = 0 and I is unbounded."
pub const BLANK: Flow = Flow { pre: 0, post: 0, inhibitor: Bound::Unbounded };

/// One arc of a net sheet.
#[derive(Clone, Copy, Debug)]
pub struct Arc {
    /// The offset of the arc's first byte in its sheet.
    pub offset: usize,
    pub mode: Mode,
    pub pair: Pair,
    pub flow: Flow,
}

impl Arc {
    /// What the sheet says of it.
    pub fn plain(&self) -> PlainArc {
        let Flow { pre, post, inhibitor } = self.flow;
        PlainArc { mode: self.mode.0, pair: self.pair.0, pre, post, inhibitor: inhibitor.field() }
    }
}

/// "All 16 bytes must be there, then 6 for mode, 6 for pair, 7, 5 for Pre, Post and I in turn, 8."
pub fn read_arc(sheet: &mut Sheet, modes: usize, pairs: usize, before: Option<&Arc>) -> Result<Arc, Answer> {
    let offset = sheet.offset();
    sheet.must_hold(ARC_BYTES)?;
    let mode = Mode(sheet.two()?);
    if mode.index() >= modes {
        return Err(sheet.refuse(Refusal::Absent, offset));
    }
    rest_of_arc(sheet, offset, mode, pairs, before)
}

/// An arc of version 2, of the mode under whose count it stands.
pub fn read_arc_of(sheet: &mut Sheet, mode: Mode, pairs: usize, before: Option<&Arc>) -> Result<Arc, Answer> {
    let offset = sheet.offset();
    sheet.must_hold(SHORT_ARC_BYTES)?;
    rest_of_arc(sheet, offset, mode, pairs, before)
}

/// An arc from its pair on. An arc before it of a lower mode is never above it: in version 2 "7 now compares pairs within a
/// mode". In line: `compare` reads so many arcs that a call for each shows.
#[inline(always)]
fn rest_of_arc(
    sheet: &mut Sheet,
    offset: usize,
    mode: Mode,
    pairs: usize,
    before: Option<&Arc>,
) -> Result<Arc, Answer> {
    let pair_offset = sheet.offset();
    let pair = Pair(sheet.two()?);
    if pair.index() >= pairs {
        return Err(sheet.refuse(Refusal::Absent, pair_offset));
    }
    if before.is_some_and(|before| (before.mode, before.pair) >= (mode, pair)) {
        return Err(sheet.refuse(Refusal::Order, offset));
    }
    let flow = Flow { pre: number(sheet)?, post: number(sheet)?, inhibitor: bound(sheet)? };
    if flow == BLANK {
        return Err(sheet.refuse(Refusal::Blank, offset));
    }
    Ok(Arc { offset, mode, pair, flow })
}

/// "Numbers in net sheets and markings are 0..1,000,000": else 5 at the field.
pub fn number(sheet: &mut Sheet) -> Result<u32, Answer> {
    let offset = sheet.offset();
    let number = sheet.four()?;
    if number > LARGEST {
        return Err(sheet.refuse(Refusal::Range, offset));
    }
    Ok(number)
}

/// "The value 4,294,967,295 means unbounded and is legal for K and I only."
pub fn bound(sheet: &mut Sheet) -> Result<Bound, Answer> {
    let offset = sheet.offset();
    let bound = Bound::of_field(sheet.four()?);
    match bound {
        Bound::Finite(number) if number > LARGEST => Err(sheet.refuse(Refusal::Range, offset)),
        _ => Ok(bound),
    }
}
