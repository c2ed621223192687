//! A mode's rules at all pairs, four side by side: for nets of few pairs or many arcs.

use crate::kernel::{Reach, Rule, arc_counts, capacities};
use crate::layout::{Arc, Layout};

/// Four numbers side by side.
#[derive(Clone, Copy)]
#[repr(align(16))]
struct Four([u32; 4]);

impl Four {
    #[inline(always)]
    fn less(self, other: Four) -> Four {
        let (Four([a, b, c, d]), Four([e, f, g, h])) = (self, other);
        Four([a.wrapping_sub(e), b.wrapping_sub(f), c.wrapping_sub(g), d.wrapping_sub(h)])
    }

    #[inline(always)]
    fn plus(self, other: Four) -> Four {
        let (Four([a, b, c, d]), Four([e, f, g, h])) = (self, other);
        Four([a.wrapping_add(e), b.wrapping_add(f), c.wrapping_add(g), d.wrapping_add(h)])
    }

    #[inline(always)]
    fn or(self, other: Four) -> Four {
        let (Four([a, b, c, d]), Four([e, f, g, h])) = (self, other);
        Four([a | e, b | f, c | g, d | h])
    }

    /// Whether one of the four, as a signed number, is below zero.
    #[inline(always)]
    fn any_below_zero(self) -> bool {
        let Four([a, b, c, d]) = self;
        ((a | b | c | d) as i32) < 0
    }
}

/// The rules of a mode at four pairs.
#[derive(Clone, Copy)]
struct Block {
    pre: Four,
    span: Four,
    post: Four,
}

const BLANK: Block = {
    let Rule { pre, span, post } = Rule::BLANK;
    Block { pre: Four([pre; 4]), span: Four([span; 4]), post: Four([post; 4]) }
};

impl Block {
    /// The counts after firing; a sign is left in the faults where one of the four is not enabled.
    #[inline(always)]
    fn fired(&self, counts: Four, faults: &mut Four) -> Four {
        let left = counts.less(self.pre);
        *faults = faults.or(left).or(self.span.less(left));
        left.plus(self.post)
    }

    #[inline(always)]
    fn unfired(&self, counts: Four) -> Four {
        counts.less(self.post).plus(self.pre)
    }
}

/// One row of blocks for each mode, one after another.
fn blocks_of(layout: &Layout, width: usize) -> Vec<Block> {
    let capacities = capacities(layout);
    let mut blocks = vec![BLANK; layout.modes * width];
    for bytes in &*layout.arcs {
        let arc = Arc::of(bytes);
        let rule = Rule::of(arc, layout.room(capacities[arc.pair()], arc.pre));
        let (block, lane) = (&mut blocks[arc.mode() * width + arc.pair() / 4], arc.pair() % 4);
        block.pre.0[lane] = rule.pre;
        block.span.0[lane] = rule.span;
        block.post.0[lane] = rule.post;
    }
    blocks
}

/// Runs the list until a movement is refused. The marking is what those before it gave.
pub fn run_list(layout: &Layout, list: &[[u8; 2]], marking: &mut [u32; 256]) -> Reach {
    let counts = marking.as_chunks_mut().0;
    match layout.pairs.div_ceil(4) {
        1 => narrow::<1>(layout, list, counts),
        2 => narrow::<2>(layout, list, counts),
        3 => narrow::<3>(layout, list, counts),
        4 => narrow::<4>(layout, list, counts),
        5 | 6 => narrow::<6>(layout, list, counts),
        7 | 8 => narrow::<8>(layout, list, counts),
        width => wide(layout, list, &mut counts[..width]),
    }
}

/// Rows of a width known beforehand: the counts stay in registers.
fn narrow<const WIDTH: usize>(layout: &Layout, list: &[[u8; 2]], marking: &mut [[u32; 4]]) -> Reach {
    let (blocks, arc_counts) = (blocks_of(layout, WIDTH), arc_counts(layout));
    let rows = blocks.as_chunks::<WIDTH>().0;
    let mut counts = [Four([0; 4]); WIDTH];
    for (four, given) in counts.iter_mut().zip(&*marking) {
        *four = Four(*given);
    }
    let mut reach = Reach { accepted: 0, arcs: 0 };
    for movement in list {
        let mode = usize::from(u16::from_be_bytes(*movement));
        let Some(row) = rows.get(mode) else { break };
        reach.arcs += usize::from(arc_counts[mode & 255]);
        let mut faults = Four([0; 4]);
        for at in 0..WIDTH {
            counts[at] = row[at].fired(counts[at], &mut faults);
        }
        if faults.any_below_zero() {
            for at in 0..WIDTH {
                counts[at] = row[at].unfired(counts[at]);
            }
            break;
        }
        reach.accepted += 1;
    }
    for (four, given) in counts.iter().zip(marking) {
        *given = four.0;
    }
    reach
}

/// Rows of any width.
fn wide(layout: &Layout, list: &[[u8; 2]], counts: &mut [[u32; 4]]) -> Reach {
    let width = counts.len();
    let (blocks, arc_counts) = (blocks_of(layout, width), arc_counts(layout));
    let mut arcs = 0;
    for (accepted, movement) in list.iter().enumerate() {
        let mode = usize::from(u16::from_be_bytes(*movement));
        let from = width * mode;
        let Some(row) = blocks.get(from..from + width) else { return Reach { accepted, arcs } };
        arcs += usize::from(arc_counts[mode & 255]);
        let mut faults = Four([0; 4]);
        for (block, four) in row.iter().zip(&mut *counts) {
            *four = block.fired(Four(*four), &mut faults).0;
        }
        if faults.any_below_zero() {
            for (block, four) in row.iter().zip(counts) {
                *four = block.unfired(Four(*four)).0;
            }
            return Reach { accepted, arcs };
        }
    }
    Reach { accepted: list.len(), arcs }
}
