//! A net without bounds as PNML text.

use crate::answer::{Answer, NET, UNBOUNDED};
use crate::layout::{Arc, Layout, pair_of, whole_net};
use crate::pnml::*;
use crate::text::short;

/// Writes the text: its length is known from the digits of its numbers before a byte is written.
pub fn export_pnml(net: &[u8], output: &mut [u8]) -> Result<usize, Answer> {
    let layout = whole_net(net)?;
    if let Some(offset) = first_bounded(&layout) {
        return Err(Answer::refused(19, NET, offset));
    }
    let length = length(&layout);
    let mut page = Page { output: output.get_mut(..length).ok_or(Answer::refused(10, NET, 0))?, at: 0 };
    page.put(OPEN);
    let mut line = *PLACE;
    for (pair, bytes) in layout.table.iter().enumerate() {
        patch(&mut line, PAIR_AT, pair);
        page.line(&line, pair_of(bytes).1, PLACE_END);
    }
    let mut arcs = layout.arcs.iter().map(Arc::of).peekable();
    for mode in 0..layout.modes {
        let mut line = *TRANSITION;
        patch(&mut line, MODE_AT, mode);
        page.put(&line);
        let [mut pre, mut post] = arc_lines(mode);
        while let Some(arc) = arcs.next_if(|arc| arc.mode() == mode) {
            if arc.pre > 0 {
                patch_pair(&mut pre, false, arc.pair());
                page.line(&pre, arc.pre, ARC_END);
            }
            if arc.post > 0 {
                patch_pair(&mut post, true, arc.pair());
                page.line(&post, arc.post, ARC_END);
            }
        }
    }
    page.put(CLOSE);
    Ok(length)
}

/// The field of the first finite K, or else of the first finite I.
fn first_bounded(layout: &Layout) -> Option<usize> {
    let bounded = layout.table.iter().position(|bytes| pair_of(bytes).0 != UNBOUNDED);
    let (table_at, inhibitor_at) = match layout.version {
        1 => (9, 12),
        _ => (10, 10),
    };
    let table_at = table_at + layout.colours.len() + layout.mode_counts.len();
    let inhibited = || layout.arcs.iter().position(|bytes| bytes[12..] != [255; 4]);
    bounded
        .map(|pair| table_at + 8 * pair)
        .or_else(|| inhibited().map(|arc| layout.arc_offset(arc) + inhibitor_at))
}

fn length(layout: &Layout) -> usize {
    let places: usize = layout.table.iter().map(|bytes| short(pair_of(bytes).1).1).sum();
    let weight = |number: u32| if number > 0 { PRE.len() + ARC_END.len() + short(number).1 } else { 0 };
    let arcs: usize = layout.arcs.iter().map(Arc::of).map(|arc| weight(arc.pre) + weight(arc.post)).sum();
    let place = PLACE.len() + PLACE_END.len();
    OPEN.len() + place * layout.pairs + places + TRANSITION.len() * layout.modes + arcs + CLOSE.len()
}

/// The output, and how much of it is written.
struct Page<'a> {
    output: &'a mut [u8],
    at: usize,
}

impl Page<'_> {
    #[inline(always)]
    fn put<const N: usize>(&mut self, text: &[u8; N]) {
        self.output[self.at..self.at + N].copy_from_slice(text);
        self.at += N;
    }

    /// A line: eight bytes are written for the number, and those after it are written over.
    #[inline(always)]
    fn line<const N: usize, const M: usize>(&mut self, head: &[u8; N], number: u32, end: &[u8; M]) {
        let digits = short(number);
        self.put(head);
        self.put(&digits.0.to_le_bytes());
        self.at -= 8 - digits.1;
        self.put(end);
    }
}
