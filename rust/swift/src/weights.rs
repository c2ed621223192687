//! "Weight sheet. Pair count (2 bytes), then one signed 4-byte weight in kilograms for each pair."

use crate::answer::{Answer, WEIGHTS};
use crate::layout::{Arc, Layout};
use crate::sheet::{four, open, two};

/// The weights at the start of a run, 0 where there is no pair, and the bytes after their sheet.
pub fn weights_at(run: &[u8], pairs: usize) -> Result<([i32; 256], &[u8]), Answer> {
    let sheet = open(run, WEIGHTS, 1..=1)?;
    match two(sheet, 5) {
        None => return Err(Answer::refused(3, WEIGHTS, 5)),
        Some(count) if count != pairs => return Err(Answer::refused(17, WEIGHTS, 5)),
        Some(_) => {}
    }
    let mut weights = [0; 256];
    for (pair, weight) in weights.iter_mut().enumerate().take(pairs) {
        let offset = 7 + 4 * pair;
        match four(sheet, offset).map(|field| field as i32) {
            None => return Err(Answer::refused(3, WEIGHTS, offset)),
            Some(field) if field.unsigned_abs() > 1_000_000 => {
                return Err(Answer::refused(5, WEIGHTS, offset));
            }
            Some(field) => *weight = field,
        }
    }
    if sheet.len() > 7 + 4 * pairs {
        return Err(Answer::refused(3, WEIGHTS, 7 + 4 * pairs));
    }
    Ok((weights, &run[sheet.len()..]))
}

/// "A mode's weight change is the sum of weight times (Post less Pre)": of each mode, 0 where there is none.
pub fn changes_of(layout: &Layout, weights: &[i32; 256]) -> [i64; 256] {
    let mut changes = [0; 256];
    for bytes in &*layout.arcs {
        let arc = Arc::of(bytes);
        let flow = i64::from(arc.post) - i64::from(arc.pre);
        changes[arc.mode() & 255] += i64::from(weights[arc.pair()]) * flow;
    }
    changes
}
