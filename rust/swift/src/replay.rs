//! The text that the program `replay` prints.

use crate::answer::Answer;
use crate::kernel::Reach;
use crate::layout::{Layout, net_at, pair_of};
use crate::list::whole_list;
use crate::run::run_from;
use crate::text::{High, Page, Positions, Word, short};
use crate::weights::{changes_of, weights_at};

/// "Standard input: a net sheet, a weight sheet, a movement sheet, then nothing."
pub fn replay(input: &[u8]) -> Vec<u8> {
    if input.len() > 65_536 {
        return b"long\n".to_vec();
    }
    match sheets(input) {
        Ok((layout, weights, list)) => lines(&layout, &weights, list),
        Err(bad) => format!("bad {} {} {}\n", bad.thing, bad.number, bad.position).into_bytes(),
    }
}

/// The three sheets of an input that is not bad.
type Sheets<'a> = (Layout<'a>, [i32; 256], &'a [[u8; 2]]);

fn sheets(input: &[u8]) -> Result<Sheets<'_>, Answer> {
    let layout = net_at(input)?;
    let (weights, rest) = weights_at(&input[layout.length..], layout.pairs)?;
    Ok((layout, weights, whole_list(rest)?))
}

fn lines(layout: &Layout, weights: &[i32; 256], list: &[[u8; 2]]) -> Vec<u8> {
    let (mut marking, mut figure) = ([0; 256], 0);
    for ((count, bytes), &weight) in marking.iter_mut().zip(layout.table).zip(weights) {
        *count = pair_of(bytes).1;
        figure += i64::from(weight) * i64::from(*count);
    }
    let (Reach { accepted, .. }, answer) = run_from(layout, list, &mut marking);
    let (mut text, mut page) = (Vec::with_capacity(32 * (accepted + 4)), Page::new());
    let at = page.word(0, Word::of(b"start "));
    let mut high = High::new();
    let at = page.number(at, figure, &mut high);
    let mut at = page.end_line(at, &mut text);
    let modes = modes_of(layout, weights);
    let mut positions = Positions::new();
    for movement in &list[..accepted] {
        // "An accepted line is position in the list counted from 1, mode, answer, figure."
        let mode = &modes[usize::from(movement[1])];
        figure += mode.change;
        at = page.word(at, positions.next());
        at = page.word(at, mode.text);
        at = page.number(at, figure, &mut high);
        at = page.end_line(at, &mut text);
    }
    if let Some(refused) = list.get(accepted) {
        at = page.word(at, Word::of(b"refused "));
        let mode = i64::from(u16::from_be_bytes(*refused));
        let Answer { number, position, amount, .. } = answer;
        let fields = [accepted as i64 + 1, mode, number.into(), position as i64, amount as i64];
        at = line(&mut page, at, &fields);
    }
    at = page.word(at, Word::of(b"end "));
    at = line(&mut page, at, &[accepted as i64, figure]);
    page.finish(at, text)
}

/// The rest of a line: numbers with single spaces.
fn line(page: &mut Page, mut at: usize, numbers: &[i64]) -> usize {
    for &number in numbers {
        at = page.number(at, number, &mut High::new());
        at = page.word(at, Word::of(b" "));
    }
    // The last space becomes the newline.
    page.word(at - 1, Word::of(b"\n"))
}

/// What an accepted line says of its mode.
#[derive(Clone, Copy)]
struct Mode {
    /// The mode's number and the answer 0, with a space before and after each.
    text: Word,
    /// Its weight change.
    change: i64,
}

fn modes_of(layout: &Layout, weights: &[i32; 256]) -> [Mode; 256] {
    let mut modes = [Mode { text: Word(0, 0), change: 0 }; 256];
    for (number, mode) in modes.iter_mut().enumerate().take(layout.modes) {
        let Word(digits, length) = short(number as u32);
        // The digits, whose bytes above their length are 0, between " " and " 0 ".
        let around = u64::from(b' ') | u64::from_le_bytes(*b" 0 \0\0\0\0\0") << (8 * length + 8);
        mode.text = Word(digits << 8 | around, length + 4);
    }
    for (mode, change) in modes.iter_mut().zip(changes_of(layout, weights)) {
        mode.change = change;
    }
    modes
}
