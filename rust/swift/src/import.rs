//! A net from the PNML text that export writes: one pass from left to right.

use crate::answer::{ARGUMENT, Answer, NET, UNBOUNDED};
use crate::pnml::*;
use crate::writer::{Counts, Rest};

/// Writes the sheet, of version 1: every pair a place of one colour, every mode a transition of one mode.
pub fn import_pnml(text: &[u8], output: &mut [u8]) -> Result<usize, Answer> {
    let mut reading = Reading::of(text);
    if let Err(at) = reading.all() {
        return Err(Answer::refused(20, NET, at));
    }
    let Reading { markings, modes, arcs, .. } = reading;
    if markings.len() > 64 || modes > 64 {
        return Err(Answer::refused(4, ARGUMENT, 0));
    }
    let counts =
        Counts { places: markings.len(), transitions: modes, pairs: markings.len(), modes, arcs: arcs.len() };
    let length = counts.length(1);
    let mut rest = Rest(output.get_mut(..length).ok_or(Answer::refused(10, NET, 0))?);
    rest.head(1, false, &counts);
    (0..markings.len() + modes).for_each(|_| rest.put([0, 1]));
    for count in markings {
        rest.put((u64::from(UNBOUNDED) << 32 | u64::from(count)).to_be_bytes());
    }
    rest.put((arcs.len() as u16).to_be_bytes());
    for [key, pre, post] in arcs {
        let (high, low) =
            (u64::from(key) << 32 | u64::from(pre), u64::from(post) << 32 | u64::from(UNBOUNDED));
        rest.put((u128::from(high) << 64 | u128::from(low)).to_be_bytes());
    }
    Ok(length)
}

/// What was read of a text.
struct Reading<'a> {
    text: &'a [u8],
    at: usize,
    markings: Vec<u32>,
    modes: usize,
    /// The mode times 65,536 plus the pair, Pre and Post.
    arcs: Vec<[u32; 3]>,
    /// The least pair that an arc of the mode in hand may have.
    next: usize,
    /// Whether the last line was a Pre line: of the pair before `next`.
    after_pre: bool,
}

/// Where no export agrees with the text any more.
type Fault = usize;

impl<'a> Reading<'a> {
    fn of(text: &'a [u8]) -> Reading<'a> {
        let (markings, arcs) = (Vec::with_capacity(256), Vec::with_capacity(2_048));
        Reading { text, at: 0, markings, modes: 0, arcs, next: 0, after_pre: false }
    }

    fn all(&mut self) -> Result<(), Fault> {
        self.literal(OPEN)?;
        while self.line()? {}
        if self.at < self.text.len() { Err(self.at) } else { Ok(()) }
    }

    /// A line, which its fifth, eighth and sixteenth bytes tell from all others; whether it is not the last.
    fn line(&mut self) -> Result<bool, Fault> {
        let byte = |after: usize| self.text.get(self.at + after).copied().unwrap_or(0);
        let [close, place, transition, pre, post] = self.possible();
        match (byte(4), byte(7), byte(15)) {
            (b'<', ..) if close => {
                self.literal(CLOSE)?;
                return Ok(false);
            }
            (b' ', b'p', _) if place => self.place()?,
            (b' ', b't', _) if transition => self.transition()?,
            (b' ', b'a', b'i') if pre => self.arc(false)?,
            (b' ', b'a', b'o') if post => self.arc(true)?,
            _ => return Err(self.fault()),
        }
        Ok(true)
    }

    /// Whether the end, a place, a transition, a Pre line and a Post line are possible here.
    #[inline(always)]
    fn possible(&self) -> [bool; 5] {
        let (places, modes) = (self.markings.len(), self.modes);
        let arc = modes > 0 && self.arcs.len() < 2_048 && self.next < places;
        [places > 0, modes == 0 && places < 256, places > 0 && modes < 256, arc, arc || self.after_pre]
    }

    /// Where the last of the lines that are possible here stops agreeing: up to the digits of each.
    #[cold]
    fn fault(&self) -> Fault {
        let heads = [
            &CLOSE[..],
            &PLACE[..PAIR_AT],
            &TRANSITION[..MODE_AT],
            &PRE[..ARC_MODE_AT],
            &POST[..ARC_MODE_AT],
        ];
        let possible = heads.iter().zip(self.possible()).filter(|&(_, possible)| possible);
        self.at + possible.map(|(head, _)| agreed(head, &self.text[self.at..])).max().unwrap_or(0)
    }

    fn place(&mut self) -> Result<(), Fault> {
        let mut line = *PLACE;
        patch(&mut line, PAIR_AT, self.markings.len());
        self.literal(&line)?;
        let count = self.number(0)?;
        self.markings.push(count);
        self.literal(PLACE_END)
    }

    fn transition(&mut self) -> Result<(), Fault> {
        let mut line = *TRANSITION;
        patch(&mut line, MODE_AT, self.modes);
        self.modes += 1;
        (self.next, self.after_pre) = (0, false);
        self.literal(&line)
    }

    fn arc(&mut self, post: bool) -> Result<(), Fault> {
        let mode = self.modes - 1;
        let mut line = arc_lines(mode)[usize::from(post)];
        let (low, high) = self.pairs(post);
        self.literal(&line[..ARC_PAIR_AT])?;
        let pair = self.pair(low, high)?;
        patch_pair(&mut line, post, pair);
        self.literal(&line[ARC_PAIR_AT + 3..])?;
        let weight = self.number(1)?;
        match self.arcs.last_mut() {
            Some([_, _, last]) if pair < self.next => *last = weight,
            _ => {
                let key = (mode << 16 | pair) as u32;
                self.arcs.push(if post { [key, 0, weight] } else { [key, weight, 0] });
            }
        }
        (self.next, self.after_pre) = (pair + 1, !post);
        self.literal(ARC_END)
    }

    /// The lowest and the highest pair that the arc may have.
    #[inline(always)]
    fn pairs(&self, post: bool) -> (usize, usize) {
        let low = self.next - usize::from(post && self.after_pre);
        let full = self.arcs.len() == 2_048;
        (low, if full { low } else { self.markings.len() - 1 })
    }

    /// Three digits of a number in low..high: each is possible where some such number begins with it and those before.
    #[inline(always)]
    fn pair(&mut self, low: usize, high: usize) -> Result<usize, Fault> {
        let mut pair = 0;
        for scale in [100, 10, 1] {
            let digit = self.text.get(self.at).map_or(10, |byte| usize::from(byte.wrapping_sub(b'0')));
            pair = 10 * pair + digit;
            if digit > 9 || pair * scale > high || pair * scale + scale - 1 < low {
                return Err(self.at);
            }
            self.at += 1;
        }
        Ok(pair)
    }

    /// A decimal from the least to 1,000,000; `<` follows it, and is read with what comes after.
    #[inline(always)]
    fn number(&mut self, least: u32) -> Result<u32, Fault> {
        let first = self.text.get(self.at).map_or(10, |byte| u32::from(byte.wrapping_sub(b'0')));
        if first > 9 || first < least {
            return Err(self.at);
        }
        self.at += 1;
        let mut number = first;
        while number > 0 {
            let digit = self.text.get(self.at).map_or(10, |byte| u32::from(byte.wrapping_sub(b'0')));
            if digit > 9 {
                break;
            }
            number = 10 * number + digit;
            if number > 1_000_000 {
                return Err(self.at);
            }
            self.at += 1;
        }
        Ok(number)
    }

    #[inline(always)]
    fn literal(&mut self, due: &[u8]) -> Result<(), Fault> {
        let rest = &self.text[self.at..];
        if rest.starts_with(due) {
            self.at += due.len();
            return Ok(());
        }
        Err(self.at + agreed(due, rest))
    }
}

/// How many bytes of a text are those that are due.
#[cold]
fn agreed(due: &[u8], text: &[u8]) -> usize {
    due.iter().zip(text).take_while(|(due, byte)| due == byte).count()
}
