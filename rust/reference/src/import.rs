//! "Exchange with PNML tools": "import reads exactly what export writes".

use std::ops::Range;

use crate::answer::{Answer, Refusal, Thing};
use crate::build::{PlainArc, PlainNet};
use crate::kinds::{Mode, Pair};
use crate::limits::{ARCS, LARGEST, PLACES, TOTAL, TRANSITIONS, UNBOUNDED};
use crate::output::written;
use crate::pnml::{CLOSE, Line, OPEN};

/// Writes the net's sheet, of version 1, "with each pair a place of one colour and each mode a transition of one mode". "For import 20 at the
/// first byte (or the end) from which no export agrees with the text, then 4 where there are more than 64 pairs or modes, then 10."
pub fn import_pnml(text: &[u8], output: &mut [u8]) -> Result<usize, Answer> {
    let net = Reading::of(text)?;
    if net.pairs.len() > usize::from(PLACES) || net.modes > TRANSITIONS {
        return Err(Answer::refused(Refusal::Count, Thing::Argument, 0));
    }
    written(&PlainNet::plain(net.modes.into(), &net.pairs, &net.arcs).sheet(), output)
}

/// The kinds of lines.
#[derive(Clone, Copy)]
enum Kind {
    Close,
    Place,
    Transition,
    Pre,
    Post,
}

/// Where the pair stands in an arc's line, after its mode.
const ARC_PAIR: usize = "      <arc id=\"i000-".len();

/// What was read of a text: each beginning that got so far is the beginning of some export.
struct Reading<'a> {
    text: &'a [u8],
    /// How much of it was read.
    at: usize,
    pairs: Vec<(u32, u32)>,
    modes: u16,
    arcs: Vec<PlainArc>,
    /// Whether the last line was a Pre line, whose pair's Post line may follow.
    after_pre: bool,
}

impl<'a> Reading<'a> {
    /// A whole text that is an export.
    fn of(text: &'a [u8]) -> Result<Reading<'a>, Answer> {
        let mut reading =
            Reading { text, at: 0, pairs: Vec::new(), modes: 0, arcs: Vec::new(), after_pre: false };
        reading.one_of(&[OPEN.to_string()])?;
        while reading.line()? {}
        // No export goes on after its end.
        if reading.at < text.len() { Err(reading.refused()) } else { Ok(reading) }
    }

    fn refused(&self) -> Answer {
        Answer::refused(Refusal::NoExport, Thing::Net, self.at)
    }

    /// The one of these that follows in the text; none of them begins another. 20 is at the first byte at which none of them agrees any more.
    fn one_of(&mut self, all: &[impl AsRef<[u8]>]) -> Result<usize, Answer> {
        let rest = &self.text[self.at..];
        let agreed = |one: &[u8]| one.iter().zip(rest).take_while(|(due, byte)| due == byte).count();
        let most = all.iter().map(|one| agreed(one.as_ref())).max().unwrap_or(0);
        self.at += most;
        all.iter().position(|one| rest.starts_with(one.as_ref())).ok_or(self.refused())
    }

    /// One line, or the end: whether there may be more.
    fn line(&mut self) -> Result<bool, Answer> {
        let (kinds, beginnings): (Vec<Kind>, Vec<String>) = self.kinds_to_come().into_iter().unzip();
        let chosen = self.one_of(&beginnings)?;
        let (places, modes) = (self.pairs.len() as u16, self.modes);
        let line = match kinds[chosen] {
            Kind::Close => return Ok(false),
            Kind::Place => Line::Place(Pair(places)),
            Kind::Transition => Line::Transition(Mode(modes)),
            Kind::Pre => Line::Pre(Mode(modes - 1), self.pair(self.pre_pairs())?),
            Kind::Post => Line::Post(Mode(modes - 1), self.pair(self.post_pairs())?),
        };
        if matches!(kinds[chosen], Kind::Pre | Kind::Post) {
            // Source and target are the pair and the mode again.
            self.one_of(&[line.head()[ARC_PAIR + 3..].to_string()])?;
        }
        let number = match line.least() {
            Some(least) => self.number(least)?,
            None => 0,
        };
        self.one_of(&[line.tail().to_string()])?;
        self.take(line, number);
        Ok(true)
    }

    /// Every kind of line that some export has here, and how it begins: an arc's line up to its pair.
    fn kinds_to_come(&self) -> Vec<(Kind, String)> {
        let (places, mode) = (self.pairs.len() as u16, Mode(self.modes.saturating_sub(1)));
        let arc = |line: Line| line.head()[..ARC_PAIR].to_string();
        let begins = |kind: Kind| match kind {
            Kind::Close => CLOSE.to_string(),
            Kind::Place => Line::Place(Pair(places)).head(),
            Kind::Transition => Line::Transition(Mode(self.modes)).head(),
            Kind::Pre => arc(Line::Pre(mode, Pair(0))),
            Kind::Post => arc(Line::Post(mode, Pair(0))),
        };
        let all = [
            // "CLOSE is always possible at a line's start once there is a place."
            (places > 0, Kind::Close),
            (self.modes == 0 && places < TOTAL, Kind::Place),
            (places > 0 && self.modes < TOTAL, Kind::Transition),
            (!self.pre_pairs().is_empty(), Kind::Pre),
            (!self.post_pairs().is_empty(), Kind::Post),
        ];
        all.into_iter().filter(|(possible, _)| *possible).map(|(_, kind)| (kind, begins(kind))).collect()
    }

    /// The last arc of the mode in hand.
    fn last_arc(&self) -> Option<&PlainArc> {
        self.arcs.last().filter(|arc| arc.mode + 1 == self.modes)
    }

    /// The pairs of which the mode in hand may have a new arc: those above its last, while there are fewer than 2,048 arcs.
    fn pre_pairs(&self) -> Range<u16> {
        let next = self.last_arc().map_or(0, |arc| arc.pair + 1);
        let possible = self.modes > 0 && self.arcs.len() < usize::from(ARCS);
        next..if possible { self.pairs.len() as u16 } else { next }
    }

    /// The pairs of which it may have a Post line: those, and after a Pre line the same pair, whose arc it belongs to.
    fn post_pairs(&self) -> Range<u16> {
        let new = self.pre_pairs();
        let same = self.last_arc().filter(|_| self.after_pre);
        same.map_or(new.start, |arc| arc.pair)..new.end
    }

    /// Three digits that are those of one of these pairs.
    fn pair(&mut self, pairs: Range<u16>) -> Result<Pair, Answer> {
        let all: Vec<[u8; 3]> = pairs.clone().map(digits).collect();
        self.one_of(&all).map(|at| Pair(pairs.start + at as u16))
    }

    /// A decimal without leading zeros, from the least to 1,000,000; what follows it is `<`.
    fn number(&mut self, least: u32) -> Result<u32, Answer> {
        let mut number: Option<u32> = None;
        loop {
            let byte = self.text.get(self.at).copied();
            let with =
                byte.filter(u8::is_ascii_digit).map(|byte| 10 * number.unwrap_or(0) + u32::from(byte - b'0'));
            number = match (number, with) {
                (None, Some(first)) if first >= least => Some(first),
                // No digit follows a first 0.
                (Some(1..), Some(longer)) if longer <= LARGEST => Some(longer),
                (Some(number), _) if byte == Some(b'<') => return Ok(number),
                _ => return Err(self.refused()),
            };
            self.at += 1;
        }
    }

    fn take(&mut self, line: Line, number: u32) {
        let arc = |mode: Mode, pair: Pair, pre, post| PlainArc {
            mode: mode.0,
            pair: pair.0,
            pre,
            post,
            inhibitor: UNBOUNDED,
        };
        match line {
            Line::Place(_) => self.pairs.push((UNBOUNDED, number)),
            Line::Transition(_) => self.modes += 1,
            Line::Pre(mode, pair) => self.arcs.push(arc(mode, pair, number, 0)),
            Line::Post(mode, pair) => match self.arcs.last_mut() {
                Some(last) if (last.mode, last.pair) == (mode.0, pair.0) => last.post = number,
                _ => self.arcs.push(arc(mode, pair, 0, number)),
            },
        }
        self.after_pre = matches!(line, Line::Pre(..));
    }
}

/// A pair's number as it stands in a line.
fn digits(pair: u16) -> [u8; 3] {
    [pair / 100, pair / 10 % 10, pair % 10].map(|digit| b'0' + digit as u8)
}
