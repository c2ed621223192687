//! A small deterministic generator of nets, markings, lists and spoiled sheets.

pub mod damaged_text;

use reference::build::{OPEN, PlainArc, PlainNet};
use reference::{Form, Rule};

/// Xorshift, 64 bits.
#[derive(Clone)]
pub struct Random(u64);

impl Random {
    /// The numbers of a seed.
    pub fn new(seed: u64) -> Random {
        Random(seed.wrapping_mul(0x9E37_79B9_7F4A_7C15) | 1)
    }

    /// The next number, of 48 bits.
    pub fn next(&mut self) -> u64 {
        self.0 ^= self.0 << 13;
        self.0 ^= self.0 >> 7;
        self.0 ^= self.0 << 17;
        self.0.wrapping_mul(0x2545_F491_4F6C_DD1D) >> 16
    }

    /// A number below n.
    pub fn below(&mut self, n: usize) -> usize {
        (self.next() % n as u64) as usize
    }

    /// Yes once in n times.
    pub fn once_in(&mut self, n: usize) -> bool {
        self.below(n) == 0
    }

    /// One of these.
    pub fn pick<T: Copy>(&mut self, from: &[T]) -> T {
        from[self.below(from.len())]
    }
}

/// How a net's numbers lie.
#[derive(Clone, Copy, Debug, PartialEq, Eq)]
pub enum Style {
    /// Small numbers: every refusal is near.
    Small,
    /// Numbers at the edges of their ranges.
    Edges,
    /// Half-full counts and small arcs: long runs are accepted.
    Lively,
}

/// A net that the reader accepts, with at most so many places, transitions and arcs.
pub fn net(random: &mut Random, style: Style, places: usize, transitions: usize, arcs: usize) -> PlainNet {
    let (places, transitions) = (1 + random.below(places), random.below(transitions + 1));
    let (colours, modes) = (counts(random, places), counts(random, transitions));
    let pairs = (0..total(&colours)).map(|_| pair(random, style)).collect();
    let mut net = PlainNet { colours, modes, pairs, arcs: Vec::new() };
    let (modes, pairs) = (total(&net.modes), total(&net.colours));
    if modes > 0 {
        let mut cells: Vec<(u16, u16)> = (0..random.below(arcs + 1))
            .map(|_| (random.below(modes) as u16, random.below(pairs) as u16))
            .collect();
        cells.sort();
        cells.dedup();
        net.arcs = cells.into_iter().map(|(mode, pair)| arc(random, style, mode, pair)).collect();
    }
    net
}

/// How its sheet is written: as often in version 1 as in version 2, and in version 2 as often by the one rule as by the other.
pub fn form(random: &mut Random) -> Form {
    random.pick(&[Form::One, Form::One, Form::Two(Rule::Strict), Form::Two(Rule::Weak)])
}

/// Counts of colours or modes whose total stays within 256.
fn counts(random: &mut Random, fields: usize) -> Vec<u16> {
    let most = if random.once_in(8) { 64 } else { 4 };
    let mut left = 256;
    let mut counts = Vec::new();
    for after in (0..fields).rev() {
        let count = 1 + random.below(most.min(left - after));
        left -= count;
        counts.push(count as u16);
    }
    counts
}

/// The sum of counts.
pub fn total(counts: &[u16]) -> usize {
    counts.iter().map(|&count| usize::from(count)).sum()
}

/// K and the first marking.
fn pair(random: &mut Random, style: Style) -> (u32, u32) {
    let capacity = match style {
        Style::Small => [OPEN, random.below(9) as u32][random.below(2)],
        Style::Edges => random.pick(&[OPEN, OPEN, 0, 1, 999_999, 1_000_000]),
        Style::Lively => random.pick(&[OPEN, 1_000_000]),
    };
    (capacity, count(random, style, capacity))
}

/// A count within K.
pub fn count(random: &mut Random, style: Style, capacity: u32) -> u32 {
    let most = capacity.min(1_000_000);
    match style {
        Style::Small => (random.below(9) as u32).min(most),
        Style::Edges => random.pick(&[0, 1, 999_999, 1_000_000]).min(most),
        Style::Lively => 500_000 + random.below(1_000) as u32,
    }
}

/// An arc that is not blank.
fn arc(random: &mut Random, style: Style, mode: u16, pair: u16) -> PlainArc {
    let number = |random: &mut Random| match style {
        Style::Small => random.below(4) as u32,
        Style::Edges => random.pick(&[0, 0, 1, 2, 999_999, 1_000_000]),
        Style::Lively => random.below(8) as u32,
    };
    let (pre, post) = (number(random), number(random));
    let inhibitor = match style {
        Style::Small => [OPEN, OPEN, random.below(9) as u32][random.below(3)],
        Style::Edges => random.pick(&[OPEN, OPEN, 0, 1, 999_999, 1_000_000]),
        Style::Lively => random.pick(&[OPEN, OPEN, OPEN, 1_000_000]),
    };
    let post = if (pre, post, inhibitor) == (0, 0, OPEN) { 1 } else { post };
    PlainArc { mode, pair, pre, post, inhibitor }
}

/// A marking that fits the net, now and then spoiled.
pub fn marking(random: &mut Random, style: Style, net: &PlainNet) -> Vec<u32> {
    let mut marking: Vec<u32> =
        net.pairs.iter().map(|&(capacity, _)| count(random, style, capacity)).collect();
    if random.once_in(10) {
        let pair = random.below(marking.len());
        marking[pair] = random.pick(&[6, 10, 1_000_000, 1_000_001, OPEN]);
    }
    if random.once_in(20) {
        let length = random.below(marking.len() + 3);
        marking.resize(length, 1);
    }
    marking
}

/// A list of movements, now and then with a mode that is not there.
pub fn list(random: &mut Random, net: &PlainNet, most: usize) -> Vec<u16> {
    let modes = total(&net.modes);
    let mut list: Vec<u16> = Vec::new();
    if modes > 0 {
        list.extend((0..random.below(most + 1)).map(|_| random.next() as u16 % modes as u16));
    }
    if random.once_in(6) {
        list.push(random.pick(&[modes as u16, 256, 65_535]));
    }
    list
}

/// The modes of a step, mostly a few, now and then none, 64, more, or one that is not there.
pub fn step(random: &mut Random, net: &PlainNet) -> Vec<u16> {
    let modes = total(&net.modes);
    let length = if random.once_in(8) { random.pick(&[0, 63, 64, 65]) } else { 1 + random.below(4) };
    let mut step: Vec<u16> = (0..length).map(|_| random.below(modes.max(1)) as u16).collect();
    if random.once_in(12) {
        step.insert(random.below(length + 1), random.pick(&[modes as u16, 256, 65_535]));
    }
    step
}

/// Weights over the whole range.
pub fn weights(random: &mut Random, pairs: usize) -> Vec<i32> {
    let edges = [-1_000_000, -1, 0, 1, 250, 1_000_000];
    (0..pairs)
        .map(|_| [random.pick(&edges), random.below(2_000_001) as i32 - 1_000_000][random.below(2)])
        .collect()
}

/// A small net of K up to 4, and weights by which every mode's change is 0: two kinds of item, each of its own weight, one or two of them to a
/// token, and modes that put down as many items as they take up.
pub fn balanced(random: &mut Random) -> (PlainNet, Vec<i32>) {
    let pairs = 2 + random.below(3);
    // A pair's kind, and how many items a token stands for.
    let packs: Vec<(usize, u32)> =
        (0..pairs).map(|pair| (random.below(1 + pair / 2), 1 + random.below(4) as u32 / 3)).collect();
    let kilograms: Vec<i32> = (0..2).map(|_| random.pick(&[-1_000, -1, 1, 250])).collect();
    let weights = packs.iter().map(|&(kind, items)| kilograms[kind] * items as i32).collect();
    let numbers = |random: &mut Random| {
        let capacity = 2 + random.below(3) as u32;
        (capacity, random.below(capacity as usize + 1) as u32)
    };
    let mut net = PlainNet {
        colours: vec![1; pairs],
        modes: vec![1; 2 + random.below(4)],
        pairs: (0..pairs).map(|_| numbers(random)).collect(),
        arcs: Vec::new(),
    };
    for mode in 0..net.modes.len() as u16 {
        let from = random.below(pairs);
        let same: Vec<usize> =
            (0..pairs).filter(|&pair| pair != from && packs[pair].0 == packs[from].0).collect();
        // A kind that stands at one pair only stays there.
        let to = if same.is_empty() { from } else { random.pick(&same) };
        for pair in 0..pairs {
            let inhibitor = if random.once_in(10) { random.pick(&[1, 2, 3]) } else { OPEN };
            let stays = u32::from(random.once_in(12));
            // What is taken at `from` is as many items as are given at `to`.
            let (pre, post) = match pair {
                _ if from == to => (stays, stays),
                _ if pair == from => (stays + packs[to].1, stays),
                _ if pair == to => (stays, stays + packs[from].1),
                _ => (stays, stays),
            };
            if (pre, post, inhibitor) != (0, 0, OPEN) {
                net.arcs.push(PlainArc { mode, pair: pair as u16, pre, post, inhibitor });
            }
        }
    }
    (net, weights)
}

/// One to three faults in a net before it is written: a count, a number, a missing mode or pair, the
/// order of the arcs, a blank arc, a first marking above K.
pub fn spoil_net(random: &mut Random, net: &mut PlainNet) {
    for _ in 0..1 + random.below(3) {
        if random.once_in(3) || net.arcs.is_empty() {
            spoil_counts(random, net);
        } else {
            spoil_arc(random, net);
        }
    }
}

fn spoil_counts(random: &mut Random, net: &mut PlainNet) {
    let (place, pair) = (random.below(net.colours.len()), random.below(net.pairs.len()));
    match random.below(5) {
        0 => net.colours[place] = random.pick(&[0, 1, 64, 65, 256]),
        1 => net.modes.push(random.pick(&[0, 1, 64, 65, 256])),
        2 => net.pairs[pair].0 = random.pick(&[0, 1, 1_000_000, 1_000_001, OPEN]),
        3 => net.pairs[pair].1 = random.pick(&[0, 9, 1_000_000, 1_000_001, OPEN]),
        _ => net.pairs.push((random.pick(&[0, 1, OPEN]), random.pick(&[0, 1, OPEN]))),
    }
}

fn spoil_arc(random: &mut Random, net: &mut PlainNet) {
    let (at, other) = (random.below(net.arcs.len()), random.below(net.arcs.len()));
    let odd = random.pick(&[0, 1, 999_999, 1_000_000, 1_000_001, OPEN]);
    let arc = &mut net.arcs[at];
    match random.below(8) {
        0 => arc.mode = random.pick(&[total(&net.modes) as u16, 256, 65_535, arc.mode ^ 1]),
        1 => arc.pair = random.pick(&[total(&net.colours) as u16, 256, 65_535, arc.pair ^ 1]),
        2 => arc.pre = odd,
        3 => arc.post = odd,
        4 => arc.inhibitor = odd,
        5 => (arc.pre, arc.post, arc.inhibitor) = (0, 0, OPEN),
        6 => net.arcs.swap(at, other),
        _ => net.arcs.insert(at, net.arcs[other]),
    }
}

/// One to three changes to a sheet: a byte, a field, the version, the byte after it, the length, bytes cut off or added.
pub fn spoil(random: &mut Random, sheet: &mut Vec<u8>) {
    for _ in 0..1 + random.below(3) {
        let at = random.below(sheet.len() + 1);
        match random.below(8) {
            0 => over(sheet, at, &[random.next() as u8]),
            1 => over(sheet, at, &random.pick(&[0u16, 1, 64, 65, 256, 2_048, 2_049]).to_be_bytes()),
            2 => over(sheet, at, &random.pick(&[0, 1, 1_000_000, 1_000_001, OPEN - 1, OPEN]).to_be_bytes()),
            3 => sheet.truncate(at),
            4 => sheet.extend((0..random.below(20)).map(|n| n as u8)),
            5 => over(sheet, random.pick(&[4, 4, 5]), &[random.pick(&[0, 1, 2, 3, 255])]),
            _ => {
                if random.once_in(2) {
                    sheet.truncate(at.max(5));
                }
                let length = (sheet.len() as u32).saturating_sub(4);
                over(sheet, 0, &random.pick(&[length, length, length + 1, OPEN, 0]).to_be_bytes());
            }
        }
    }
}

fn over(sheet: &mut [u8], at: usize, bytes: &[u8]) {
    for (old, new) in sheet.iter_mut().skip(at).zip(bytes) {
        *old = *new;
    }
}
