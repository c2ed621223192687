//! The inputs at full size, and at a part of it.

use std::path::Path;
use std::{fs, io};

use pnet::Mode;
use reference::build::{OPEN, PlainArc, PlainNet, movements, weights};
use reference::{Form, Version};

/// How large the inputs are.
#[derive(Clone, Copy, PartialEq, Eq)]
pub struct Size {
    /// So many times fewer pairs, modes and movements.
    pub part: usize,
    /// Arcs of each mode.
    pub arcs: usize,
    /// The version and the rule of the net sheets.
    pub form: Form,
}

impl Size {
    /// Modes of 8 arcs.
    pub const fn part(part: usize) -> Size {
        Size { part, arcs: 8, form: Form::One }
    }

    /// The largest net of modes of so many arcs.
    pub const fn arcs(arcs: usize) -> Size {
        Size { part: 1, arcs, form: Form::One }
    }

    /// The largest net of modes of 8 arcs, in this form.
    pub const fn form(form: Form) -> Size {
        Size { part: 1, arcs: 8, form }
    }

    /// As the tables name it.
    pub fn name(self) -> String {
        match self.part {
            1 => "full".to_string(),
            part => format!("1/{part}"),
        }
    }
}

/// What the works read.
pub struct Inputs {
    /// The largest net: 256 pairs, 256 modes of 8 arcs each; 35,083 bytes in version 1, 31,498 in version 2.
    pub net: Vec<u8>,
    /// The same net in version 1 and in version 2, by rule 0.
    pub versions: [Vec<u8>; 2],
    /// How many pairs it has.
    pub pairs: usize,
    /// Its last mode.
    pub last: u16,
    /// A step of 64 modes, by their numbers and as modes.
    pub step: Vec<u16>,
    pub members: Vec<Mode>,
    /// 8,192 movements, all of them accepted.
    pub movements: Vec<u8>,
    /// How many arcs they visit.
    pub visited: u64,
    /// Where they start.
    pub marking: Vec<u32>,
    /// Where they end.
    pub claim: Vec<u32>,
    pub weights: Vec<u8>,
    /// Every pair weighs nothing, and so no mode changes the figure.
    pub weightless: Vec<u8>,
    /// A net of 128 bounded pairs and 256 modes of 4 arcs each, whose complement is a largest net.
    pub bounded: Vec<u8>,
    /// Its first marking, and its complement's: every pair is half full.
    pub half: Vec<u32>,
    pub both: Vec<u32>,
    /// A net of 256 pairs and 192 modes of 10 arcs each, which has room for a transition of 64 modes more: K of its last pair is 63.
    pub strippable: Vec<u8>,
    /// `replay`'s input: the net, its weights, the movements.
    pub input: Vec<u8>,
    /// The net without bounds that has the longest text: 256 pairs, 256 modes of 8 arcs each, every number 1,000,000.
    pub open: Vec<u8>,
    /// How many bytes its text has.
    pub open_text: usize,
    /// The longest text that can be imported: 64 pairs and modes, 32 arcs of each.
    pub text: Vec<u8>,
}

impl Inputs {
    pub fn of(Size { part, arcs, form }: Size) -> Inputs {
        // 2,048 arcs at most.
        let (places, transitions) = (64 / part, 64.min(512 / arcs) / part);
        let net = plain(places, transitions, arcs, |pair| [OPEN, 1_000_000][pair % 2]);
        let bounded = plain(places / 2, transitions, 4, |_| 1_000_000);
        let mut strippable = plain(places, 48 / part, 10, |_| 1_000_000);
        *strippable.pairs.last_mut().expect("a net has pairs") = (63, 63);
        // A part of the arcs is a part of the text; as many modes have as many arcs as there are half as many pairs.
        let side = [64, 32, 16][part.ilog(4) as usize];
        let text = exported(&largest(1, side, side / 2).sheet());
        let open = largest(4, 64 / part, 8).sheet_in(form);
        let (pairs, modes) = (net.pairs.len(), 4 * transitions);
        // A walk over all modes in no simple order.
        let list: Vec<u16> = (0..8_192 / part).map(|k| (k * 167 % 251 % modes) as u16).collect();
        let step: Vec<u16> = (0..64).map(|k| (k * 167 % 251 % modes) as u16).collect();
        let kilograms: Vec<i32> = (0..pairs as i32).map(|pair| 250 * (pair % 9) - 500).collect();
        let (sheet, movements, weights) = (net.sheet_in(form), movements(&list), weights(&kilograms));
        let marking: Vec<u32> = net.pairs.iter().map(|pair| pair.1).collect();
        let mut claim = marking.clone();
        let (accepted, visited) = (list.len() as u64, (arcs * list.len()) as u64);
        let ran = swift::Ran { accepted, arcs: visited, answer: swift::Answer::ACCEPTED };
        assert_eq!(swift::run(&sheet, &movements, &mut claim), ran);
        Inputs {
            pairs,
            last: modes as u16 - 1,
            members: step.iter().copied().map(Mode).collect(),
            step,
            marking,
            claim,
            half: vec![500_000; bounded.pairs.len()],
            both: vec![500_000; 2 * bounded.pairs.len()],
            bounded: bounded.sheet_in(form),
            strippable: strippable.sheet_in(form),
            input: [&sheet[..], &weights, &movements].concat(),
            net: sheet,
            versions: Version::BOTH.map(|version| net.sheet_in(version)),
            weightless: reference::build::weights(&vec![0; pairs]),
            weights,
            movements,
            visited,
            open_text: exported(&open).len(),
            open,
            text,
        }
    }

    /// The movement sheet without its last byte.
    pub fn cut(&self) -> &[u8] {
        &self.movements[..self.movements.len() - 1]
    }

    /// As files, each with its part in its name; counts in the machine's order.
    pub fn write(&self, folder: &Path, part: usize) -> io::Result<()> {
        let counts =
            |counts: &[u32]| counts.iter().flat_map(|count| count.to_ne_bytes()).collect::<Vec<u8>>();
        let (marking, claim) = (counts(&self.marking), counts(&self.claim));
        let files = [
            ("net", &self.net),
            ("movements", &self.movements),
            ("marking", &marking),
            ("claim", &claim),
            ("bounded", &self.bounded),
            ("input", &self.input),
        ];
        files.iter().try_for_each(|(name, bytes)| fs::write(folder.join(format!("{name}-{part}")), bytes))
    }
}

/// So many places of so many colours and as many modes, so many arcs of each mode, no K and no I, and every number the largest.
fn largest(colours: u16, places: usize, arcs: usize) -> PlainNet {
    let all = usize::from(colours) * places;
    let arc = |n: usize| PlainArc {
        mode: (n / arcs) as u16,
        pair: (n % arcs * (all / arcs)) as u16,
        pre: 1_000_000,
        post: 1_000_000,
        inhibitor: OPEN,
    };
    PlainNet {
        colours: vec![colours; places],
        modes: vec![colours; places],
        pairs: vec![(OPEN, 1_000_000); all],
        arcs: (0..all * arcs).map(arc).collect(),
    }
}

/// The net's text in PNML.
fn exported(net: &[u8]) -> Vec<u8> {
    let mut text = vec![0; pnet::LARGEST_PNML];
    let length = swift::export_pnml(net, &mut text).expect("no bound is finite");
    text.truncate(length);
    text
}

/// Places and transitions of four each. A mode has its arcs at pairs all over the net, takes one to three and gives as many back on the
/// whole, so that it stays enabled for a long time.
fn plain(places: usize, transitions: usize, arcs: usize, capacity: impl Fn(usize) -> u32) -> PlainNet {
    let (pairs, modes) = (4 * places, 4 * transitions);
    let arc = |mode: usize, arc: usize| {
        // Each in its own stretch of the pairs, and so rising.
        let stretch = pairs / arcs;
        let pair = arc * stretch + (7 * mode + 3 * arc) % stretch;
        let (pre, post) = (1 + (mode + arc) % 3, 1 + (mode + arc + 1) % 3);
        PlainArc { mode: mode as u16, pair: pair as u16, pre: pre as u32, post: post as u32, inhibitor: OPEN }
    };
    PlainNet {
        colours: vec![4; places],
        modes: vec![4; transitions],
        pairs: (0..pairs).map(|pair| (capacity(pair), 500_000)).collect(),
        arcs: (0..modes)
            .flat_map(|mode| (0..arcs).map(move |k| (mode, k)))
            .map(|(mode, k)| arc(mode, k))
            .collect(),
    }
}
