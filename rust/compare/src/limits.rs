//! Nets at every limit of a sheet.

use reference::build::{OPEN, PlainArc, PlainNet};

use generator::{Random, Style};

/// Places, colours of each, transitions, modes of each, arcs.
pub const SHAPES: [(usize, u16, usize, u16, usize); 12] = [
    (1, 1, 0, 0, 0),
    (1, 1, 1, 1, 1),
    (1, 64, 1, 64, 2_048),
    (64, 1, 64, 1, 2_048),
    (64, 4, 64, 4, 2_048),
    (4, 64, 4, 64, 2_048),
    (64, 4, 0, 0, 0),
    (1, 1, 64, 4, 256),
    // Its complement has 64 places, 256 pairs and, where each pair is bounded, 2,048 arcs.
    (32, 4, 64, 4, 1_024),
    (2, 64, 64, 4, 1_024),
    (32, 4, 64, 4, 1_025),
    (33, 3, 64, 4, 512),
];

/// A net of just this shape, its numbers at the edges of their ranges or such that its modes stay enabled.
pub fn net(random: &mut Random, style: Style, shape: (usize, u16, usize, u16, usize)) -> PlainNet {
    let (places, colours, transitions, modes_each, arcs) = shape;
    let (pairs, modes) = (places * usize::from(colours), transitions * usize::from(modes_each));
    let bounded = random.once_in(2);
    let pair = |random: &mut Random| match style {
        Style::Edges if !bounded => random.pick(&[
            (OPEN, 0),
            (OPEN, 1_000_000),
            (0, 0),
            (1, 1),
            (1_000_000, 0),
            (1_000_000, 1_000_000),
        ]),
        _ if bounded => (1_000_000, 500_000),
        _ => (random.pick(&[OPEN, 1_000_000]), 500_000),
    };
    PlainNet {
        colours: vec![colours; places],
        modes: vec![modes_each; transitions],
        pairs: (0..pairs).map(|_| pair(random)).collect(),
        arcs: cells(random, modes, pairs, arcs).map(|(mode, pair)| arc(random, style, mode, pair)).collect(),
    }
}

/// A small net whose counts are full to the brim, so that each of 11 to 14 is near.
pub fn brim(random: &mut Random) -> PlainNet {
    let (pairs, modes) = (1 + random.below(6), 1 + random.below(4));
    let pair = |random: &mut Random| {
        random.pick(&[(OPEN, 1_000_000), (OPEN, 999_999), (1_000_000, 999_999), (2, 1), (1, 1)])
    };
    let arc = |random: &mut Random, mode, pair| PlainArc {
        mode,
        pair,
        pre: random.pick(&[0, 0, 1, 2]),
        post: random.pick(&[1, 2]),
        inhibitor: random.pick(&[OPEN, OPEN, 1_000_000, 999_999, 1]),
    };
    let cells = (0..modes * pairs).map(|cell| ((cell / pairs) as u16, (cell % pairs) as u16));
    PlainNet {
        colours: vec![1; pairs],
        modes: vec![1; modes],
        pairs: (0..pairs).map(|_| pair(random)).collect(),
        arcs: cells
            .filter(|_| random.once_in(3))
            .collect::<Vec<_>>()
            .into_iter()
            .map(|(mode, pair)| arc(random, mode, pair))
            .collect(),
    }
}

/// The net with a K at every pair where an inhibitor is finite: 15 is not given.
pub fn with_capacities(mut net: PlainNet) -> PlainNet {
    for arc in net.arcs.iter().filter(|arc| arc.inhibitor != OPEN) {
        let (capacity, count) = &mut net.pairs[usize::from(arc.pair)];
        if *capacity == OPEN {
            *capacity = 9.max(*count);
        }
    }
    net
}

/// So many places for an arc, in rising order, spread over all modes and pairs.
fn cells(
    random: &mut Random,
    modes: usize,
    pairs: usize,
    arcs: usize,
) -> impl Iterator<Item = (u16, u16)> + use<> {
    let (all, shift) = (modes * pairs, random.below(pairs));
    let arcs = arcs.min(all);
    (0..arcs).map(move |k| {
        // Each mode has its share of arcs, at pairs from `shift` on.
        let cell = k * all / arcs;
        let (mode, pair) = (cell / pairs, cell % pairs);
        (mode as u16, if pair + shift < pairs && arcs == modes { (pair + shift) as u16 } else { pair as u16 })
    })
}

fn arc(random: &mut Random, style: Style, mode: u16, pair: u16) -> PlainArc {
    let (pre, post) = match style {
        Style::Edges => (random.pick(&[0, 1, 999_999, 1_000_000]), random.pick(&[1, 999_999, 1_000_000])),
        _ => (random.below(4) as u32, 1 + random.below(3) as u32),
    };
    let inhibitor = match style {
        Style::Edges => random.pick(&[OPEN, OPEN, 0, 1, 1_000_000]),
        _ => OPEN,
    };
    PlainArc { mode, pair, pre, post, inhibitor }
}
