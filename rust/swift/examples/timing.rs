//! How long each call takes on nets of several sizes: the best of many tries, in microseconds.

use std::hint::black_box;
use std::time::Instant;

use generator::{Random, total};
use reference::build::{OPEN, PlainNet, arc, movements, weights};

/// The shortest of many tries.
fn best<V>(tries: usize, mut call: impl FnMut() -> V) -> f64 {
    let mut best = f64::MAX;
    for _ in 0..tries {
        let start = Instant::now();
        black_box(call());
        best = best.min(start.elapsed().as_secs_f64());
    }
    best * 1e6
}

/// A net whose modes stay enabled: half-full counts, small arcs, finite K at every second pair.
fn lively(random: &mut Random, places: usize, colours: u16, modes: usize, arcs: usize) -> PlainNet {
    let pairs = places * usize::from(colours);
    let mut cells = std::collections::BTreeSet::new();
    while cells.len() < arcs.min(modes * pairs) {
        cells.insert((random.below(modes) as u16, random.below(pairs) as u16));
    }
    let number = |random: &mut Random| 1 + random.below(3) as u32;
    PlainNet {
        colours: vec![colours; places],
        modes: vec![1.max(modes as u16 / 64); modes.min(64)],
        pairs: (0..pairs).map(|pair| ([1_000_000, OPEN][pair / 2 % 2], 500_000)).collect(),
        arcs: cells
            .into_iter()
            .map(|(mode, pair)| arc(mode, pair, number(random), number(random), OPEN))
            .collect(),
    }
}

fn times(name: &str, net: &PlainNet, length: usize, random: &mut Random) {
    let modes = total(&net.modes);
    let list: Vec<u16> = (0..length).map(|_| random.below(modes) as u16).collect();
    let (sheet, list) = (net.sheet(), movements(&list));
    let input = [sheet.clone(), weights(&vec![250; net.pairs.len()]), list.clone()].concat();
    let first: Vec<u32> = net.pairs.iter().map(|pair| pair.1).collect();
    let (mut marking, mut output) = (first.clone(), vec![0; 36_000]);
    let tries = 2_000;
    let read = best(tries, || swift::read_net(black_box(&sheet)));
    let run = best(tries, || {
        marking.copy_from_slice(&first);
        swift::run(black_box(&sheet), black_box(&list), &mut marking)
    });
    let complement = best(tries, || swift::complement(black_box(&sheet), &mut output));
    let replay = best(tries, || swift::replay(black_box(&input)));
    let plain = best(3, || reference::run(&sheet, &list, &mut first.clone()));
    print!("{name:<26} read {read:8.2}  run {run:8.2}  complement {complement:8.2}  replay {replay:8.2}");
    println!("  (reference run {plain:10.1})");
}

fn main() {
    let mut random = Random::new(1);
    for (name, places, colours, modes, arcs, length) in [
        ("largest, 8 arcs a mode", 64, 4, 256, 2_048, 8_192),
        ("largest, no movement", 64, 4, 256, 2_048, 0),
        ("largest, 64 movements", 64, 4, 256, 2_048, 64),
        ("128 pairs, 4 arcs a mode", 32, 4, 256, 1_024, 8_192),
        ("256 pairs, 2 arcs a mode", 64, 4, 256, 512, 8_192),
        ("8 modes of 256 arcs", 64, 4, 8, 2_048, 8_192),
        ("16 pairs, 64 modes", 8, 2, 64, 256, 8_192),
        ("16 pairs, 16 modes, 100", 8, 2, 16, 48, 100),
        ("8 pairs, 16 modes", 8, 1, 16, 48, 8_192),
        ("2 pairs, 1 mode", 2, 1, 1, 2, 8_192),
        ("2 pairs, 1 mode, 4", 2, 1, 1, 2, 4),
    ] {
        let net = lively(&mut random, places, colours, modes, arcs);
        times(name, &net, length, &mut random);
    }
}
