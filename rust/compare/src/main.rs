//! Compares every call of the proved engine, through its Rust wrapper, with `reference`.
//!
//!     compare [SEED [ROUNDS]]
//!     compare trespass before|after|within       reads or writes where it may not, which must end it
//!
//! A difference ends it, and so does a call, number and thing that came up too rarely to count as compared. Every slice is lent between guard
//! pages, so that a read or a write where none may be ends it too.

mod blank;
mod case;
mod damage;
mod dead;
mod demand3;
mod exclusion;
mod fleet;
mod guarded;
mod hits;
mod limits;
mod pnml;
mod rules;
mod salvage;
mod same;
mod strip;
mod truncation;
mod version_2;
mod versions;
mod visits;

use std::process::ExitCode;
use std::time::Instant;

use case::Case;
use generator::{Random, Style};
use reference::build::{OPEN, PlainNet, arc};
use reference::{Form, Rule};
use same::Same;

const STYLES: [Style; 3] = [Style::Small, Style::Edges, Style::Lively];

/// At most so many places, transitions and arcs.
const SIZES: [(usize, usize, usize); 7] =
    [(1, 1, 2), (3, 2, 6), (5, 4, 24), (5, 4, 24), (10, 2, 80), (20, 20, 200), (64, 64, 2_048)];

fn main() -> ExitCode {
    let words: Vec<String> = std::env::args().skip(1).collect();
    if let [word, side] = &words[..]
        && word == "trespass"
    {
        guarded::trespass(side);
        return ExitCode::FAILURE;
    }
    let mut numbers = words.iter().map(|word| word.parse().expect("SEED and ROUNDS are numbers"));
    let (seed, rounds) = (numbers.next().unwrap_or(1), numbers.next().unwrap_or(40_000));
    let (mut random, mut same, start) = (Random::new(seed), Same::new(), Instant::now());
    let (mut searches, mut texts) = (Random::new(seed + 1), Random::new(seed + 2));
    for round in 0..rounds {
        same.part = format!("seed {seed}, round {round}");
        any(&mut same, &mut random);
        if round % 16 == 0 {
            complements(&mut same, &mut random);
            exchange(&mut same, &mut texts);
        }
        if round % 32 == 0 {
            dead::searched(&mut same, &generator::net(&mut searches, Style::Small, 2, 2, 8));
            rules(&mut same, &mut searches);
            let net = generator::net(&mut searches, Style::Small, 4, 3, 12);
            strip::bare(&mut same, &mut searches, &net);
            let sheet = net.sheet_in(generator::form(&mut searches));
            salvage::damaged(&mut same, &mut searches, &net, &sheet);
        }
        if round % 64 == 0 {
            let (net, kilograms) = generator::balanced(&mut searches);
            let form = generator::form(&mut searches);
            exclusion::searched(&mut same, &net, form, &kilograms);
            salvage::every_cut(&mut same, &mut searches);
            fleet::carried(&mut same, &mut searches, 20);
            (0..4).for_each(|_| fleet::at_bounds(&mut same, &mut searches));
        }
        if round % 400 == 0 {
            at_limits(&mut same, &mut random, round as usize / 400);
            let (places, transitions, arcs) = texts.pick(&SIZES[5..]);
            let net = generator::net(&mut texts, Style::Edges, places, transitions, arcs);
            pnml::exchanged(&mut same, &mut texts, net);
        }
        if round % 1_600 == 0 {
            cut_everywhere(&mut same, &mut random);
        }
    }
    same.part = format!("seed {seed}, long inputs");
    (0..hits::ENOUGH)
        .for_each(|more| same.statement(&vec![random.next() as u8; 65_537 + more * more], pnet::TEXT_ROOM));
    same.part = format!("seed {seed}, the limits of stripping");
    strip::at_limits(&mut same);
    same.part = format!("seed {seed}, a full fleet");
    fleet::full(&mut same);
    fleet::carried(&mut same, &mut searches, 1_000);
    same.part = format!("seed {seed}, the limits of salvage");
    salvage::at_limits(&mut same, &mut searches);
    same.part = format!("seed {seed}, the limits of a text");
    pnml::at_limits(&mut same, &mut texts);
    same.part = format!("seed {seed}, every byte of a text");
    pnml::every_byte(&mut same);
    same.part = format!("seed {seed}, the limits of version 2");
    version_2::at_limits(&mut same, &mut random);
    same.part = format!("seed {seed}, the largest nets cut");
    largest_cut(&mut same, &mut random, Form::One, pnet::LARGEST_NET);
    largest_cut(&mut same, &mut random, Form::Two(Rule::Weak), 31_498);
    println!(
        "seed {seed}, {rounds} rounds, {} calls compared in {:.1} s",
        same.hits.total(),
        start.elapsed().as_secs_f64()
    );
    print!("{}", same.hits);
    let wants = same.hits.wants();
    wants.iter().for_each(|want| println!("TOO FEW: {want}"));
    if wants.is_empty() { ExitCode::SUCCESS } else { ExitCode::FAILURE }
}

fn any_net(random: &mut Random) -> (PlainNet, Style) {
    if random.once_in(8) {
        return (limits::brim(random), Style::Edges);
    }
    let (style, (places, transitions, arcs)) = (random.pick(&STYLES), random.pick(&SIZES));
    (generator::net(random, style, places, transitions, arcs), style)
}

/// A net of any size, in either version and rule, in half of the rounds with one to three faults.
fn any(same: &mut Same, random: &mut Random) {
    let (mut net, style) = any_net(random);
    let form = generator::form(random);
    let mut case = Case::of(random, style, &net, form, 24);
    for _ in 0..random.pick(&[0, 0, 0, 0, 1, 1, 2, 3]) {
        damage::damage(random, &mut case, &mut net);
    }
    case.compare(same);
}

/// Small nets by both rules, one of them without a K.
fn rules(same: &mut Same, random: &mut Random) {
    rules::swapped_at_once(same, random);
    for style in STYLES {
        let mut net = generator::net(random, style, 4, 3, 16);
        rules::beside(same, random, style, &net);
        net.pairs.iter_mut().for_each(|pair| pair.0 = OPEN);
        rules::beside(same, random, style, &net);
    }
}

/// Nets in step with their complements.
fn complements(same: &mut Same, random: &mut Random) {
    for most in [4, 16, 64] {
        let (net, style) = any_net(random);
        demand3::in_step(same, random, style, &net, most);
        let net = limits::with_capacities(generator::net(random, Style::Small, 5, 4, 24));
        demand3::in_step(same, random, Style::Small, &net, most);
    }
}

/// Nets of every size but the largest, without their bounds, exported and imported.
fn exchange(same: &mut Same, random: &mut Random) {
    for (places, transitions, arcs) in &SIZES[..5] {
        let style = random.pick(&STYLES);
        let net = generator::net(random, style, *places, *transitions, *arcs);
        pnml::exchanged(same, random, net);
    }
}

/// A net at the limits of a sheet, without a fault and with one, and with the longest list.
fn at_limits(same: &mut Same, random: &mut Random, at: usize) {
    let shape = limits::SHAPES[at % limits::SHAPES.len()];
    for style in [Style::Edges, Style::Lively] {
        let mut net = limits::net(random, style, shape);
        let form = generator::form(random);
        let mut case = Case::of(random, style, &net, form, 8_192);
        case.compare(same);
        demand3::in_step(same, random, style, &net, 16);
        damage::damage(random, &mut case, &mut net);
        case.compare(same);
    }
}

/// Small sheets cut at every offset, for every call.
fn cut_everywhere(same: &mut Same, random: &mut Random) {
    let style = random.pick(&STYLES);
    let net = generator::net(random, style, 3, 2, 4);
    let example = PlainNet::plain(1, &[(5, 3), (OPEN, 0)], &[arc(0, 0, 1, 0, 4), arc(0, 1, 0, 1, OPEN)]);
    for form in Form::ALL {
        let case = Case::of(random, style, &net, form, 6);
        truncation::every_call(same, &case);
        truncation::every_call(same, &Case::of(random, Style::Small, &example, form, 4));
    }
}

/// The largest net sheet of a version and rule, its weights and the longest list, cut at every offset, for the readers.
fn largest_cut(same: &mut Same, random: &mut Random, form: Form, length: usize) {
    let net = limits::net(random, Style::Lively, (64, 4, 64, 4, 2_048));
    let case = Case::of(random, Style::Lively, &net, form, 8_192);
    assert_eq!(case.net.len(), length);
    truncation::every_reader(same, &case);
}
