//! How fast the proved engine is beside Rust on the same input, in one process, all optimised for plain x86-64: `twopass` tests
//! a movement first and then writes it, `swift` does whatever is fastest.
//!
//!     bench                  times and instruction counts, as the tables of docs/BENCHMARKS.md
//!     bench times            the times alone
//!     bench inputs DIR       the inputs as files, for tests/beside.c
//!     bench once WORK ENGINE PART ARCS FORM TIMES    one piece of work so many times, for callgrind
//!
//! Times are the least of many repetitions, the engines in turn. Everything is warm: sheets, marking and output slice are used again
//! and are not cleared between repetitions; a marking is set back before each run, outside the time.

mod counts;
mod inputs;
mod works;

use std::env;
use std::path::Path;

use inputs::{Inputs, Size};
use reference::Form;
use works::{EXPORT, Figures, IMPORT, OTHERS, READ, RUN, SIZED, Work, of_a_sheet};

/// Full size, and so many times smaller.
const PARTS: [usize; 3] = [1, 4, 16];

/// What a table measures of a work at a size.
type Measure = fn(Work, Size) -> Figures;

fn main() {
    let words: Vec<String> = env::args().skip(1).collect();
    let words: Vec<&str> = words.iter().map(String::as_str).collect();
    match words[..] {
        [] => {
            tables("Microseconds, the least", "µs", times);
            texts(times);
            tables("Instructions, in thousands", "k", counts::instructions);
        }
        ["times"] => {
            tables("Microseconds, the least", "µs", times);
            texts(times);
        }
        ["inputs", folder] => {
            for part in PARTS {
                Inputs::of(Size::part(part)).write(Path::new(folder), part).expect("a folder to write to");
            }
        }
        ["once", work, engine, part, arcs, form, times] => {
            let number = |word: &str| word.parse::<usize>().expect("a number");
            let size = Size { part: number(part), arcs: number(arcs), form: Form::ALL[number(form)] };
            works::repeat(works::named(work), engine, &Inputs::of(size), number(times));
        }
        _ => panic!("bench [times | inputs DIR | once WORK ENGINE PART ARCS FORM TIMES]"),
    }
}

/// The least time of each engine, in microseconds.
fn times(work: Work, size: Size) -> Figures {
    works::least(work, &Inputs::of(size))
}

fn tables(title: &str, unit: &str, measure: Measure) {
    println!("\n### {title}\n");
    head("Size", unit);
    for work in SIZED {
        for part in PARTS {
            let size = Size::part(part);
            rows(work, size, &size.name(), measure);
        }
    }
    for work in OTHERS {
        rows(work, Size::part(1), "full", measure);
    }
    println!("\nFull size, by the version and the rule of the net sheet:\n");
    head("Version, rule", unit);
    for work in of_a_sheet() {
        for (form, named) in Form::ALL.into_iter().zip(["1", "2, rule 0", "2, rule 1"]) {
            rows(work, Size::form(form), named, measure);
        }
    }
    println!("\nRuns of 8,192 movements, by the arcs of a mode:\n");
    head("Arcs", unit);
    for arcs in [1, 2, 4, 8, 16] {
        rows(RUN, Size::arcs(arcs), &arcs.to_string(), measure);
    }
}

/// What a byte of a text in PNML costs.
fn texts(measure: Measure) {
    println!("\nNanoseconds a byte of a text in PNML:\n");
    println!("| Work | Size | bytes | engine, ns | swift, ns |");
    println!("|---|---|---|---|---|");
    for work in [EXPORT, IMPORT] {
        for part in PARTS {
            let (size, inputs) = (Size::part(part), Inputs::of(Size::part(part)));
            let bytes = if work.name == EXPORT.name { inputs.open_text } else { inputs.text.len() };
            let [engine, _, swift] =
                measure(work, size).map(|figure| figure.map_or(0.0, |figure| 1e3 * figure / bytes as f64));
            println!("| {} | {} | {bytes} | {engine:.2} | {swift:.2} |", work.name, size.name());
        }
    }
}

fn head(column: &str, unit: &str) {
    println!(
        "| Work | {column} | engine, {unit} | twopass, {unit} | swift, {unit} | of twopass | of swift |"
    );
    println!("|---|---|---|---|---|---|---|");
}

/// A work's row; a run has a second one, without what reading the net takes.
fn rows(work: Work, size: Size, named: &str, measure: Measure) {
    let figures = measure(work, size);
    row(work.name, named, figures);
    if work.name == RUN.name {
        let [engine, _, swift] = measure(READ, size);
        // `twopass` reads by `swift`.
        let alone = figures.iter().zip([engine, swift, swift]).map(|(all, read)| Some((*all)? - read?));
        row("run, without reading", named, alone.collect::<Vec<_>>().try_into().expect("three"));
    }
}

fn row(name: &str, named: &str, [engine, twopass, swift]: Figures) {
    let figure = |figure: Option<f64>| figure.map_or(String::new(), |figure| format!("{figure:.1}"));
    let ratio = |other: Option<f64>| match (engine, other) {
        (Some(engine), Some(other)) => format!("{:.2}", engine / other),
        _ => String::new(),
    };
    println!(
        "| {name} | {named} | {} | {} | {} | {} | {} |",
        figure(engine),
        figure(twopass),
        figure(swift),
        ratio(twopass),
        ratio(swift)
    );
}
