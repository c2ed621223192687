//! The pieces of work that are measured, and who does them.

use std::hint::black_box;
use std::time::Instant;

use pnet::{Mode, Pair};

use crate::inputs::Inputs;

/// Who does the work: the proved engine through its wrapper, a run in Rust that tests first and then writes, and a program written for speed.
pub const ENGINES: [&str; 3] = ["engine", "twopass", "swift"];

/// A figure of each engine that does the work.
pub type Figures = [Option<f64>; 3];

/// What is written: used again from repetition to repetition.
struct Lent {
    marking: Vec<u32>,
    output: Vec<u8>,
}

/// One repetition: whether all was accepted, or the time says nothing.
type Once = fn(&Inputs, &mut Lent) -> bool;

/// A call, by each engine that has it.
#[derive(Clone, Copy)]
pub struct Work {
    pub name: &'static str,
    by: [Option<Once>; 3],
}

/// A call that the engine alone has.
const fn own(name: &'static str, once: Once) -> Work {
    Work { name, by: [Some(once), None, None] }
}

/// A call that `swift` has too.
const fn beside(name: &'static str, once: Once, swift: Once) -> Work {
    Work { name, by: [Some(once), None, Some(swift)] }
}

pub const READ: Work =
    beside("read", |i, _| pnet::read_net(&i.net).is_ok(), |i, _| swift::read_net(&i.net).0.number == 0);

pub const RUN: Work = Work {
    name: "run",
    by: [
        Some(|i, l| {
            let ran = pnet::run(&i.net, &i.movements, &mut l.marking);
            ran.result.is_ok() && ran.arcs as u64 == i.visited
        }),
        Some(|i, l| whole(twopass::run(&i.net, &i.movements, &mut l.marking), i)),
        Some(|i, l| whole(swift::run(&i.net, &i.movements, &mut l.marking), i)),
    ],
};

/// Whether the list ran whole, with every arc visited.
fn whole(ran: swift::Ran, inputs: &Inputs) -> bool {
    ran.answer.number == 0 && ran.arcs == inputs.visited
}

pub const COMPLEMENT: Work = beside(
    "complement",
    |i, l| pnet::complement(&i.bounded, &mut l.output).is_ok(),
    |i, l| swift::complement(&i.bounded, &mut l.output).is_ok(),
);

pub const STATEMENT: Work = beside(
    "statement",
    |i, l| pnet::statement(&i.input, &mut l.output).is_ok(),
    |i, _| !swift::replay(&i.input).is_empty(),
);

pub const EXPORT: Work = beside(
    "export_pnml",
    |i, l| pnet::export_pnml(&i.open, &mut l.output) == Ok(i.open_text),
    |i, l| swift::export_pnml(&i.open, &mut l.output) == Ok(i.open_text),
);

pub const IMPORT: Work = beside(
    "import_pnml",
    |i, l| pnet::import_pnml(&i.text, &mut l.output).is_ok(),
    |i, l| swift::import_pnml(&i.text, &mut l.output).is_ok(),
);

/// The works that are measured at every size.
pub const SIZED: [Work; 6] = [READ, RUN, COMPLEMENT, STATEMENT, EXPORT, IMPORT];

/// The works that are given a net sheet of either version and rule.
pub fn of_a_sheet() -> impl Iterator<Item = Work> {
    let others = ["import_pnml", "read_weights", "read_movements", "to_version_2", "to_version_1"];
    SIZED.into_iter().chain(OTHERS).filter(move |work| !others.contains(&work.name))
}

/// The other calls, at full size; a call with a mode is given the last.
pub const OTHERS: [Work; 20] = [
    beside("size", |i, _| pnet::size(&i.net).is_ok(), |i, _| swift::size(&i.net).is_ok()),
    own("read_weights", |i, _| pnet::read_weights(&i.weights, i.pairs).is_ok()),
    own("read_movements", |i, _| pnet::read_movements(&i.movements).is_ok()),
    own("begin", |i, l| pnet::begin(&i.net, &mut l.marking).is_ok()),
    own("test", |i, l| pnet::test(&i.net, &l.marking, Mode(i.last)).is_ok()),
    own("fire", |i, l| pnet::fire(&i.net, &mut l.marking, Mode(i.last)).is_ok()),
    own("test_step", |i, l| pnet::test_step(&i.net, &l.marking, &i.members).is_ok()),
    Work {
        name: "fire_step",
        by: [
            Some(|i, l| pnet::fire_step(&i.net, &mut l.marking, &i.members).is_ok()),
            Some(|i, l| twopass::fire_step(&i.net, &mut l.marking, &i.step).number == 0),
            None,
        ],
    },
    // The longest list, cut in its last movement.
    beside(
        "salvage",
        |i, l| {
            let salvaged = pnet::salvage(&i.net, i.cut(), &mut l.output);
            salvaged.is_ok_and(|salvaged| salvaged.kept == i.cut().len() / 2 - 3)
        },
        |i, l| {
            let salvaged = swift::salvage(&i.net, i.cut(), &mut l.output);
            salvaged.is_ok_and(|salvaged| salvaged.kept == i.cut().len() / 2 - 3)
        },
    ),
    beside(
        "fleet_add",
        |i, _| {
            let mut record = pnet::Fleet::default();
            pnet::fleet_add(&mut record, &i.net, &i.weights, &i.movements).is_ok() && record.refused == [0; 5]
        },
        |i, _| {
            let mut record = swift::Fleet::default();
            swift::fleet_add(&mut record, &i.net, &i.weights, &i.movements).number == 0
                && record.refused == [0; 5]
        },
    ),
    own("certify", |i, _| pnet::certify(&i.net, &i.movements, &i.claim).is_ok()),
    own("figure", |i, l| pnet::figure(&i.net, &i.weights, &l.marking).is_ok()),
    own("change", |i, _| pnet::change(&i.net, &i.weights, Mode(i.last)).is_ok()),
    // Every mode is looked at, and both figures: they are equal.
    beside(
        "exclude",
        |i, _| pnet::exclude(&i.net, &i.weightless, &i.claim).is_err_and(|refusal| refusal.number() == 22),
        |i, _| swift::exclude(&i.net, &i.weightless, &i.claim).number == 22,
    ),
    own("is_dead", |i, _| pnet::is_dead(&i.net, Mode(i.last)) == Ok(false)),
    own("first_dead", |i, _| pnet::first_dead(&i.net) == Ok(None)),
    beside(
        "strip",
        |i, l| pnet::strip(&i.strippable, Pair(i.pairs as u16 - 1), &mut l.output).is_ok(),
        |i, l| swift::strip(&i.strippable, i.pairs as u16 - 1, &mut l.output).is_ok(),
    ),
    beside(
        "to_version_2",
        |i, l| pnet::to_version_2(&i.versions[0], &mut l.output).is_ok(),
        |i, l| swift::to_version_2(&i.versions[0], &mut l.output).is_ok(),
    ),
    beside(
        "to_version_1",
        |i, l| pnet::to_version_1(&i.versions[1], &mut l.output).is_ok(),
        |i, l| swift::to_version_1(&i.versions[1], &mut l.output).is_ok(),
    ),
    beside(
        "audit",
        |i, _| pnet::audit(&i.bounded, &i.half, &i.both) == Ok(None),
        |i, _| swift::audit(&i.bounded, &i.half, &i.both) == Ok(None),
    ),
];

/// The work of this name.
pub fn named(name: &str) -> Work {
    SIZED.into_iter().chain(OTHERS).find(|work| work.name == name).expect("a known work")
}

fn lent(inputs: &Inputs) -> Lent {
    Lent { marking: inputs.marking.clone(), output: vec![0; pnet::LARGEST_PNML] }
}

/// The work so many times.
pub fn repeat(work: Work, engine: &str, inputs: &Inputs, times: usize) {
    let mut lent = lent(inputs);
    let by = ENGINES.iter().position(|known| *known == engine).expect("a known engine");
    let once = work.by[by].expect("this engine does the work");
    for _ in 0..times {
        lent.marking.copy_from_slice(&inputs.marking);
        assert!(once(black_box(inputs), &mut lent), "{} is refused", work.name);
    }
}

/// The least time of each engine over many repetitions, in microseconds.
pub fn least(work: Work, inputs: &Inputs) -> Figures {
    let (mut least, mut lent) = (work.by.map(|once| once.map(|_| f64::MAX)), lent(inputs));
    for _ in 0..1_000 {
        for (once, least) in work.by.into_iter().zip(&mut least) {
            let (Some(once), Some(least)) = (once, least) else { continue };
            lent.marking.copy_from_slice(&inputs.marking);
            let start = Instant::now();
            let accepted = black_box(once(black_box(inputs), &mut lent));
            *least = least.min(1e6 * start.elapsed().as_secs_f64());
            assert!(accepted, "{} is refused", work.name);
        }
    }
    least
}

impl Work {
    /// A figure of each engine that does the work.
    pub fn each(self, figure: impl Fn(&str) -> f64) -> Figures {
        let mut figures = [None; 3];
        for ((into, engine), once) in figures.iter_mut().zip(ENGINES).zip(self.by) {
            *into = once.map(|_| figure(engine));
        }
        figures
    }
}
