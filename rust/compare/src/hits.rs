//! How often each call gave each number and thing.

use std::collections::BTreeMap;
use std::fmt;

/// The calls that are compared.
#[derive(Clone, Copy, Debug, PartialEq, Eq, PartialOrd, Ord)]
pub enum Call {
    ReadNet,
    ReadWeights,
    ReadMovements,
    Begin,
    Test,
    Fire,
    TestStep,
    FireStep,
    Run,
    Salvage,
    FleetAdd,
    Certify,
    Figure,
    Change,
    Exclude,
    IsDead,
    FirstDead,
    Size,
    Complement,
    Strip,
    ToVersion2,
    ToVersion1,
    ExportPnml,
    ImportPnml,
    Audit,
    Statement,
}

use Call::*;

const CALLS: [Call; 26] = [
    ReadNet,
    ReadWeights,
    ReadMovements,
    Begin,
    Test,
    Fire,
    TestStep,
    FireStep,
    Run,
    Salvage,
    FleetAdd,
    Certify,
    Figure,
    Change,
    Exclude,
    IsDead,
    FirstDead,
    Size,
    Complement,
    Strip,
    ToVersion2,
    ToVersion1,
    ExportPnml,
    ImportPnml,
    Audit,
    Statement,
];

/// What a net's reader answers to a sheet that is long enough and of a version that it reads.
const READ: [u64; 8] = [0, 3, 4, 5, 6, 7, 8, 9];

/// An answer as number and thing.
type Told = (u64, u64);

/// A call must give each answer that it can give at least so often.
pub const ENOUGH: usize = 100;

const NET: &[Told] = &[(1, 0), (2, 0), (3, 0), (4, 0), (5, 0), (6, 0), (7, 0), (8, 0), (9, 0)];
const WEIGHTS: &[Told] = &[(1, 1), (2, 1), (3, 1), (5, 1), (17, 1)];
const MOVEMENTS: &[Told] = &[(1, 2), (2, 2), (3, 2), (4, 2)];
/// Of a fleet's record.
const FLEET: &[Told] = &[(4, 3), (24, 0), (25, 0)];
/// Of a damaged movement sheet.
const DAMAGED: &[Told] = &[(1, 2), (2, 2), (3, 2)];
const MARKING: &[Told] = &[(17, 3), (5, 3), (9, 3)];
const ONE_EACH: &[Told] = &[(17, 3)];
/// A mode or a pair that is not there.
const MODE: &[Told] = &[(6, 3)];
const STEP: &[Told] = &[(4, 3)];
const STOPPED: &[Told] = &[(11, 3), (12, 3), (13, 3), (14, 3)];
const MOVEMENT: &[Told] = &[(6, 2), (11, 2), (12, 2), (13, 2), (14, 2)];
const ELSEWHERE: &[Told] = &[(18, 3)];
const NO_ROOM: &[Told] = &[(10, 0)];
const OF_RULE_1: &[Told] = &[(23, 0)];
const COMPLEMENT: &[Told] = &[(15, 0), (10, 0)];
/// Of a net that has no text.
const BOUNDED: &[Told] = &[(19, 0)];
/// Of a text that is no export, and of one that is too large.
const TEXT: &[Told] = &[(20, 0), (4, 3)];

const EXCLUSION: &[Told] = &[(21, 0), (22, 0)];

/// Every refusal that docs/RULES.md lets a call give.
fn refusals(call: Call) -> Vec<Told> {
    match call {
        ReadNet | FirstDead | Size => NET.to_vec(),
        ReadWeights => WEIGHTS.to_vec(),
        ReadMovements => MOVEMENTS.to_vec(),
        Begin => [NET, ONE_EACH].concat(),
        Test | Fire => [NET, MARKING, MODE, STOPPED].concat(),
        TestStep | FireStep => [NET, MARKING, STEP, MODE, STOPPED].concat(),
        Run => [NET, MOVEMENTS, MARKING, MOVEMENT].concat(),
        Salvage => [NET, DAMAGED, NO_ROOM].concat(),
        FleetAdd => [NET, WEIGHTS, MOVEMENTS, FLEET].concat(),
        Certify => [NET, MOVEMENTS, ONE_EACH, MOVEMENT, ELSEWHERE].concat(),
        Figure => [NET, WEIGHTS, MARKING].concat(),
        Change => [NET, WEIGHTS, MODE].concat(),
        Exclude => [NET, WEIGHTS, MARKING, EXCLUSION].concat(),
        IsDead => [NET, MODE].concat(),
        Complement => [NET, COMPLEMENT].concat(),
        Strip => [NET, MODE, COMPLEMENT].concat(),
        ToVersion2 => [NET, NO_ROOM].concat(),
        ToVersion1 => [NET, OF_RULE_1, NO_ROOM].concat(),
        ExportPnml => [NET, BOUNDED, NO_ROOM].concat(),
        ImportPnml => [TEXT, NO_ROOM].concat(),
        Audit => [NET, COMPLEMENT, ONE_EACH].concat(),
        Statement => NO_ROOM.to_vec(),
    }
}

/// The counts of a comparison.
#[derive(Default)]
pub struct Hits {
    told: BTreeMap<(Call, Told), usize>,
    /// Runs of a list that is not empty, and those that were accepted whole.
    runs: usize,
    whole: usize,
    longest: usize,
    /// Values that are no numbers: yes, no, a mode named, none named; what a search for a marking found; what a text is of; by which of a net and its complement a step is accepted; that a complement refuses by more than its net; what a dead mode is there; what an audit found, and whose 17 it was; what a search for all markings in reach says of a claim; which arcs a run visits; which fault a sheet of version 2 has alone; what the two versions of a net have in common, and its two rules; what bound has no text, and where a text is no export.
    values: BTreeMap<&'static str, usize>,
    /// Refusals by an amount above 1, by their number.
    by_more: BTreeMap<u64, usize>,
    /// What a net's reader answers, by the version byte and the number.
    of_version: BTreeMap<(u8, u64), usize>,
}

impl Hits {
    pub fn told(&mut self, call: Call, number: u64, thing: u64) {
        *self.told.entry((call, (number, thing))).or_default() += 1;
    }

    pub fn ran(&mut self, accepted: usize, whole: bool) {
        self.runs += 1;
        self.whole += usize::from(whole);
        self.longest = self.longest.max(accepted);
    }

    pub fn by_more(&mut self, number: u64) {
        *self.by_more.entry(number).or_default() += 1;
    }

    pub fn of_version(&mut self, version: u8, number: u64) {
        *self.of_version.entry((version, number)).or_default() += 1;
    }

    pub fn value(&mut self, value: &'static str) {
        *self.values.entry(value).or_default() += 1;
    }

    fn of(&self, call: Call, told: Told) -> usize {
        self.told.get(&(call, told)).copied().unwrap_or(0)
    }

    pub fn total(&self) -> usize {
        self.told.values().sum()
    }

    /// What the comparison left too thin.
    pub fn wants(&self) -> Vec<String> {
        let mut wants = Vec::new();
        for call in CALLS {
            for told in [vec![(0, 0)], refusals(call)].concat() {
                let hits = self.of(call, told);
                if hits < ENOUGH {
                    wants.push(format!(
                        "{call:?} gave number {} of thing {} only {hits} times",
                        told.0, told.1
                    ));
                }
            }
        }
        for value in [
            "yes",
            "no",
            "named",
            "none named",
            "a marking found",
            "no marking found",
            "text of a whole run",
            "text of a stopped run",
            "text of a bad sheet",
            "long",
            "step of both",
            "step without an inhibitor",
            "by more in the complement",
            "dead, and 11 in the complement",
            "dead, and a number kept within 1,000,000",
            "in step",
            "out of step",
            "17 for the complement's marking",
            "the old fault found",
            "excluded, and out of reach",
            "reached, and not excluded",
            "out of reach, and not excluded",
            "arcs at their bound",
            "a mode without arcs ran",
            "a missing mode, and no arc visited",
            "a refused movement, and its arcs visited",
            "version 2 without its rule byte",
            "another rule byte",
            "an arc count past 2,048",
            "an arc count past L",
            "an arc of 14 bytes past L",
            "bytes returned exactly from version 1",
            "bytes returned exactly from version 2",
            "equal nets, and equal answers",
            "equal nets, and equal complements",
            "a net of rule 1, over every call",
            "stripped bare by one mode alone",
            "a ship counted",
            "a ship refused, and the record as found",
            "a record counted past its bounds",
            "added 10^18",
            "removed 10^18",
            "salvaged whole",
            "salvaged up to a 6",
            "salvaged up to an 11",
            "salvaged up to a 12",
            "salvaged up to a 13",
            "salvaged up to a 14",
            "modes past the 8,192nd",
            "a lone last byte dropped",
            "bytes past the declared length ignored",
            "a length that claims more",
            "equal nets, and equally stripped",
            "a marking found by rule 1",
            "no marking found by rule 1",
            "12 or 13 by rule 1, and 11 in the complement",
            "step of both by rule 1",
            "step of the net alone by rule 1, without an inhibitor",
            "a swap where there is no room, by rule 1 alone",
            "12 by both rules",
            "12 otherwise by rule 1",
            "13 by rule 1, where rule 0 gives 12",
            "dead by rule 0 alone",
            "no K, and nothing by the rule",
            "19 at a K",
            "19 at an I",
            "20 at a byte of a text",
            "20 at the end of a text",
            "4 for more than 64 pairs",
            "4 for more than 64 modes",
            "one text by every version and rule",
            "exported, imported, and run alike",
            "imported, and exported again",
            "equal nets, and equal texts",
        ] {
            if self.values.get(value).copied().unwrap_or(0) < ENOUGH {
                wants.push(format!("the value '{value}' came up too rarely"));
            }
        }
        for number in 11..=14 {
            if self.by_more.get(&number).copied().unwrap_or(0) < ENOUGH {
                wants.push(format!("{number} by more than 1 came up too rarely"));
            }
        }
        for (version, number) in [1, 2].into_iter().flat_map(|version| READ.map(|number| (version, number))) {
            if self.of_version.get(&(version, number)).copied().unwrap_or(0) < ENOUGH {
                wants.push(format!("{number} of version {version} came up too rarely"));
            }
        }
        if 3 * self.whole < self.runs {
            wants.push(format!("only {} of {} runs were accepted whole", self.whole, self.runs));
        }
        wants
    }
}

/// A row for each call, a column for each number; where a number has several things, one for each.
impl fmt::Display for Hits {
    fn fmt(&self, f: &mut fmt::Formatter) -> fmt::Result {
        for call in CALLS {
            write!(f, "{:<14}", format!("{call:?}"))?;
            for ((_, (number, thing)), hits) in self.told.range((call, (0, 0))..=(call, (u64::MAX, u64::MAX)))
            {
                write!(f, " {number}/{thing}:{hits}")?;
            }
            writeln!(f)?;
        }
        let values: Vec<String> = self.values.iter().map(|(value, hits)| format!("{value} {hits}")).collect();
        writeln!(f, "values: {}", values.join(", "))?;
        let by_more: Vec<String> =
            self.by_more.iter().map(|(number, hits)| format!("{number}:{hits}")).collect();
        writeln!(f, "by more than 1: {}", by_more.join(" "))?;
        let of_version: Vec<String> = self
            .of_version
            .iter()
            .filter(|((version, _), _)| [1, 2].contains(version))
            .map(|((version, number), hits)| format!("{version}/{number}:{hits}"))
            .collect();
        writeln!(f, "nets read, by version: {}", of_version.join(" "))?;
        writeln!(
            f,
            "runs: {}, {} of them accepted whole, the longest of {} movements",
            self.runs, self.whole, self.longest
        )
    }
}
