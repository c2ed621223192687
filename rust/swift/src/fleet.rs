//! "Fleet statement": ships counted one after another in a record that the caller lends.

use crate::answer::{ARGUMENT, Answer, NET, WEIGHTS};
use crate::layout::{pair_of, whole_net};
use crate::list::whole_list;
use crate::run::run_from;
use crate::weights::{changes_of, weights_at};

/// The running record.
#[derive(Clone, Copy, Debug, Default, PartialEq, Eq)]
pub struct Fleet {
    /// Ships counted.
    pub ships: u64,
    /// Movements accepted.
    pub movements: u64,
    /// Movements refused by 6, 11, 12, 13 and 14.
    pub refused: [u64; 5],
    /// The sum of the positive weight changes.
    pub added: i64,
    /// The sum of the sizes of the negative ones.
    pub removed: i64,
}

/// 10^18.
const FIGURE: i64 = 1_000_000_000_000_000_000;

/// Counts one ship; one that is refused leaves the record as found.
pub fn fleet_add(record: &mut Fleet, net: &[u8], weights: &[u8], movements: &[u8]) -> Answer {
    match with_ship(record, net, weights, movements) {
        Ok(counted) => {
            *record = counted;
            Answer::ACCEPTED
        }
        Err(answer) => answer,
    }
}

fn with_ship(record: &Fleet, net: &[u8], run: &[u8], movements: &[u8]) -> Result<Fleet, Answer> {
    check(record)?;
    let layout = whole_net(net)?;
    let (weights, rest) = weights_at(run, layout.pairs)?;
    if !rest.is_empty() {
        return Err(Answer::refused(3, WEIGHTS, run.len() - rest.len()));
    }
    let list = whole_list(movements)?;
    let mut marking = [0; 256];
    for (count, bytes) in marking.iter_mut().zip(layout.table) {
        *count = pair_of(bytes).1;
    }
    let (reach, answer) = run_from(&layout, list, &mut marking);
    let changes = changes_of(&layout, &weights);
    let mut counted =
        Fleet { ships: record.ships + 1, movements: record.movements + reach.accepted as u64, ..*record };
    match answer.number {
        0 => {}
        6 => counted.refused[0] += 1,
        number => counted.refused[number as usize - 10] += 1,
    }
    for mode in &list[..reach.accepted] {
        let change = changes[usize::from(mode[1])];
        counted.added += change.max(0);
        counted.removed -= change.min(0);
    }
    let passed = counted.added > FIGURE || counted.removed > FIGURE;
    if passed { Err(Answer::refused(24, NET, 0)) } else { Ok(counted) }
}

/// 25 for a record out of its bounds, then 4 for ship 1,001.
fn check(record: &Fleet) -> Result<(), Answer> {
    let most = record.refused.iter().fold(record.ships, |most, &count| most.max(count));
    let figures = [record.added, record.removed].iter().all(|figure| (0..=FIGURE).contains(figure));
    if most > 1_000 || record.movements > 8_192_000 || !figures {
        return Err(Answer::refused(25, NET, 0));
    }
    if record.ships == 1_000 { Err(Answer::refused(4, ARGUMENT, 0)) } else { Ok(()) }
}
