//! "Fleet statement": "takes one ship after another: a net, weights and movements".

use crate::answer::{Answer, Refusal, Thing};
use crate::change::change_of;
use crate::limits::{FIGURE, FLEET_MOVEMENTS, SHIPS};
use crate::movement_sheet::whole_movements;
use crate::net_sheet::whole_net;
use crate::run::run_from;
use crate::weight_sheet::whole_weights;

/// "One running record that the caller lends."
#[derive(Clone, Copy, Debug, Default, PartialEq, Eq)]
pub struct Fleet {
    /// "Ships counted."
    pub ships: u64,
    /// "Movements accepted."
    pub movements: u64,
    /// "Refused movements by number": by 6, 11, 12, 13 and 14.
    pub refused: [u64; 5],
    /// "Figure added": the sum "of the sizes of positive weight changes".
    pub added: i64,
    /// "Figure removed": the sum "of the sizes of negative weight changes".
    pub removed: i64,
}

/// The numbers by which a movement is refused, in the order of their counts.
const BY: [u32; 5] = [6, 11, 12, 13, 14];

/// Counts one ship. "A ship refused by any number below leaves the record as found."
pub fn fleet_add(record: &mut Fleet, net: &[u8], weights: &[u8], movements: &[u8]) -> Answer {
    let outcome = with_ship(*record, net, weights, movements);
    if let Ok(counted) = outcome {
        *record = counted;
    }
    Answer::of(&outcome)
}

/// 25, "4 for ship 1,001; those of the sheets; then 24 where a figure would pass 10^18".
fn with_ship(record: Fleet, net: &[u8], weights: &[u8], movements: &[u8]) -> Result<Fleet, Answer> {
    if !record.is_within_bounds() {
        return Err(Answer::refused(Refusal::RecordOutside, Thing::Net, 0));
    }
    if record.ships == SHIPS {
        return Err(Answer::refused(Refusal::Count, Thing::Argument, 0));
    }
    let net = whole_net(net)?;
    let weights = whole_weights(weights, net.pair_count())?;
    let movements = whole_movements(movements)?;
    let ran = run_from(&net, &movements, &mut net.first.clone());
    let mut counted = Fleet { ships: record.ships + 1, movements: record.movements + ran.accepted, ..record };
    // A run "stops at the first refused movement": the ship is counted all the same.
    if let Some(by) = BY.iter().position(|&number| number == ran.answer.number) {
        counted.refused[by] += 1;
    }
    for &mode in &movements[..ran.accepted as usize] {
        let change = change_of(&net, &weights, mode);
        counted.added += change.max(0);
        counted.removed += (-change).max(0);
    }
    if counted.added > FIGURE || counted.removed > FIGURE {
        return Err(Answer::refused(Refusal::FigureOutside, Thing::Net, 0));
    }
    Ok(counted)
}

impl Fleet {
    /// "25 for a lent record with ships or a refusal count above 1,000, movements above 8,192,000, or a figure below 0 or above 10^18."
    fn is_within_bounds(&self) -> bool {
        self.ships <= SHIPS
            && self.refused.iter().all(|&count| count <= SHIPS)
            && self.movements <= FLEET_MOVEMENTS
            && [self.added, self.removed].iter().all(|figure| (0..=FIGURE).contains(figure))
    }
}
