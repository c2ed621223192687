//! The fleet statement: one ship after another, in a running record.
#![allow(unsafe_code)]

use crate::fault::Fault;
use crate::kinds::Thing;
use crate::raw::{Sheets, pnet_fleet_add};
use crate::refusal::Refusal;

/// What a fleet did, of at most 1,000 ships. It begins with zeros, [`Fleet::default`], and is lent to [`fleet_add`] for each ship as the one before left it: so the
/// starting figures of the ships counted, plus `added`, less `removed`, are their last figures.
#[derive(Clone, Copy, Debug, Default, PartialEq, Eq, Hash)]
#[repr(C)]
pub struct Fleet {
    /// Ships counted.
    pub ships: u64,
    /// Movements accepted.
    pub movements: u64,
    /// Ships whose run was stopped, by 6, 11, 12, 13 and 14: at the movement that is refused a run ends.
    pub refused: [u64; 5],
    /// The sum of the weight changes above 0 of the accepted movements, in kilograms.
    pub added: i64,
    /// The sum of the sizes of those below 0.
    pub removed: i64,
}

/// Runs a ship's movements from its net's first marking, and counts it in the record. A movement that is refused ends the run, and is counted under its number: the ship
/// is accepted all the same. A ship that is refused leaves the record as it was: 25 for a record out of its bounds, 4 for ship 1,001, then the net, the weights and
/// the movements, and 24 where a figure would pass 10^18.
///
/// ```
/// use pnet::{Fleet, fleet_add};
///
/// // the small net of docs/RULES.md: three items aboard, of 250 kg, and four are to be landed
/// let net = [
///     0, 0, 0, 61, 1, 0, 2, 0, 1, 0, 1, 0, 1, 0, 1, 0, 0, 0, 5, 0, 0, 0, 3, 255, 255, 255, 255, 0, 0, 0, 0, 0, 2, //
///     0, 0, 0, 0, 0, 0, 0, 1, 0, 0, 0, 0, 0, 0, 0, 4, 0, 0, 0, 1, 0, 0, 0, 0, 0, 0, 0, 1, 255, 255, 255, 255,
/// ];
/// let weights = [0, 0, 0, 11, 1, 0, 2, 0, 0, 0, 250, 0, 0, 0, 0];
/// let movements = [0, 0, 0, 9, 1, 0, 0, 0, 0, 0, 0, 0, 0];
/// let mut record = Fleet::default();
/// fleet_add(&mut record, &net, &weights, &movements)?;
/// assert_eq!(record, Fleet { ships: 1, movements: 3, refused: [0, 1, 0, 0, 0], added: 0, removed: 750 });
/// # Ok::<(), pnet::Refusal>(())
/// ```
pub fn fleet_add(record: &mut Fleet, net: &[u8], weights: &[u8], movements: &[u8]) -> Result<(), Refusal> {
    // SAFETY: pointers and lengths are slices', which are only read; the record is lent by `&mut`.
    let answer = unsafe {
        pnet_fleet_add(
            record,
            net.as_ptr(),
            net.len(),
            weights.as_ptr(),
            weights.len(),
            movements.as_ptr(),
            movements.len(),
        )
    };
    let counted = answer.result(Sheets { net, weights, movements, ..Sheets::default() });
    // 4 of no sheet is of the record.
    counted.map_err(|refusal| match refusal.thing() {
        Thing::Argument => refusal.with(Fault::FleetFull),
        _ => refusal,
    })
}
