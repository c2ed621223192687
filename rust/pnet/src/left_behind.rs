//! What a marking has too many, in kilograms.

use crate::calls::{audit, change};
use crate::kinds::{Mode, Thing};
use crate::refusal::Refusal;

/// The kilograms that stand in a marking's figure and should not, by the complement's marking: the sum, over all pairs of finite K, of the
/// weight times (the count plus the complement pair's count, less K). Where removals were entered and their tokens not taken away, it is the
/// weight of what was left behind; it is negative where tokens are missing that weigh. Pairs of unbounded K are not watched, and add nothing.
///
/// Refused is what [`change`] refuses of the net and of the weights, then what [`audit`] refuses. The sum is worked out here from the two
/// sheets: of the engine's calls, only those two are proved.
///
/// ```
/// use pnet::{OutOfStep, Pair, audit, left_behind};
///
/// // the small net of docs/RULES.md: aboard (K 5), ashore (unbounded); 250 kg an item aboard
/// let net = [
///     0, 0, 0, 61, 1, 0, 2, 0, 1, 0, 1, 0, 1, 0, 1, 0, 0, 0, 5, 0, 0, 0, 3, 255, 255, 255, 255, 0, 0, 0, 0, 0, 2, //
///     0, 0, 0, 0, 0, 0, 0, 1, 0, 0, 0, 0, 0, 0, 0, 4, 0, 0, 0, 1, 0, 0, 0, 0, 0, 0, 0, 1, 255, 255, 255, 255,
/// ];
/// let weights = [0, 0, 0, 11, 1, 0, 2, 0, 0, 0, 250, 0, 0, 0, 0];
///
/// // one item was landed: 2 aboard, 1 ashore, room for 3
/// assert_eq!(audit(&net, &[2, 1], &[2, 1, 3])?, None);
/// // it was put ashore, and not taken away aboard
/// assert_eq!(audit(&net, &[3, 1], &[2, 1, 3])?, Some(OutOfStep { pair: Pair(0), excess: 1 }));
/// assert_eq!(left_behind(&net, &weights, &[3, 1], &[2, 1, 3])?, 250);
/// # Ok::<(), pnet::Refusal>(())
/// ```
pub fn left_behind(
    net: &[u8],
    weights: &[u8],
    marking: &[u32],
    complement_marking: &[u32],
) -> Result<i64, Refusal> {
    match change(net, weights, Mode(0)) {
        // A net without modes has weights too.
        Err(refusal) if refusal.thing() != Thing::Argument => return Err(refusal),
        _ => audit(net, marking, complement_marking)?,
    };
    let two = |at: usize| usize::from(u16::from_be_bytes([net[at], net[at + 1]]));
    let four = |sheet: &[u8], at: usize| [sheet[at], sheet[at + 1], sheet[at + 2], sheet[at + 3]];
    // In version 2 the rule byte comes before the counts.
    let counts_at = if net[4] == 2 { 6 } else { 5 };
    let pairs_at = counts_at + 4 + 2 * two(counts_at) + 2 * two(counts_at + 2);
    let mut complement_counts = &complement_marking[marking.len()..];
    let mut kilograms = 0;
    for (pair, &count) in marking.iter().enumerate() {
        let capacity = u32::from_be_bytes(four(net, pairs_at + 8 * pair));
        if capacity == u32::MAX {
            continue;
        }
        let (&room, after) = complement_counts.split_first().expect("one for each pair of finite K");
        complement_counts = after;
        let weight = i32::from_be_bytes(four(weights, 7 + 4 * pair));
        // At most 128 products of 2^33 by 1,000,000: the sum is exact.
        kilograms += i64::from(weight) * (i64::from(count) + i64::from(room) - i64::from(capacity));
    }
    Ok(kilograms)
}
