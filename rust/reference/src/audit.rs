//! A marking of a net beside one of its complement: the lowest pair at which the two are out of step.

use crate::answer::{Answer, Refusal, Thing};
use crate::bound::Bound;
use crate::complement::complemented_within_limits;
use crate::kinds::Pair;
use crate::marking::one_for_each_pair;
use crate::net::Net;
use crate::net_sheet::whole_net;

/// A pair of the net that is out of step.
#[derive(Clone, Copy, Debug, PartialEq, Eq)]
pub struct OutOfStep {
    /// The pair's number in the net.
    pub pair: Pair,
    /// "Count plus complement count less K where that is not 0 (bounded pair), else the net's count less the
    /// complement marking's count of that pair."
    pub excess: i64,
}

/// The lowest original pair that is out of step, or none: "the two markings differ on it, or it is bounded and its
/// count and its complement's do not add up to K". The counts "are compared and may be any".
pub fn audit(net: &[u8], marking: &[u32], complement_marking: &[u32]) -> Result<Option<OutOfStep>, Answer> {
    let net = whole_net(net)?;
    // Those of complementing: 15, then 10 for the sheet's limits; nothing is written, so no output is short.
    let complement = complemented_within_limits(&net)?;
    one_for_each_pair(&net, marking)?;
    if complement_marking.len() != complement.pairs.len() {
        return Err(Answer::refused(Refusal::NotEachPair, Thing::Argument, 0));
    }
    let (copies, mates) = complement_marking.split_at(net.pair_count());
    let excesses = excesses(&net, marking, copies, mates);
    let lowest = excesses.iter().position(|&excess| excess != 0);
    Ok(lowest.map(|pair| OutOfStep { pair: Pair::at(pair), excess: excesses[pair] }))
}

/// What each pair of the net is out of step by; 0 where it is in step.
fn excesses(net: &Net, marking: &[u32], copies: &[u32], mates: &[u32]) -> Vec<i64> {
    // Complement pairs stand "after all originals in rising order".
    let mut mates = mates.iter();
    let mut excess_of = |capacity: Bound, count: u32, copy: u32| {
        let sum = match capacity {
            Bound::Finite(capacity) => {
                let mate = mates.next().expect("one for each bounded pair");
                i64::from(count) + i64::from(*mate) - i64::from(capacity)
            }
            Bound::Unbounded => 0,
        };
        if sum != 0 { sum } else { i64::from(count) - i64::from(copy) }
    };
    (0..net.pair_count()).map(|pair| excess_of(net.capacity[pair], marking[pair], copies[pair])).collect()
}
