//! "A marking is a lent slice of 32-bit counts, one for each pair."

use crate::answer::{Answer, Refusal, Thing};
use crate::limits::LARGEST;
use crate::net::Net;

/// "Marking or weights not one for each pair": 17, for a marking or a claim.
pub fn one_for_each_pair(net: &Net, marking: &[u32]) -> Result<(), Answer> {
    if marking.len() != net.pair_count() {
        return Err(Answer::refused(Refusal::NotEachPair, Thing::Argument, 0));
    }
    Ok(())
}

/// "Then the marking (17, then pair by pair 5 before 9)."
pub fn check_marking(net: &Net, marking: &[u32]) -> Result<(), Answer> {
    one_for_each_pair(net, marking)?;
    for (pair, (&count, capacity)) in marking.iter().zip(&net.capacity).enumerate() {
        if count > LARGEST {
            return Err(Answer::refused(Refusal::Range, Thing::Argument, pair));
        }
        if capacity.is_below(count) {
            return Err(Answer::refused(Refusal::AboveCapacity, Thing::Argument, pair));
        }
    }
    Ok(())
}
