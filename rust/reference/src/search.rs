//! Looking for a marking by brute force: no rule is used but the capacities.

use crate::build::{OPEN, PlainNet};

/// The first marking within capacity, of counts up to `most`, that is accepted; pair 0 counts fastest.
/// There are up to (`most` + 1) to the power of the pairs: it is for small nets.
pub fn marking_where(net: &PlainNet, most: u32, mut accepts: impl FnMut(&[u32]) -> bool) -> Option<Vec<u32>> {
    let mut marking = vec![0; net.pairs.len()];
    while !accepts(&marking) {
        let room = |pair: &usize| marking[*pair] < most && fits(net.pairs[*pair].0, marking[*pair] + 1);
        let pair = (0..marking.len()).find(room)?;
        marking[..pair].fill(0);
        marking[pair] += 1;
    }
    Some(marking)
}

fn fits(capacity: u32, count: u32) -> bool {
    capacity == OPEN || count <= capacity
}
