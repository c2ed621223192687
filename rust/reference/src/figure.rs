//! "The figure is the sum over all pairs of weight times count."

use crate::answer::Answer;
use crate::marking::check_marking;
use crate::net_sheet::whole_net;
use crate::weight_sheet::whole_weights;

/// The lightship figure of a marking, in kilograms. "Net, weights, movements, then the marking."
pub fn figure(net: &[u8], weights: &[u8], marking: &[u32]) -> Result<i64, Answer> {
    let net = whole_net(net)?;
    let weights = whole_weights(weights, net.pair_count())?;
    check_marking(&net, marking)?;
    Ok(figure_of(&weights, marking))
}

/// 256 products of at most 1,000,000 by 1,000,000: the sum is exact in 64 bits.
pub fn figure_of(weights: &[i32], marking: &[u32]) -> i64 {
    weights.iter().zip(marking).map(|(&weight, &count)| i64::from(weight) * i64::from(count)).sum()
}
