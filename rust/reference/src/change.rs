//! "A mode's weight change is the sum of weight times (Post less Pre)."

use crate::answer::{Answer, Thing};
use crate::arc::Flow;
use crate::firing::check_mode;
use crate::kinds::Mode;
use crate::net::Net;
use crate::net_sheet::whole_net;
use crate::weight_sheet::whole_weights;

/// The weight change of a mode, in kilograms: the net's refusals, the weights', then 6.
pub fn change(net: &[u8], weights: &[u8], mode: u16) -> Result<i64, Answer> {
    let net = whole_net(net)?;
    let weights = whole_weights(weights, net.pair_count())?;
    check_mode(&net, Mode(mode), Thing::Argument)?;
    Ok(change_of(&net, &weights, Mode(mode)))
}

/// The weight change of a mode of the net.
pub fn change_of(net: &Net, weights: &[i32], mode: Mode) -> i64 {
    let flows = net.flows(mode);
    let change =
        |(&weight, flow): (&i32, Flow)| i64::from(weight) * (i64::from(flow.post) - i64::from(flow.pre));
    weights.iter().zip(flows).map(change).sum()
}
