//! How large a net is.

use crate::answer::Answer;
use crate::net_sheet::whole_net;

/// How many pairs, modes and arcs a net has.
#[derive(Clone, Copy, Debug, PartialEq, Eq)]
pub struct Size {
    /// The places' colours in all.
    pub pairs: usize,
    /// The transitions' modes in all.
    pub modes: usize,
    /// The arcs that are written.
    pub arcs: usize,
}

/// "The net's refusals, then how many pairs, modes and arcs it has."
pub fn size(net: &[u8]) -> Result<Size, Answer> {
    let net = whole_net(net)?;
    Ok(Size { pairs: net.pair_count(), modes: net.mode_count(), arcs: net.arcs.len() })
}
