//! The first marking, written into a lent slice.

use crate::answer::Answer;
use crate::marking::one_for_each_pair;
use crate::net_sheet::whole_net;

/// Writes the net's first marking: the net's refusals, then 17. A refused call writes nothing.
pub fn begin(net: &[u8], marking: &mut [u32]) -> Answer {
    Answer::of(&try_begin(net, marking))
}

fn try_begin(net: &[u8], marking: &mut [u32]) -> Result<(), Answer> {
    let net = whole_net(net)?;
    one_for_each_pair(&net, marking)?;
    marking.copy_from_slice(&net.first);
    Ok(())
}
