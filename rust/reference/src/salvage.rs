//! "Salvage of a cut movement sheet": "a tablet dies and its upload ends early".

use crate::answer::{Answer, Refusal, Thing};
use crate::build::movements;
use crate::kinds::Mode;
use crate::limits::MOVEMENTS;
use crate::net_sheet::whole_net;
use crate::output::written;
use crate::run::run_from;
use crate::version::Version;

/// What was salvaged.
#[derive(Clone, Copy, Debug, PartialEq, Eq)]
pub struct Salvaged {
    /// The bytes of the fresh sheet.
    pub length: usize,
    /// "Movements kept."
    pub kept: usize,
    /// "Movements considered but dropped."
    pub dropped: usize,
    /// "The first refusal's number and position, 0 and 0 if none": the answer of the movement after those kept.
    pub stop: Answer,
}

/// "It writes a fresh sheet with the longest run of leading modes that the net accepts from its first marking."
pub fn salvage(net: &[u8], damaged: &[u8], output: &mut [u8]) -> Result<Salvaged, Answer> {
    let net = whole_net(net)?;
    let considered = considered(damaged)?;
    let ran = run_from(&net, &considered, &mut net.first.clone());
    let kept = ran.accepted as usize;
    let leading: Vec<u16> = considered[..kept].iter().map(|mode| mode.0).collect();
    let length = written(&movements(&leading), output)?;
    Ok(Salvaged { length, kept, dropped: considered.len() - kept, stop: ran.answer })
}

/// "1 for fewer than 5 bytes, 3 for L = 0, 2". It "ignores bytes past the declared length, uses what is there when the length claims
/// more, drops a lone last byte, and considers at most 8,192 modes".
fn considered(damaged: &[u8]) -> Result<Vec<Mode>, Answer> {
    let refuse = |refusal, position| Answer::refused(refusal, Thing::Movements, position);
    let &[a, b, c, d, version, ref body @ ..] = damaged else { return Err(refuse(Refusal::Short, 0)) };
    let length = u32::from_be_bytes([a, b, c, d]) as usize;
    if length == 0 {
        return Err(refuse(Refusal::Field, 0));
    }
    if version != Version::One as u8 {
        return Err(refuse(Refusal::Version, 4));
    }
    // The version byte is the first of the L.
    let declared = &body[..body.len().min(length - 1)];
    Ok(declared.as_chunks().0.iter().take(MOVEMENTS).map(|&mode| Mode(u16::from_be_bytes(mode))).collect())
}
