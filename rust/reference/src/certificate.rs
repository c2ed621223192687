//! "A certificate is a movement list and a claimed marking."

use crate::answer::{Answer, Refusal, Thing};
use crate::marking::one_for_each_pair;
use crate::movement_sheet::whole_movements;
use crate::net_sheet::whole_net;
use crate::run::run_from;

/// "Accepted exactly when the list runs whole from the first marking and ends at the claim."
pub fn certify(net: &[u8], movements: &[u8], claim: &[u32]) -> Answer {
    Answer::of(&try_certify(net, movements, claim))
}

/// "Certificate: net, movements, 17 for the claim, the run (6, 11 to 14), 18."
fn try_certify(net: &[u8], movements: &[u8], claim: &[u32]) -> Result<(), Answer> {
    let net = whole_net(net)?;
    let movements = whole_movements(movements)?;
    one_for_each_pair(&net, claim)?;
    let mut marking = net.first.clone();
    let answer = run_from(&net, &movements, &mut marking).answer;
    if answer != Answer::ACCEPTED {
        return Err(answer);
    }
    // "The claim's counts are compared and not range-checked": 18 at the lowest differing pair.
    match (0..claim.len()).find(|&pair| claim[pair] != marking[pair]) {
        Some(pair) => Err(Answer::refused(Refusal::OtherMarking, Thing::Argument, pair)),
        None => Ok(()),
    }
}
