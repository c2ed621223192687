//! "Proof that a state can't happen": a weight sheet and a claimed marking.

use crate::answer::{Answer, Refusal, Thing};
use crate::change::change_of;
use crate::figure::figure_of;
use crate::marking::check_marking;
use crate::net_sheet::whole_net;
use crate::weight_sheet::whole_weights;

/// "Accept it exactly when the weight change of every mode is 0 and the figure of the claimed marking differs from that
/// of the first marking."
pub fn exclude(net: &[u8], weights: &[u8], claim: &[u32]) -> Answer {
    Answer::of(&try_exclude(net, weights, claim))
}

/// "Refusals: net, weights, marking, then 21 with the first unbalanced mode, then 22 when the figures are equal." "Claims
/// above capacity are refused by 9."
fn try_exclude(net: &[u8], weights: &[u8], claim: &[u32]) -> Result<(), Answer> {
    let net = whole_net(net)?;
    let weights = whole_weights(weights, net.pair_count())?;
    check_marking(&net, claim)?;
    if let Some(mode) = net.all_modes().find(|&mode| change_of(&net, &weights, mode) != 0) {
        return Err(Answer::refused(Refusal::Unbalanced, Thing::Net, mode.index()));
    }
    if figure_of(&weights, claim) == figure_of(&weights, &net.first) {
        return Err(Answer::refused(Refusal::EqualFigures, Thing::Net, 0));
    }
    Ok(())
}
