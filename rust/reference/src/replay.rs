//! The text that the program `replay` prints.

use crate::answer::{Answer, Refusal, Thing};
use crate::figure::figure_of;
use crate::firing::next_marking;
use crate::kinds::Mode;
use crate::limits::INPUT;
use crate::movement_sheet::movements_at;
use crate::net::Net;
use crate::net_sheet::net_at;
use crate::weight_sheet::weights_at;

/// "Standard input: a net sheet, a weight sheet, a movement sheet, then nothing."
pub fn replay(input: &[u8]) -> Vec<u8> {
    // "Input above 65,536 bytes prints only `long`."
    if input.len() > INPUT {
        return b"long\n".to_vec();
    }
    let text = match sheets(input) {
        Ok((net, weights, movements)) => lines(&net, &weights, &movements),
        // "A bad sheet prints only `bad`, the thing, the number and the position."
        Err(bad) => format!("bad {} {} {}\n", bad.thing, bad.number, bad.position),
    };
    text.into_bytes()
}

/// "Bytes after the third sheet count as movements, refusal 3, at the offset counted from that sheet's
/// first byte."
fn sheets(input: &[u8]) -> Result<(Net, Vec<i32>, Vec<Mode>), Answer> {
    let (net, taken) = net_at(input)?;
    let input = &input[taken..];
    let (weights, taken) = weights_at(input, net.pair_count())?;
    let input = &input[taken..];
    let (movements, taken) = movements_at(input)?;
    if input.len() > taken {
        return Err(Answer::refused(Refusal::Field, Thing::Movements, taken));
    }
    Ok((net, weights, movements))
}

/// "`start` and the figure"; a line for each accepted movement; `refused` for one that is not; `end`.
fn lines(net: &Net, weights: &[i32], movements: &[Mode]) -> String {
    let mut marking = net.first.clone();
    let mut text = format!("start {}\n", figure_of(weights, &marking));
    let mut accepted = 0;
    for &mode in movements {
        match next_marking(net, &marking, mode, Thing::Movements) {
            Ok(next) => {
                marking = next;
                accepted += 1;
                text += &format!("{} {} 0 {}\n", accepted, mode.0, figure_of(weights, &marking));
            }
            Err(Answer { number, position, amount, .. }) => {
                // "A fifth field of a `refused` line": the amount.
                text += &format!("refused {} {} {number} {position} {amount}\n", accepted + 1, mode.0);
                break;
            }
        }
    }
    text + &format!("end {} {}\n", accepted, figure_of(weights, &marking))
}
