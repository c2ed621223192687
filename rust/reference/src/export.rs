//! "Exchange with PNML tools": export, "for nets whose K and I are all unbounded, such as our complements".

use crate::answer::{Answer, Refusal, Thing};
use crate::bound::Bound;
use crate::kinds::Pair;
use crate::net::Net;
use crate::net_sheet::whole_net;
use crate::output::written;
use crate::pnml::{CLOSE, Line, OPEN};
use crate::version::Version;

/// Writes the net's text. "For export the net's, 19 at the first finite K or I, 10 for a short output."
pub fn export_pnml(net: &[u8], output: &mut [u8]) -> Result<usize, Answer> {
    let net = whole_net(net)?;
    if let Some(offset) = first_bounded(&net) {
        return Err(Answer::refused(Refusal::Bounded, Thing::Net, offset));
    }
    written(text(&net).as_bytes(), output)
}

/// The field of the first finite K or I: "all K first, then the arcs' I, as they stand".
fn first_bounded(net: &Net) -> Option<usize> {
    let two = net.form.version() == Version::Two;
    let capacity = net.capacity.iter().position(|&capacity| capacity != Bound::Unbounded);
    // In version 2 the rule byte stands before them, and an arc has no mode.
    let field = |pair| net.plain().pair_offset(pair) as usize + usize::from(two);
    let arc = || net.arcs.iter().find(|arc| arc.flow.inhibitor != Bound::Unbounded);
    capacity.map(field).or_else(|| arc().map(|arc| arc.offset + if two { 10 } else { 12 }))
}

/// All places by pair number; then each transition, followed at once by its own arcs, Pre before Post.
fn text(net: &Net) -> String {
    let mut text = OPEN.to_string();
    let mut put = |line: Line, number: u32| {
        let number = line.least().map_or(String::new(), |_| number.to_string());
        text += &(line.head() + &number + line.tail());
    };
    for (pair, &count) in net.first.iter().enumerate() {
        put(Line::Place(Pair::at(pair)), count);
    }
    for mode in net.all_modes() {
        put(Line::Transition(mode), 0);
        for arc in net.arcs_of(mode) {
            for (line, weight) in
                [(Line::Pre(mode, arc.pair), arc.flow.pre), (Line::Post(mode, arc.pair), arc.flow.post)]
            {
                // "No such arc line (a weight must be positive)."
                if weight > 0 {
                    put(line, weight);
                }
            }
        }
    }
    text + CLOSE
}
