//! "Conversion from 1 to 2 and back, with the old bytes returned exactly."

use crate::answer::{Answer, NET};
use crate::layout::whole_net_of;
use crate::writer::{Counts, Rest};

/// Writes the sheet of version 2 of a net in version 1.
pub fn to_version_2(net: &[u8], output: &mut [u8]) -> Result<usize, Answer> {
    convert(net, 1, 2, output)
}

/// Writes the sheet of version 1 of a net in version 2.
pub fn to_version_1(net: &[u8], output: &mut [u8]) -> Result<usize, Answer> {
    convert(net, 2, 1, output)
}

fn convert(net: &[u8], from: u8, to: u8, output: &mut [u8]) -> Result<usize, Answer> {
    let layout = whole_net_of(net, from..=from)?;
    if layout.weak {
        return Err(Answer::refused(23, NET, 0));
    }
    let counts = Counts {
        places: layout.colours.len() / 2,
        transitions: layout.mode_counts.len() / 2,
        pairs: layout.pairs,
        modes: layout.modes,
        arcs: layout.arcs.len(),
    };
    let length = counts.length(to);
    let mut rest = Rest(output.get_mut(..length).ok_or(Answer::refused(10, NET, 0))?);
    rest.head(to, false, &counts);
    rest.copy(layout.colours);
    rest.copy(layout.mode_counts);
    rest.copy(layout.table.as_flattened());
    rest.arcs(to, layout.modes, &layout.arcs);
    Ok(length)
}
