//! "Stripping an area bare": a net sheet with one transition more, whose mode n has Pre n and I n at a pair.

use crate::answer::{ARGUMENT, Answer, NET, UNBOUNDED};
use crate::layout::{Layout, pair_of, whole_net};
use crate::writer::{Counts, Rest};

/// Writes the sheet, of the version and rule given: all of the old one stands as it stood, and the new fields come last of their kind.
pub fn strip(net: &[u8], pair: u16, output: &mut [u8]) -> Result<usize, Answer> {
    let layout = whole_net(net)?;
    let bytes = layout.table.get(usize::from(pair)).ok_or(Answer::refused(6, ARGUMENT, 0))?;
    let capacity = pair_of(bytes).0;
    if capacity == UNBOUNDED {
        return Err(Answer::refused(15, NET, 0));
    }
    let modes = capacity as usize + 1;
    let counts = Counts {
        places: layout.colours.len() / 2,
        transitions: layout.mode_counts.len() / 2 + 1,
        pairs: layout.pairs,
        modes: layout.modes + modes,
        arcs: layout.arcs.len() + modes,
    };
    let length = counts.length(layout.version);
    if exceeds(&counts, modes) || output.len() < length {
        return Err(Answer::refused(10, NET, 0));
    }
    let mut rest = Rest(&mut output[..length]);
    rest.head(layout.version, layout.weak, &counts);
    rest.copy(layout.colours);
    rest.copy(layout.mode_counts);
    rest.put((modes as u16).to_be_bytes());
    rest.copy(layout.table.as_flattened());
    match layout.version {
        1 => arcs(&mut rest, &layout, pair, modes),
        _ => arcs_of_modes(&mut rest, net, &layout, pair, modes),
    }
    Ok(length)
}

/// "K is above 63, another limit is passed."
fn exceeds(counts: &Counts, modes: usize) -> bool {
    modes > 64 || counts.transitions > 64 || counts.modes > 256 || counts.arcs > 2_048
}

/// The arc count and the arcs, of 16 bytes each.
fn arcs(rest: &mut Rest, layout: &Layout, pair: u16, modes: usize) {
    rest.put(((layout.arcs.len() + modes) as u16).to_be_bytes());
    rest.copy(layout.arcs.as_flattened());
    let key = (layout.modes as u32) << 16 | u32::from(pair);
    for n in 0..modes as u32 {
        let (high, low) = (u64::from(key + (n << 16)) << 32 | u64::from(n), u64::from(n));
        rest.put((u128::from(high) << 64 | u128::from(low)).to_be_bytes());
    }
}

/// The arcs under their counts as they stand in the sheet, then for each new mode the count 1 and its arc: 16 bytes too.
fn arcs_of_modes(rest: &mut Rest, net: &[u8], layout: &Layout, pair: u16, modes: usize) {
    rest.copy(&net[net.len() - 2 * layout.modes - 14 * layout.arcs.len()..]);
    let key = 1 << 16 | u32::from(pair);
    for n in 0..modes as u64 {
        rest.put((u128::from(u64::from(key) << 32 | n) << 64 | u128::from(n)).to_be_bytes());
    }
}
