//! Sheets cut at every offset, as they are and with an L that says so.

use crate::case::Case;
use crate::damage::relabel;
use crate::same::Same;

/// Every call on the case with one of its sheets cut at every offset.
pub fn every_call(same: &mut Same, case: &Case) {
    for cut in 0..case.net.len() {
        with_cut(&case.net, cut, |net| Case { net, ..case.clone() }.compare(same));
    }
    for cut in 0..case.weights.len() {
        with_cut(&case.weights, cut, |weights| Case { weights, ..case.clone() }.compare(same));
    }
    for cut in 0..case.movements.len() {
        with_cut(&case.movements, cut, |movements| Case { movements, ..case.clone() }.compare(same));
    }
}

/// Every reader on its sheet cut at every offset.
pub fn every_reader(same: &mut Same, case: &Case) {
    (0..case.net.len()).for_each(|cut| with_cut(&case.net, cut, |net| same.read_net(&net)));
    (0..case.weights.len())
        .for_each(|cut| with_cut(&case.weights, cut, |weights| same.read_weights(&weights, case.pairs)));
    (0..case.movements.len())
        .for_each(|cut| with_cut(&case.movements, cut, |movements| same.read_movements(&movements)));
}

/// The sheet cut at an offset, then the same with an L that says so.
fn with_cut(sheet: &[u8], cut: usize, mut compare: impl FnMut(Vec<u8>)) {
    let mut cut_off = sheet[..cut].to_vec();
    compare(cut_off.clone());
    if cut >= 4 {
        relabel(&mut cut_off);
        compare(cut_off);
    }
}
