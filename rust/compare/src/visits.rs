//! The arcs that a run visits: at most the movements tried times the largest arc count of a mode, both read off the sheets here.

use pnet::Ran;

use crate::hits::Hits;

/// Of a run over sheets that were accepted: how it went stays within the bound.
pub fn bounded(hits: &mut Hits, net: &[u8], movements: &[u8], ran: &Ran, stopped: bool) {
    let counts = arc_counts(net);
    let tried = ran.accepted + usize::from(stopped);
    let most = tried * counts.iter().max().unwrap_or(&0);
    assert!(ran.arcs <= most, "{} arcs where {most} are the most, on {net:?} {movements:?}", ran.arcs);
    if ran.arcs == most && tried > 1 && most > 0 {
        hits.value("arcs at their bound");
    }
    let modes: Vec<usize> = movements[5..].chunks(2).map(two).take(tried).collect();
    if modes[..ran.accepted].iter().any(|&mode| counts[mode] == 0) {
        hits.value("a mode without arcs ran");
    }
    if stopped {
        hits.value(match counts.get(modes[ran.accepted]) {
            None => "a missing mode, and no arc visited",
            Some(_) => "a refused movement, and its arcs visited",
        });
    }
}

/// How many arcs each mode has.
fn arc_counts(net: &[u8]) -> Vec<usize> {
    let at = if net[4] == 2 { 6 } else { 5 };
    let (places, transitions) = (two(&net[at..]), two(&net[at + 2..]));
    let total = |at: usize, fields: usize| net[at..].chunks(2).take(fields).map(two).sum::<usize>();
    let (colours_at, modes_at) = (at + 4, at + 4 + 2 * places);
    let mut rest = &net[modes_at + 2 * transitions + 8 * total(colours_at, places)..];
    let mut counts = vec![0; total(modes_at, transitions)];
    if net[4] == 2 {
        for count in &mut counts {
            *count = two(rest);
            rest = &rest[2 + 14 * *count..];
        }
    } else {
        rest[2..].chunks(16).for_each(|arc| counts[two(arc)] += 1);
    }
    counts
}

fn two(bytes: &[u8]) -> usize {
    usize::from(u16::from_be_bytes([bytes[0], bytes[1]]))
}
