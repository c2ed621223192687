//! The fixed parts of a net's text in PNML, and three digits of every pair and mode.

pub const OPEN: &[u8; 187] = br#"<?xml version="1.0" encoding="UTF-8"?>
<pnml xmlns="http://www.pnml.org/version-2009/grammar/pnml">
  <net id="n" type="http://www.pnml.org/version-2009/grammar/ptnet">
    <page id="g">
"#;
pub const CLOSE: &[u8; 29] = b"    </page>\n  </net>\n</pnml>\n";

/// A line up to its number, the digits of its pair and mode 000.
pub const PLACE: &[u8; 45] = b"      <place id=\"p000\"><initialMarking><text>";
pub const TRANSITION: &[u8; 30] = b"      <transition id=\"t000\"/>\n";
pub const PRE: &[u8; 72] = b"      <arc id=\"i000-000\" source=\"p000\" target=\"t000\"><inscription><text>";
pub const POST: &[u8; 72] = b"      <arc id=\"o000-000\" source=\"t000\" target=\"p000\"><inscription><text>";

/// What follows the number.
pub const PLACE_END: &[u8; 33] = b"</text></initialMarking></place>\n";
pub const ARC_END: &[u8; 28] = b"</text></inscription></arc>\n";

/// Where the digits of a place's pair and of a transition's mode stand in their lines.
pub const PAIR_AT: usize = 18;
pub const MODE_AT: usize = 23;

/// Where the digits of an arc's mode and pair stand in its identifier, and those of its source and target.
pub const ARC_MODE_AT: usize = 16;
pub const ARC_PAIR_AT: usize = 20;
pub const SOURCE_AT: usize = 34;
pub const TARGET_AT: usize = 48;

/// The three digits of a number below 256.
pub const DIGITS: [[u8; 3]; 256] = {
    let mut digits = [[b'0'; 3]; 256];
    let mut number = 0;
    while number < 256 {
        digits[number][0] += (number / 100) as u8;
        digits[number][1] += (number / 10 % 10) as u8;
        digits[number][2] += (number % 10) as u8;
        number += 1;
    }
    digits
};

/// Puts three digits into a line.
#[inline(always)]
pub fn patch(line: &mut [u8], at: usize, number: usize) {
    line[at..at + 3].copy_from_slice(&DIGITS[number & 255]);
}

/// The beginnings of a mode's Pre lines and Post lines, with its digits in them.
pub fn arc_lines(mode: usize) -> [[u8; 72]; 2] {
    let mut lines = [*PRE, *POST];
    for (line, at) in lines.iter_mut().zip([TARGET_AT, SOURCE_AT]) {
        patch(line, ARC_MODE_AT, mode);
        patch(line, at, mode);
    }
    lines
}

/// Puts a pair's digits into a mode's Pre line, or Post line.
#[inline(always)]
pub fn patch_pair(line: &mut [u8; 72], post: bool, pair: usize) {
    patch(line, ARC_PAIR_AT, pair);
    patch(line, if post { TARGET_AT } else { SOURCE_AT }, pair);
}
