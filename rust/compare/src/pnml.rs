//! Exchange with PNML tools: a net without bounds comes back from its text with its pairs, modes, numbers and first marking, and runs as before; a text that was
//! changed is another export, or is refused.

use pnet::Size;
use reference::Form;
use reference::build::{OPEN, PlainNet, arc, movements};

use crate::case::walk;
use crate::same::{Plain, Same};
use generator::damaged_text::damaged;
use generator::{Random, form, total};

/// Room for the text of a net: 216 bytes open and close it, a place's line has at most 85, a transition's 30 and an arc's two lines 214.
pub fn room(size: Size) -> usize {
    216 + 85 * size.pairs + 30 * size.modes + 214 * size.arcs
}

/// What a 19 is at: every K stands before every I.
pub fn bounded(net: &[u8], at: u64) -> &'static str {
    let counts = if net[4] == 1 { 5 } else { 6 };
    let count = |at: usize| usize::from(u16::from_be_bytes([net[at], net[at + 1]]));
    let (places, colours) = (count(counts), counts + 4);
    let pairs: usize = (0..places).map(|place| count(colours + 2 * place)).sum();
    let arcs = colours + 2 * (places + count(counts + 2)) + 8 * pairs;
    if (at as usize) < arcs { "19 at a K" } else { "19 at an I" }
}

/// What an import answers is true of the text: one that is accepted is just what its sheet's export is.
pub fn holds(same: &mut Same, text: &[u8], answer: Plain, sheet: Option<&[u8]>) {
    if let Some(sheet) = sheet {
        let again = same.export_pnml(sheet, text.len());
        assert_eq!(again.as_deref(), Some(text), "{}: {}", same.part, String::from_utf8_lossy(text));
        same.hits.value("imported, and exported again");
    }
    let lines = |word: &[u8]| text.windows(word.len()).filter(|window| window == &word).count();
    match answer.0 {
        4 => {
            let (pairs, modes) = (lines(b"<place "), lines(b"<transition "));
            assert!(pairs > 64 || modes > 64, "{}: {pairs} pairs and {modes} modes", same.part);
            same.hits.value(if pairs > 64 { "4 for more than 64 pairs" } else { "4 for more than 64 modes" });
        }
        20 if answer.2 == text.len() as u64 => same.hits.value("20 at the end of a text"),
        20 => same.hits.value("20 at a byte of a text"),
        _ => {}
    }
}

/// The net with every K and I unbounded, and without the arcs that are blank so.
pub fn opened(mut net: PlainNet) -> PlainNet {
    net.pairs.iter_mut().for_each(|pair| pair.0 = OPEN);
    net.arcs.iter_mut().for_each(|arc| arc.inhibitor = OPEN);
    net.arcs.retain(|arc| arc.pre > 0 || arc.post > 0);
    net
}

/// The text of a net, the same by every version and rule, and one byte too long for a slice that is one shorter.
fn text_of(same: &mut Same, net: &PlainNet) -> Vec<u8> {
    let size = Size { pairs: net.pairs.len(), modes: total(&net.modes), arcs: net.arcs.len() };
    let [one, others @ ..] =
        Form::ALL.map(|form| same.export_pnml(&net.sheet_in(form), room(size)).expect("no bound is finite"));
    assert!(others.iter().all(|other| *other == one), "{}: {net:?}", same.part);
    same.hits.value("one text by every version and rule");
    assert_eq!(same.export_pnml(&net.sheet(), one.len() - 1), None);
    one
}

/// A net without bounds exported and imported, and then its text damaged; and the same net with one bound.
pub fn exchanged(same: &mut Same, random: &mut Random, net: PlainNet) {
    let mut net = opened(net);
    let text = text_of(same, &net);
    let plain = PlainNet::plain(total(&net.modes), &net.pairs, &net.arcs);
    let length = plain.sheet().len();
    let few = net.pairs.len() <= 64 && total(&net.modes) <= 64;
    assert_eq!(same.import_pnml(&text, length), few.then(|| plain.sheet()), "{}: {net:?}", same.part);
    same.import_pnml(&text, random.below(length));
    if few {
        let sheet = net.sheet_in(form(random));
        alike(same, random, &sheet, &plain);
    }
    for _ in 0..4 {
        let text = damaged(random, &text);
        same.import_pnml(&text, random.pick(&[length, length, length + 64, pnet::LARGEST_NET]));
    }
    if !net.arcs.is_empty() {
        let arc = random.below(net.arcs.len());
        net.arcs[arc].inhibitor = random.pick(&[0, 1, 999_999, 1_000_000]);
        same.export_pnml(&net.sheet_in(form(random)), 999);
    }
    let pair = random.below(net.pairs.len());
    net.pairs[pair] = random.pick(&[(0, 0), (1_000_000, 1_000_000), (5, 3)]);
    same.export_pnml(&net.sheet_in(form(random)), 999);
}

/// A list over the net that was exported and over the one that came back: the same answer, and the same marking.
fn alike(same: &mut Same, random: &mut Random, sheet: &[u8], back: &PlainNet) {
    let first: Vec<u32> = back.pairs.iter().map(|&(_, count)| count).collect();
    let list = movements(&walk(random, sheet, &first, back.modes.len(), 24));
    let (own, other) = (same.run(sheet, &list, &first), same.run(&back.sheet(), &list, &first));
    assert_eq!(own, other, "{}: {back:?}", same.part);
    same.hits.value("exported, imported, and run alike");
}

/// A text with every line and both ends of its numbers, cut everywhere, each of its bytes replaced by every other, taken out and doubled.
pub fn every_byte(same: &mut Same) {
    let arcs = [arc(0, 0, 1, 1_000_000, OPEN), arc(0, 2, 0, 10, OPEN), arc(2, 1, 999_999, 0, OPEN)];
    let net = PlainNet::plain(3, &[(OPEN, 0), (OPEN, 1_000_000), (OPEN, 27)], &arcs);
    let (text, length) = (text_of(same, &net), net.sheet().len());
    for at in 0..text.len() {
        same.import_pnml(&text[..at], length);
        same.import_pnml(&[&text[..at], &text[at + 1..]].concat(), length);
        same.import_pnml(&[&text[..=at], &text[at..]].concat(), length);
        let mut other = text.clone();
        for byte in (0..=u8::MAX).filter(|&byte| byte != text[at]) {
            other[at] = byte;
            same.import_pnml(&other, length);
        }
    }
}

/// As many of all places or transitions of one colour as there are, up to 64; beyond, in places of 64.
fn split(all: usize) -> Vec<u16> {
    if all > 64 { [vec![64; all / 64], vec![1; all % 64]].concat() } else { vec![1; all] }
}

/// Both sides of 64 and 256 pairs and modes and of 2,048 arcs, with the largest numbers, and one line more at the end.
pub fn at_limits(same: &mut Same, random: &mut Random) {
    let sizes = [
        (1, 0, 0, 301),
        (64, 64, 2_048, 445_848),
        (65, 64, 2_048, 445_933),
        (64, 65, 2_047, 445_664),
        (256, 256, 2_048, pnet::LARGEST_PNML),
        (3, 256, 768, 172_503),
    ];
    for (pairs, modes, arcs, length) in sizes {
        let each = usize::div_ceil(arcs, modes.max(1));
        let arcs = (0..arcs).map(|n| arc((n / each) as u16, (n % each) as u16, 1_000_000, 1_000_000, OPEN));
        let mut net = PlainNet {
            colours: split(pairs),
            modes: split(modes),
            pairs: vec![(OPEN, 1_000_000); pairs],
            arcs: arcs.collect(),
        };
        let text = text_of(same, &net);
        assert_eq!(text.len(), length, "{}: {pairs} pairs, {modes} modes", same.part);
        same.import_pnml(&text, pnet::LARGEST_NET);
        with_a_line_more(same, &text);
        (0..4).for_each(|_| drop(same.import_pnml(&damaged(random, &text), pnet::LARGEST_NET)));
        // With the last arc's Post line left out, it may still follow.
        if let Some(last) = net.arcs.last_mut() {
            last.post = 0;
            let text = text_of(same, &net);
            with_a_line_more(same, &text);
        }
    }
}

/// A place, a transition and an arc more than are there, or than may be, where the end is due.
fn with_a_line_more(same: &mut Same, text: &[u8]) {
    let (before, close) = text.split_at(text.len() - "    </page>\n  </net>\n</pnml>\n".len());
    let lines = |word: &[u8]| before.windows(word.len()).filter(|window| window == &word).count();
    let (places, transitions) = (lines(b"<place "), lines(b"<transition "));
    let mode = transitions.max(1) - 1;
    let arcs = (0..places).flat_map(|pair| {
        [
            format!("      <arc id=\"i{mode:03}-{pair:03}\" source=\"p{pair:03}\" target=\"t{mode:03}\"><inscription><text>1</text></inscription></arc>\n"),
            format!("      <arc id=\"o{mode:03}-{pair:03}\" source=\"t{mode:03}\" target=\"p{pair:03}\"><inscription><text>1</text></inscription></arc>\n"),
        ]
    });
    let others = [
        format!("      <place id=\"p{places:03}\"><initialMarking><text>0</text></initialMarking></place>\n"),
        format!("      <transition id=\"t{transitions:03}\"/>\n"),
    ];
    for line in arcs.rev().take(4).chain(others) {
        same.import_pnml(&[before, line.as_bytes(), close].concat(), pnet::LARGEST_NET);
    }
}
