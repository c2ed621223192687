//! The same PNML texts, sheets and refusals as `reference`, of nets and of damaged texts.

use std::collections::BTreeSet;

use generator::damaged_text::damaged;
use generator::{Random, Style, form, net};
use reference::build::{OPEN, PlainNet, arc};

/// An answer as number, thing, position and amount.
type Plain = (u32, u8, u64, u64);

fn of_swift(answer: swift::Answer) -> Plain {
    (answer.number, answer.thing, answer.position, answer.amount)
}

fn of_reference(answer: reference::Answer) -> Plain {
    (answer.number, answer.thing, answer.position, answer.amount)
}

/// A call that writes into a slice.
type Writes<A> = fn(&[u8], &mut [u8]) -> Result<usize, A>;

/// What both write into a slice of this length, where it is the same.
fn same(
    calls: (Writes<swift::Answer>, Writes<reference::Answer>),
    given: &[u8],
    room: usize,
    seen: &mut BTreeSet<u32>,
) -> Option<Vec<u8>> {
    let (mut swiftly, mut plainly) = (vec![170; room], vec![170; room]);
    let swift = calls.0(given, &mut swiftly).map_err(of_swift);
    let plain = calls.1(given, &mut plainly).map_err(of_reference);
    assert_eq!(swift, plain, "{}", String::from_utf8_lossy(given));
    assert!(swiftly == plainly, "{}", String::from_utf8_lossy(given));
    seen.insert(swift.err().map_or(0, |answer| answer.0));
    swiftly.truncate(swift.ok()?);
    Some(swiftly)
}

fn export(net: &[u8], room: usize, seen: &mut BTreeSet<u32>) -> Option<Vec<u8>> {
    same((swift::export_pnml, reference::export_pnml), net, room, seen)
}

fn import(text: &[u8], room: usize, seen: &mut BTreeSet<u32>) -> Option<Vec<u8>> {
    same((swift::import_pnml, reference::import_pnml), text, room, seen)
}

/// The net with every K and I unbounded.
fn opened(mut net: PlainNet) -> PlainNet {
    net.pairs.iter_mut().for_each(|pair| pair.0 = OPEN);
    net.arcs.iter_mut().for_each(|arc| arc.inhibitor = OPEN);
    net.arcs.retain(|arc| arc.pre > 0 || arc.post > 0);
    net
}

fn any_net(random: &mut Random) -> PlainNet {
    let style = random.pick(&[Style::Small, Style::Edges, Style::Lively]);
    let (places, transitions, arcs) = random.pick(&[(1, 1, 2), (3, 2, 6), (5, 4, 24), (5, 4, 24)]);
    net(random, style, places, transitions, arcs)
}

#[test]
fn exporting_gives_the_same_text() {
    let (mut random, mut seen) = (Random::new(51), BTreeSet::new());
    for _ in 0..3_000 {
        let mut net = any_net(&mut random);
        if random.once_in(2) {
            net = opened(net);
        }
        let pair = random.below(net.pairs.len());
        if random.once_in(4) {
            net.pairs[pair].0 = 1_000_000;
        }
        let mut sheet = net.sheet_in(form(&mut random));
        if random.once_in(5) {
            generator::spoil(&mut random, &mut sheet);
        }
        export(&sheet, random.pick(&[60_000, 60_000, 300, 400]), &mut seen);
    }
    assert!([0, 1, 3, 10, 19].iter().all(|number| seen.contains(number)), "{seen:?}");
}

#[test]
fn importing_exports_and_damaged_texts_gives_the_same_sheet() {
    let (mut random, mut seen) = (Random::new(52), BTreeSet::new());
    let mut positions = BTreeSet::new();
    for _ in 0..1_500 {
        let net = opened(any_net(&mut random));
        let Some(text) = export(&net.sheet(), 60_000, &mut seen) else { panic!("{net:?}") };
        import(&text, random.pick(&[36_000, 36_000, 60]), &mut seen);
        for _ in 0..4 {
            let damaged = damaged(&mut random, &text);
            import(&damaged, 36_000, &mut seen);
            positions.insert(
                swift::import_pnml(&damaged, &mut [0; 36_000]).err().map_or(0, |answer| answer.position),
            );
        }
    }
    assert_eq!(seen, [0, 4, 10, 20].into());
    assert!(positions.len() > 500, "{}", positions.len());
}

#[test]
fn at_the_limits_the_answers_are_the_same() {
    let mut seen = BTreeSet::new();
    let split =
        |all: usize| if all > 64 { [vec![64; all / 64], vec![1; all % 64]].concat() } else { vec![1; all] };
    let sizes = [(1, 0, 0), (64, 64, 2_048), (65, 64, 10), (64, 65, 2_047), (3, 256, 768), (256, 256, 2_048)];
    for (places, transitions, arcs) in sizes {
        // The last of the arcs has Pre alone where there is an odd number of them.
        let arcs = (0..arcs).map(|n| arc((n / places) as u16, (n % places) as u16, 1, (n % 2) as u32, OPEN));
        let (colours, modes) = (split(places), split(transitions));
        let net = PlainNet { colours, modes, pairs: vec![(OPEN, 1_000_000); places], arcs: arcs.collect() };
        let text = export(&net.sheet(), 470_000, &mut seen).expect("no bound is finite");
        import(&text, 36_000, &mut seen);
        let end = text.len() - 29;
        for line in [
            "      <place id=\"p256\"",
            "      <transition id=\"t256\"",
            "      <arc id=\"i255-003\"",
            "      <arc id=\"o255-002\"",
        ] {
            import(&[&text[..end], line.as_bytes()].concat(), 36_000, &mut seen);
        }
    }
    assert_eq!(seen, [0, 4, 20].into());
}
