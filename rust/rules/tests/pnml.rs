//! Exchange with PNML tools: the text byte for byte, 19 and 20 at their places, and nets that come back.

use crate::support::*;
use generator::{Random, Style, form, net, total};
use reference::build::{OPEN, PlainNet, arc};
use reference::*;

/// The text of a net, with room for the longest.
fn exported(sheet: &[u8]) -> Result<String, Answer> {
    let mut output = vec![170; 467_928];
    let length = export_pnml(sheet, &mut output)?;
    assert!(untouched(&output[length..]));
    output.truncate(length);
    Ok(String::from_utf8(output).unwrap())
}

/// The sheet of a text, with room for the largest.
fn imported(text: &str) -> Result<Vec<u8>, Answer> {
    let mut output = vec![170; 35_083];
    let length = import_pnml(text.as_bytes(), &mut output)?;
    assert!(untouched(&output[length..]));
    output.truncate(length);
    Ok(output)
}

/// Where a text is refused by 20.
fn refused_at(text: &str) -> u64 {
    let answer = imported(text).expect_err(text);
    assert_eq!(answer, refused(20, NET, answer.position), "{text}");
    answer.position
}

/// The complement of the small net of docs/RULES.md.
const EXAMPLE: &str = r#"<?xml version="1.0" encoding="UTF-8"?>
<pnml xmlns="http://www.pnml.org/version-2009/grammar/pnml">
  <net id="n" type="http://www.pnml.org/version-2009/grammar/ptnet">
    <page id="g">
      <place id="p000"><initialMarking><text>3</text></initialMarking></place>
      <place id="p001"><initialMarking><text>0</text></initialMarking></place>
      <place id="p002"><initialMarking><text>2</text></initialMarking></place>
      <transition id="t000"/>
      <arc id="i000-000" source="p000" target="t000"><inscription><text>1</text></inscription></arc>
      <arc id="o000-001" source="t000" target="p001"><inscription><text>1</text></inscription></arc>
      <arc id="i000-002" source="p002" target="t000"><inscription><text>1</text></inscription></arc>
      <arc id="o000-002" source="t000" target="p002"><inscription><text>2</text></inscription></arc>
    </page>
  </net>
</pnml>
"#;

#[test]
fn the_example_byte_by_byte_and_back() {
    let complement = complement_of(&example().sheet());
    assert_eq!(exported(&complement).unwrap(), EXAMPLE);
    assert_eq!(imported(EXAMPLE), Ok(complement));
}

#[test]
fn the_version_and_the_rule_are_not_written() {
    let net = PlainNet {
        colours: vec![2, 1],
        modes: vec![3],
        pairs: vec![(OPEN, 7); 3],
        arcs: vec![arc(1, 2, 0, 5, OPEN)],
    };
    let [one, strict, weak] = Form::ALL.map(|form| exported(&net.sheet_in(form)).unwrap());
    assert_eq!((&one, &one), (&strict, &weak));
    // Each pair comes back as a place of one colour and each mode as a transition of one mode, in version 1.
    assert_eq!(imported(&one), Ok(PlainNet::plain(3, &net.pairs, &net.arcs).sheet()));
}

/// So many places and transitions, and arcs at pairs 0, 1, .. of modes 0, 1, .., with these numbers.
fn filled(places: usize, transitions: usize, arcs: usize, number: u32) -> PlainNet {
    let split = |all: usize| match all {
        0..=64 => vec![1; all],
        _ => [vec![64; all / 64], vec![1; all % 64]].concat(),
    };
    let arcs = (0..arcs).map(|n| arc((n / places) as u16, (n % places) as u16, number, number, OPEN));
    PlainNet {
        colours: split(places),
        modes: split(transitions),
        pairs: vec![(OPEN, number); places],
        arcs: arcs.collect(),
    }
}

#[test]
fn the_shortest_and_the_longest_texts() {
    assert_eq!(exported(&filled(1, 0, 0, 0).sheet()).unwrap().len(), 187 + 79 + 29);
    let longest = filled(256, 256, 2_048, 1_000_000).sheet();
    let text = exported(&longest).unwrap();
    assert_eq!(text.len(), 467_928);
    assert_eq!(imported(&text), Err(refused(4, ARGUMENT, 0)));
    let sheet = filled(64, 64, 2_048, 1_000_000).sheet();
    let text = exported(&sheet).unwrap();
    assert_eq!((text.len(), imported(&text)), (445_848, Ok(sheet)));
}

#[test]
fn number_19_at_the_first_finite_k_then_the_first_finite_i() {
    let mut net = PlainNet::plain(
        2,
        &[(OPEN, 0); 3],
        &[arc(0, 1, 1, 0, OPEN), arc(1, 0, 0, 1, OPEN), arc(1, 2, 1, 1, OPEN)],
    );
    let at = |net: &PlainNet, form: Form| {
        exported(&net.sheet_in(form)).map(|_| ()).map_err(|answer| {
            assert_eq!(answer, refused(19, NET, answer.position));
            answer.position
        })
    };
    let all = |net: &PlainNet| Form::ALL.map(|form| at(net, form));
    assert_eq!(all(&net), [Ok(()); 3]);
    // The field of I, in version 1 and in version 2.
    net.arcs[2].inhibitor = 0;
    let (one, two) = (net.arc_offset(2) + 12, net.arc_offset_2(2) + 10);
    assert_eq!(all(&net), [Err(one), Err(two), Err(two)]);
    net.arcs[1].inhibitor = 1_000_000;
    let (one, two) = (net.arc_offset(1) + 12, net.arc_offset_2(1) + 10);
    assert_eq!(all(&net), [Err(one), Err(two), Err(two)]);
    // Every K comes before every I.
    net.pairs[2].0 = 0;
    let one = net.pair_offset(2);
    assert_eq!(all(&net), [Err(one), Err(one + 1), Err(one + 1)]);
    net.pairs[1].0 = 9;
    assert_eq!(all(&net), [Err(one - 8), Err(one - 7), Err(one - 7)]);
}

#[test]
fn of_an_export_the_net_then_19_then_10() {
    let bounded = example().sheet();
    assert_eq!(export_pnml(&followed(&bounded, &[0]), &mut []), Err(refused(3, NET, 65)));
    assert_eq!(export_pnml(&bounded, &mut []), Err(refused(19, NET, 15)));
    let complement = complement_of(&bounded);
    let mut short = vec![170; EXAMPLE.len() - 1];
    assert_eq!(export_pnml(&complement, &mut short), Err(refused(10, NET, 0)));
    assert!(untouched(&short));
    assert_eq!(export_pnml(&complement, &mut vec![0; EXAMPLE.len()]), Ok(EXAMPLE.len()));
}

#[test]
fn of_an_import_20_then_4_then_10() {
    let text = |places, transitions| exported(&filled(places, transitions, 0, 0).sheet()).unwrap();
    let told = |text: &str, room: usize| {
        let mut output = vec![170; room];
        let answer = import_pnml(text.as_bytes(), &mut output);
        assert!(answer.is_ok() || untouched(&output));
        answer
    };
    assert_eq!(told(&text(64, 64), 11 + 2 * 128 + 8 * 64), Ok(779));
    assert_eq!(told(&text(64, 64), 778), Err(refused(10, NET, 0)));
    for (places, transitions) in [(65, 0), (1, 65), (65, 65), (256, 256)] {
        assert_eq!(told(&text(places, transitions), 0), Err(refused(4, ARGUMENT, 0)));
        // Only of a text that is an export.
        let cut = text(places, transitions);
        assert_eq!(told(&cut[..cut.len() - 1], 0), Err(refused(20, NET, cut.len() as u64 - 1)));
    }
}

#[test]
fn number_20_at_the_end_of_every_beginning() {
    for cut in 0..EXAMPLE.len() {
        assert_eq!(refused_at(&EXAMPLE[..cut]), cut as u64);
    }
    for after in ["\n", " ", "<", "</pnml>\n"] {
        assert_eq!(refused_at(&(EXAMPLE.to_string() + after)), EXAMPLE.len() as u64);
    }
    assert_eq!(refused_at(&format!("{EXAMPLE}{EXAMPLE}")), EXAMPLE.len() as u64);
}

/// The text with the first `from` in it replaced; 20 must be at the byte that stands so far after where it begins.
fn replaced(text: &str, from: &str, to: &str, after: usize) {
    let at = text.find(from).expect("it is there");
    let changed = text.replacen(from, to, 1);
    assert_eq!(refused_at(&changed), (at + after) as u64, "{from} {to}");
}

#[test]
fn number_20_in_a_marking_and_in_a_weight() {
    let marking =
        |number: &str, after: usize| replaced(EXAMPLE, "<text>3<", &format!("<text>{number}<"), after);
    // Counted from the `<` of `<text>`: the number's first digit is 6 after it.
    marking("1000001", 12);
    marking("2000000", 12);
    marking("10000000", 13);
    marking("01", 7);
    marking("00", 7);
    marking("", 6);
    marking("-1", 6);
    marking("+1", 6);
    marking(" 1", 6);
    marking("1 ", 7);
    marking("1.0", 7);
    let weight =
        |number: &str, after: usize| replaced(EXAMPLE, "<text>1<", &format!("<text>{number}<"), after);
    weight("0", 6);
    weight("01", 6);
    weight("1000001", 12);
    weight("", 6);
    for number in [0, 9, 10, 999_999, 1_000_000] {
        assert!(imported(&EXAMPLE.replacen("<text>3<", &format!("<text>{number}<"), 1)).is_ok());
        let weighed = imported(&EXAMPLE.replacen("<text>1<", &format!("<text>{number}<"), 1));
        assert_eq!(weighed.is_ok(), number > 0);
    }
}

#[test]
fn number_20_in_the_identifiers_of_an_arc() {
    // Pairs 0 to 2, and none in the mode yet: 15 bytes to the i, 19 to the pair's first digit.
    let first = |id: &str, after: usize| {
        replaced(EXAMPLE, "      <arc id=\"i000-000\"", &format!("      <arc id=\"{id}\""), after)
    };
    first("i000-003", 22);
    first("i000-010", 21);
    first("i000-100", 20);
    first("i000-0", 21);
    first("i000-00", 22);
    first("i000-0000", 23);
    first("i0-0", 17);
    first("i001-000", 18);
    first("x000-000", 15);
    // Source and target are literals then: the pair is that of the identifier.
    replaced(EXAMPLE, "source=\"p000\"", "source=\"p001\"", 11);
    replaced(EXAMPLE, "target=\"t000\"", "target=\"t001\"", 11);
    // After pair 1's Post line, pair 1 is over; after pair 2's Pre line its Post line may follow, and no second Pre line.
    replaced(EXAMPLE, "      <arc id=\"i000-002\"", "      <arc id=\"i000-001\"", 22);
    replaced(EXAMPLE, "      <arc id=\"o000-002\"", "      <arc id=\"i000-002\"", 15);
    replaced(EXAMPLE, "      <arc id=\"o000-002\"", "      <arc id=\"o000-001\"", 22);
}

/// The text of so many places and one transition, whose arcs stand at these pairs, Pre alone.
fn with_pairs(places: usize, pairs: &[u16]) -> String {
    let mut net = filled(places, 1, 0, 1);
    net.arcs = pairs.iter().map(|&pair| arc(0, pair, 1, 0, OPEN)).collect();
    exported(&net.sheet()).unwrap()
}

#[test]
fn the_low_end_of_the_pairs_counts_as_much_as_the_high_one() {
    // How many digits of the pair of one arc more are possible.
    let digits = |places: usize, last: u16, pair: u16| {
        let text = with_pairs(places, &[last, 255]);
        let (at, due) = (text.find("i000-255").unwrap(), format!("i000-{pair:03}"));
        let answer = imported(&text.replacen("i000-255", &due, 1)).unwrap_err();
        assert_eq!(answer.number, 20);
        answer.position - at as u64 - 5
    };
    assert_eq!((digits(256, 99, 99), digits(256, 109, 109)), (0, 1));
    // A pair that is possible is refused at the source, which is still pair 255.
    assert_eq!((digits(256, 109, 110), digits(256, 109, 200)), (14, 15));
    assert_eq!((digits(256, 200, 254), digits(256, 200, 256)), (16, 2));
    // Pairs 199 and 200 are left.
    let left = |pair: u16| {
        let text = with_pairs(201, &[198, 199]);
        let (at, due) = (text.find("i000-199").unwrap(), format!("i000-{pair:03}"));
        let answer = imported(&text.replacen("i000-199", &due, 1)).unwrap_err();
        (answer.number, answer.position.saturating_sub(at as u64 + 5))
    };
    assert_eq!([189, 210].map(left), [(20, 1); 2]);
    assert_eq!([190, 198, 201, 209].map(left), [(20, 2); 4]);
    // The source is still the other one.
    assert_eq!(left(200), (20, 14));
    assert_eq!(left(199), (4, 0));
}

#[test]
fn places_come_before_transitions_and_are_256_at_most() {
    let place = |number: usize| {
        format!("      <place id=\"p{number:03}\"><initialMarking><text>0</text></initialMarking></place>\n")
    };
    let text = exported(&filled(256, 0, 0, 0).sheet()).unwrap();
    let close = text.len() - 29;
    assert_eq!(imported(&text), Err(refused(4, ARGUMENT, 0)));
    // A 257th is refused at its `p`: a transition or the end is possible.
    assert_eq!(refused_at(&(text[..close].to_string() + &place(256) + &text[close..])), close as u64 + 7);
    // A place after a transition is none of an export's.
    let at = EXAMPLE.find("      <arc").unwrap();
    assert_eq!(refused_at(&(EXAMPLE[..at].to_string() + &place(3) + &EXAMPLE[at..])), at as u64 + 7);
    // Numbers are counted, and without a place there is nothing else.
    replaced(EXAMPLE, "id=\"p001\"", "id=\"p002\"", 7);
    replaced(EXAMPLE, "id=\"p000\"", "id=\"p0\"", 6);
    replaced(EXAMPLE, "id=\"t000\"", "id=\"t001\"", 7);
    assert_eq!(refused_at(&(EXAMPLE[..187].to_string() + &EXAMPLE[EXAMPLE.len() - 29..])), 187 + 4);
    assert_eq!(refused_at(&(EXAMPLE[..187].to_string() + "      <transition")), 187 + 7);
}

#[test]
fn where_all_is_full_only_the_end_is_possible() {
    // 256 modes, the last with an arc at its last pair: an element is refused at its fifth space.
    let mut net = filled(2, 256, 0, 1);
    net.arcs = vec![arc(255, 1, 1, 1, OPEN)];
    let text = exported(&net.sheet()).unwrap();
    let close = text.len() - 29;
    for element in ["      <arc", "      <transition", "      <place"] {
        assert_eq!(refused_at(&(text[..close].to_string() + element)), close as u64 + 4);
    }
    // After its Pre line alone, its Post line is possible.
    net.arcs = vec![arc(255, 1, 1, 0, OPEN)];
    let text = exported(&net.sheet()).unwrap();
    let close = text.len() - 29;
    for (element, after) in
        [("      <arc id=\"i", 15), ("      <arc id=\"o255-002", 22), ("      <transition", 7)]
    {
        assert_eq!(refused_at(&(text[..close].to_string() + element)), close as u64 + after);
    }
}

#[test]
fn after_2_048_arcs_there_is_no_other() {
    // 64 pairs, modes 0 to 31 with all of them; the last arc has Pre alone, or Post too.
    for post in [0, 1] {
        let mut net = filled(64, 33, 2_048, 1);
        net.arcs[2_047].post = post;
        let text = exported(&net.sheet()).unwrap();
        assert_eq!(imported(&text), Ok(PlainNet::plain(33, &net.pairs, &net.arcs).sheet()));
        let at = text.find("      <transition id=\"t032\"").unwrap();
        let with = |line: &str| refused_at(&(text[..at].to_string() + line + &text[at..])) - at as u64;
        // It is the mode's last pair: after Pre its own Post line is possible, and nothing else.
        let arc_line = |id: &str| format!("      <arc id=\"{id}\"");
        let expected = if post == 0 { [15, 22] } else { [7, 7] };
        assert_eq!(["i031-063", "o031-062"].map(|id| with(&arc_line(id))), expected);
        // In the next mode there is no arc at all.
        let end = text.len() - 29;
        assert_eq!(refused_at(&(text[..end].to_string() + &arc_line("i032-000"))) - end as u64, 7);
    }
    // After the 2,048th arc's Pre line in the middle of a mode only its own Post line is possible.
    let mut net = filled(65, 32, 2_048, 1);
    net.arcs[2_047].post = 0;
    let text = exported(&net.sheet()).unwrap();
    let last = net.arcs[2_047];
    assert_eq!((last.mode, last.pair), (31, 32));
    let end = text.len() - 29;
    let at = |line: &str| refused_at(&(text[..end].to_string() + line)) - end as u64;
    assert_eq!(
        [at("      <arc id=\"i031-033"), at("      <arc id=\"o031-033"), at("      <arc id=\"o031-032")],
        [15, 22, 23]
    );
}

/// A net whose every K and I is unbounded.
fn any_open(random: &mut Random) -> PlainNet {
    let style = random.pick(&[Style::Small, Style::Edges, Style::Lively]);
    let mut net = net(random, style, 5, 4, 24);
    net.pairs.iter_mut().for_each(|pair| pair.0 = OPEN);
    net.arcs.iter_mut().for_each(|arc| arc.inhibitor = OPEN);
    net.arcs.retain(|arc| arc.pre > 0 || arc.post > 0);
    net
}

#[test]
fn what_was_exported_comes_back_with_its_pairs_modes_numbers_and_first_marking() {
    let (mut random, mut back) = (Random::new(111), 0);
    for _ in 0..600 {
        let net = any_open(&mut random);
        let text = exported(&net.sheet_in(form(&mut random))).unwrap();
        let plain = PlainNet::plain(total(&net.modes), &net.pairs, &net.arcs);
        if net.pairs.len() > 64 || total(&net.modes) > 64 {
            assert_eq!(imported(&text), Err(refused(4, ARGUMENT, 0)));
            continue;
        }
        let sheet = imported(&text).unwrap();
        assert_eq!(sheet, plain.sheet());
        assert_eq!(exported(&sheet).unwrap(), text);
        back += 1;
    }
    assert!(back > 300, "{back}");
}

/// One byte of the example changed, put in or taken out.
#[test]
fn a_text_with_another_byte_is_another_export_or_is_refused_from_there_on() {
    let mut exports = 0;
    for at in 0..EXAMPLE.len() {
        for byte in "019 <>\"i\n/p".chars() {
            let (before, after) = EXAMPLE.split_at(at);
            for changed in [
                format!("{before}{byte}{}", &after[1..]),
                format!("{before}{byte}{after}"),
                before.to_string() + &after[1..],
            ] {
                match imported(&changed) {
                    Ok(sheet) => {
                        assert_eq!(exported(&sheet).unwrap(), changed);
                        exports += 1;
                    }
                    Err(answer) => assert!(answer.number == 20 && answer.position >= at as u64, "{changed}"),
                }
            }
        }
    }
    assert!(exports > 20, "{exports}");
}
