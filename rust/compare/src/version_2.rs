//! What a net sheet of version 2 has alone: its rule byte, an arc count for each mode, arcs of 14 bytes.

use pnet::{Fault, Length, Refusal};
use reference::build::{OPEN, PlainNet, arc};
use reference::{Form, Rule};

use crate::case::Case;
use crate::same::{Plain, Same};
use generator::{Random, Style};

/// Which fault of version 2 alone a reader's refusal names.
pub fn fault(net: &[u8], refusal: &Refusal) -> Option<&'static str> {
    if net.get(4) != Some(&2) {
        return None;
    }
    let two =
        |at: usize| net.get(at..at + 2).map_or(0, |field| usize::from(field[0]) << 8 | usize::from(field[1]));
    let pairs = (10..).step_by(2).take(two(6)).map(two).sum::<usize>();
    let arcs_at = 10 + 2 * two(6) + 2 * two(8) + 8 * pairs;
    let at = refusal.position() as usize;
    match refusal.fault() {
        Fault::WrongLength(Length::FieldPastEnd) if at == 5 => Some("version 2 without its rule byte"),
        Fault::CountOutside if at == 5 => Some("another rule byte"),
        Fault::CountOutside if at >= arcs_at => Some("an arc count past 2,048"),
        Fault::WrongLength(Length::FieldPastEnd) if at >= arcs_at => {
            let mut count = arcs_at;
            while count < at {
                count += 2 + 14 * two(count);
            }
            Some(if count == at { "an arc count past L" } else { "an arc of 14 bytes past L" })
        }
        _ => None,
    }
}

/// 256 pairs, so many modes, and as many arcs one after another from mode 0 and pair 0 on.
fn filled(modes: u16, arcs: u32) -> PlainNet {
    let arcs = (0..arcs).map(|n| arc((n / 256) as u16, (n % 256) as u16, 1, 1, OPEN)).collect();
    PlainNet { colours: vec![64; 4], modes: vec![1; modes.into()], pairs: vec![(OPEN, 5); 256], arcs }
}

/// A case in version 2, by either rule.
fn of(random: &mut Random, net: &PlainNet) -> Case {
    let form = Form::Two(random.pick(&Rule::BOTH));
    Case::of(random, Style::Lively, net, form, 16)
}

/// Every call on a net with these bytes written over at an offset, which its reader answers so.
fn with(same: &mut Same, random: &mut Random, net: &PlainNet, at: u64, bytes: [u8; 2], answer: Plain) {
    let mut case = of(random, net);
    case.net[at as usize..][..2].copy_from_slice(&bytes);
    answers(same, &case, answer);
}

fn answers(same: &mut Same, case: &Case, answer: Plain) {
    let read = reference::read_net(&case.net).0;
    assert_eq!((read.number.into(), read.thing.into(), read.position, 0), answer, "{:?}", case.net);
    case.compare(same);
}

/// 2,048 arcs and one more, a first count of 2,048 and of one more, 256 modes without arcs, L = 1.
pub fn at_limits(same: &mut Same, random: &mut Random) {
    let accepted = (0, 0, 0, 0);
    let (eight, mut nine) = (filled(8, 2_048), filled(9, 2_048));
    answers(same, &of(random, &eight), accepted);
    answers(same, &of(random, &nine), accepted);
    // 4 at the count, before its arc is looked at: the arc is not there, and it is there.
    let ninth = nine.count_offset_2(8);
    with(same, random, &nine, ninth, [0, 1], (4, 0, ninth, 0));
    nine.arcs.push(arc(8, 0, 1, 1, OPEN));
    with(same, random, &nine, ninth, [0, 1], (4, 0, ninth, 0));
    // 256 pairs are all: the 257th arc of a mode has none.
    let (count, next) = (eight.count_offset_2(0), eight.count_offset_2(1));
    with(same, random, &eight, count, 2_048u16.to_be_bytes(), (6, 0, next, 0));
    with(same, random, &eight, count, 2_049u16.to_be_bytes(), (4, 0, count, 0));
    let many = PlainNet { modes: vec![4; 64], ..filled(0, 0) };
    answers(same, &of(random, &many), accepted);
    let mut case = of(random, &many);
    case.net = vec![0, 0, 0, 1, 2];
    answers(same, &case, (3, 0, 5, 0));
}
