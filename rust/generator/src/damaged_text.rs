//! Damaged PNML texts.

use crate::Random;

/// One or two changes: cut, a byte changed, put in or taken out, two lines swapped, a line doubled or left out, another number.
pub fn damaged(random: &mut Random, text: &[u8]) -> Vec<u8> {
    let mut text = text.to_vec();
    for _ in 0..1 + random.below(2) {
        damage(random, &mut text);
    }
    text
}

fn damage(random: &mut Random, text: &mut Vec<u8>) {
    let at = random.below(text.len().max(1)).min(text.len());
    let byte = random.pick(b"0123456789<>\"-/ iopt\n\0\xff");
    match random.below(9) {
        0 => text.truncate(at),
        1 => text.iter_mut().skip(at).take(1).for_each(|old| *old = byte),
        2 => text.insert(at, byte),
        3 => drop(text.drain(at..(at + 1).min(text.len()))),
        4 => text.extend_from_slice(&[byte][..random.below(2)]),
        5 => change_number(random, text),
        _ => change_lines(random, text),
    }
}

/// Two lines swapped, a line doubled, or one left out.
fn change_lines(random: &mut Random, text: &mut Vec<u8>) {
    let mut lines: Vec<Vec<u8>> = text.split_inclusive(|&byte| byte == b'\n').map(<[u8]>::to_vec).collect();
    if lines.is_empty() {
        return;
    }
    let (one, other) = (random.below(lines.len()), random.below(lines.len()));
    match random.below(4) {
        0 => lines.swap(one, other),
        1 => lines.insert(one, lines[one].clone()),
        2 => lines.insert(one, lines[other].clone()),
        _ => drop(lines.remove(one)),
    }
    *text = lines.concat();
}

/// Another number, an odd one, in place of one of the text's.
fn change_number(random: &mut Random, text: &mut Vec<u8>) {
    let starts: Vec<usize> =
        (1..text.len()).filter(|&at| text[at].is_ascii_digit() && !text[at - 1].is_ascii_digit()).collect();
    if starts.is_empty() {
        return;
    }
    let start = random.pick(&starts);
    let length = text[start..].iter().take_while(|byte| byte.is_ascii_digit()).count();
    let odd: &[u8] = random.pick(&[
        b"0",
        b"1",
        b"00",
        b"01",
        b"000",
        b"001",
        b"002",
        b"010",
        b"063",
        b"064",
        b"100",
        b"255",
        b"256",
        b"999999",
        b"1000000",
        b"1000001",
        b"2000000",
        b"4294967296",
        b"",
    ]);
    text.splice(start..start + length, odd.iter().copied());
}
