//! Salvage of a damaged movement sheet: what it writes runs whole, and with the first dropped mode added it would not.

use reference::build::{PlainNet, movements};

use crate::same::{Plain, Same};
use generator::{Random, Style, form, list, net, spoil, total};

/// Kept, dropped, and the answer of the first dropped movement.
pub type Report = (usize, usize, Plain);

/// What a salvage with room for its sheet reports is true of the sheet that it wrote.
pub fn holds(same: &mut Same, net: &[u8], damaged: &[u8], (kept, dropped, stop): Report, fresh: &[u8]) {
    let of = |same: &Same| format!("{}: {net:?} {damaged:?}", same.part);
    let start = |same: &mut Same| {
        let pairs = reference::size(net).expect("the net was accepted").pairs;
        same.begin(net, &vec![0; pairs])
    };
    let first = start(same);
    let (accepted, answer, _) = same.run(net, fresh, &first);
    assert_eq!((accepted, answer), (kept, (0, 0, 0, 0)), "{}", of(same));
    let declared =
        damaged.len().min(4 + u32::from_be_bytes([damaged[0], damaged[1], damaged[2], damaged[3]]) as usize);
    let considered = (declared - 5) / 2;
    assert_eq!(kept + dropped, considered.min(8_192), "{}", of(same));
    same.hits.value(match stop.0 {
        0 => "salvaged whole",
        6 => "salvaged up to a 6",
        11 => "salvaged up to an 11",
        12 => "salvaged up to a 12",
        13 => "salvaged up to a 13",
        _ => "salvaged up to a 14",
    });
    if considered > 8_192 {
        same.hits.value("modes past the 8,192nd");
    }
    if (declared - 5) % 2 == 1 {
        same.hits.value("a lone last byte dropped");
    }
    if declared < damaged.len() {
        same.hits.value("bytes past the declared length ignored");
    } else if damaged[..4] != (damaged.len() as u32 - 4).to_be_bytes() {
        same.hits.value("a length that claims more");
    }
    if dropped > 0 {
        let list: Vec<u16> = damaged[5..]
            .chunks(2)
            .take(kept + 1)
            .map(|mode| u16::from_be_bytes([mode[0], mode[1]]))
            .collect();
        let (accepted, answer, _) = same.run(net, &movements(&list), &first);
        assert_eq!((accepted, answer), (kept, stop), "{}", of(same));
    } else {
        assert_eq!(stop, (0, 0, 0, 0), "{}", of(same));
    }
}

/// A small net's list cut at every offset, with the L that it had and with another.
pub fn every_cut(same: &mut Same, random: &mut Random) {
    let style = random.pick(&[Style::Small, Style::Edges, Style::Lively]);
    let net = net(random, style, 3, 3, 9);
    let (sheet, whole) = (net.sheet_in(form(random)), movements(&list(random, &net, 30)));
    for cut in 0..=whole.len() {
        same.salvage(&sheet, &whole[..cut], 100);
        let mut other = whole[..cut].to_vec();
        let declared = random.pick(&[0, 1, cut as u32, u32::MAX, whole.len() as u32 / 2]).to_be_bytes();
        other.iter_mut().zip(declared).for_each(|(byte, new)| *byte = new);
        same.salvage(&sheet, &other, random.pick(&[100, 100, 4, 5, 6, 11]));
    }
}

/// A list cut and then spoiled.
pub fn damaged(same: &mut Same, random: &mut Random, plain: &PlainNet, net: &[u8]) {
    let mut damaged = movements(&list(random, plain, 24));
    damaged.truncate(random.below(damaged.len() + 1));
    spoil(random, &mut damaged);
    same.salvage(net, &damaged, random.pick(&[60, 60, 60, 5, 4, 0]));
}

/// Lists on both sides of 8,192 modes, the last considered refused and the next one.
pub fn at_limits(same: &mut Same, random: &mut Random) {
    for length in [8_191, 8_192, 8_193, 9_000] {
        let net = net(random, Style::Lively, 2, 3, 6);
        let modes = total(&net.modes).max(1);
        let mut list: Vec<u16> = (0..length).map(|_| random.below(modes) as u16).collect();
        for at in [8_190, 8_191, 8_192] {
            let sheet = [&movements(&list)[..], &[7]].concat();
            for cut in 0..32 {
                same.salvage(&net.sheet_in(form(random)), &sheet[..sheet.len() - cut], 5 + 2 * 8_192);
            }
            list.iter_mut().skip(at).take(1).for_each(|mode| *mode = modes as u16);
        }
    }
}
