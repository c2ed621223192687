//! A pair stripped: at every marking within capacity exactly one of the new modes is enabled, and it leaves nothing there and all else as it was; the old modes
//! do as they did.

use pnet::Mode;
use reference::Form;
use reference::build::{OPEN, PlainNet, arc};

use crate::guarded;
use crate::same::Same;
use generator::{Random, Style, count, form, total};

/// One pair of a small net, at its first marking and at another.
pub fn bare(same: &mut Same, random: &mut Random, net: &PlainNet) {
    let (sheet, pair) = (net.sheet_in(form(random)), random.below(net.pairs.len()) as u16);
    let Some(stripped) = same.strip(&sheet, pair, pnet::LARGEST_NET) else { return };
    let modes = total(&net.modes) as u16;
    let all = guarded::size(&stripped).expect("it was written").modes as u16;
    let of = |same: &Same| format!("{}: pair {pair} of {net:?}", same.part);
    assert_eq!(u32::from(all - modes), net.pairs[usize::from(pair)].0 + 1, "{}", of(same));
    let first: Vec<u32> = net.pairs.iter().map(|&(_, count)| count).collect();
    assert_eq!(guarded::first_marking(&stripped).as_ref(), Ok(&first), "{}", of(same));
    let other = net.pairs.iter().map(|&(capacity, _)| count(random, Style::Small, capacity)).collect();
    for counts in [first, other] {
        let enabled = |mode: &u16| guarded::test(&stripped, &counts, Mode(*mode)).is_ok();
        let there = counts[usize::from(pair)] as u16;
        assert_eq!(
            (modes..all).filter(enabled).collect::<Vec<_>>(),
            [modes + there],
            "{} at {counts:?}",
            of(same)
        );
        let mut expected = counts.clone();
        expected[usize::from(pair)] = 0;
        assert_eq!(
            same.fire(&stripped, &counts, modes + there),
            ((0, 0, 0, 0), expected),
            "{} at {counts:?}",
            of(same)
        );
        for mode in 0..modes.min(8) {
            assert_eq!(
                same.fire(&stripped, &counts, mode),
                same.fire(&sheet, &counts, mode),
                "{} at {counts:?}",
                of(same)
            );
        }
    }
    same.hits.value("stripped bare by one mode alone");
}

/// K 63 and 64, and both sides of 64 transitions, 256 modes and 2,048 arcs, in every version and rule.
pub fn at_limits(same: &mut Same) {
    for form in Form::ALL {
        for capacity in [0, 62, 63, 64, 65, 65_535, 65_536, 1_000_000, OPEN] {
            let with = |modes: Vec<u16>| PlainNet {
                colours: vec![1, 1],
                modes,
                pairs: vec![(capacity, 0), (9, 9)],
                arcs: vec![],
            };
            for modes in [vec![], vec![1; 63], vec![1; 64], vec![64; 3], vec![64, 64, 64, 1], vec![64; 4]] {
                same.strip(&with(modes).sheet_in(form), 0, pnet::LARGEST_NET);
            }
            for arcs in [1_984, 1_985, 2_047, 2_048] {
                let mut net = with(vec![64; 2]);
                net.colours = vec![16];
                net.pairs.resize(16, (9, 9));
                net.arcs = (0..arcs).map(|n| arc(n / 16, n % 16, 1, 0, OPEN)).collect();
                same.strip(&net.sheet_in(form), 0, pnet::LARGEST_NET);
            }
        }
    }
}
