//! The refit's movement sheet, cut at every byte: what is salvaged of it, and that it runs whole.

use pnet::{first_marking, run, salvage};

const NET: &[u8] = include_bytes!("../../../examples/refit/net.sheet");
const LIST: &[u8] = include_bytes!("../../../examples/refit/movements.sheet");

/// Of the eleven movements nine are accepted, and the tenth is refused by 13 at pair 6, by one token.
const ACCEPTED: usize = 9;

#[test]
fn fewer_than_five_bytes_are_refused() {
    for cut in 0..5 {
        let mut out = [170; 30];
        assert_eq!(salvage(NET, &LIST[..cut], &mut out).unwrap_err().number(), 1, "cut at {cut}");
        assert_eq!(out, [170; 30], "cut at {cut}");
    }
}

#[test]
fn every_cut_of_the_list() {
    for cut in 5..=LIST.len() {
        let mut out = [170; 30];
        let salvaged = salvage(NET, &LIST[..cut], &mut out).unwrap();
        let considered = (cut - 5) / 2;
        let kept = considered.min(ACCEPTED);
        let length = 5 + 2 * kept;
        assert_eq!(
            (salvaged.length, salvaged.kept, salvaged.dropped),
            (length, kept, considered - kept),
            "cut at {cut}"
        );
        let stop = salvaged.stop.map(|stop| (stop.number(), stop.position(), stop.amount()));
        assert_eq!(stop, (considered > ACCEPTED).then_some((13, 6, 1)), "cut at {cut}");
        let fresh = [&(1 + 2 * kept as u32).to_be_bytes(), &LIST[4..length]].concat();
        assert_eq!(out[..length], fresh, "cut at {cut}");
        assert!(out[length..].iter().all(|&byte| byte == 170), "cut at {cut}");
        let ran = run(NET, &fresh, &mut first_marking(NET).unwrap());
        assert_eq!((ran.accepted, ran.result), (kept, Ok(())), "cut at {cut}");
    }
}
