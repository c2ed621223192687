//! A step by its sums: one pass over the arcs of its members, then the pairs that they name are tested, and
//! only then written.

use swift::sheets::{Arc, Layout, check_marking, whole_net};
use swift::{ARGUMENT, Answer, LARGEST};

/// "Summed Pre", "summed Post" and "the least I of its members" at a pair: below 2^31, or I unbounded.
#[derive(Clone, Copy)]
struct Sum {
    pre: u32,
    post: u32,
    inhibitor: u32,
}

/// The sum where no member has an arc, and nowhere else: an arc is never blank.
const BLANK: Sum = Sum { pre: 0, post: 0, inhibitor: u32::MAX };

impl Sum {
    #[inline(always)]
    fn is_blank(&self) -> bool {
        self.pre | self.post | !self.inhibitor == 0
    }

    #[inline(always)]
    fn add(&mut self, arc: Arc, times: u32) {
        self.pre += times * arc.pre;
        self.post += times * arc.post;
        self.inhibitor = self.inhibitor.min(arc.inhibitor);
    }

    /// Whether the sums allow a count where so much is room: K, or by the weak rule K and the summed Pre.
    #[inline(always)]
    fn allows(&self, count: u32, room: u32) -> bool {
        let after = count.wrapping_sub(self.pre).wrapping_add(self.post);
        let within = (count + self.post <= room) & (count <= self.inhibitor);
        (self.pre <= count) & within & (after <= LARGEST)
    }
}

/// A step's sums, and the pairs that its members' arcs name, each once.
struct Sums {
    at: [Sum; 256],
    /// One place more than there are pairs: every arc writes its pair, and only a new one is counted.
    pairs: [u8; 257],
    count: usize,
}

/// Fires a step: tests it, and writes the pairs of its members' arcs.
pub fn fire_step(net: &[u8], marking: &mut [u32], modes: &[u16]) -> Answer {
    let (layout, times) = match arguments(net, marking, modes) {
        Ok(arguments) => arguments,
        Err(answer) => return answer,
    };
    let sums = Sums::of(&layout, modes, times);
    let allowed = |&pair: &u8| {
        let (sum, at) = (sums.of_pair(pair), usize::from(pair));
        sum.allows(marking[at], layout.room(layout.capacity(at), sum.pre))
    };
    let named = &sums.pairs[..sums.count];
    if !named.iter().all(allowed) {
        return fault(&layout, &sums, marking);
    }
    for &pair in named {
        let (count, sum) = (&mut marking[usize::from(pair)], sums.of_pair(pair));
        *count = *count - sum.pre + sum.post;
    }
    Answer::ACCEPTED
}

/// Looking for a mode's arcs takes as long as passing over so many.
const SEARCH: usize = 128;

/// How many times each mode is a member of a step.
type Times = [u8; 256];

/// "Net and marking, 4 for an empty or too long step, then 6."
fn arguments<'a>(net: &'a [u8], marking: &[u32], modes: &[u16]) -> Result<(Layout<'a>, Times), Answer> {
    let layout = whole_net(net)?;
    check_marking(&layout, marking)?;
    if modes.is_empty() || modes.len() > 64 {
        return Err(Answer::refused(4, ARGUMENT, 0));
    }
    let mut times = [0; 256];
    for &mode in modes {
        if usize::from(mode) >= layout.modes {
            return Err(Answer::refused(6, ARGUMENT, 0));
        }
        times[usize::from(mode) & 255] += 1;
    }
    Ok((layout, times))
}

impl Sums {
    /// A mode's arcs are visited once, however often it is a member.
    fn of(layout: &Layout, modes: &[u16], mut times: Times) -> Sums {
        let mut sums = Sums { at: [BLANK; 256], pairs: [0; 257], count: 0 };
        let members = times.iter().filter(|&&times| times > 0).count();
        if SEARCH * members > layout.arcs.len() {
            sums.add_all(layout, &times);
            return sums;
        }
        for mode in modes.iter().map(|&mode| usize::from(mode)) {
            let times = std::mem::take(&mut times[mode & 255]);
            if times > 0 {
                sums.add(layout.arcs_of(mode), u32::from(times));
            }
        }
        sums
    }

    /// Arcs rise by mode: those of each mode stand together.
    fn add_all(&mut self, layout: &Layout, times: &Times) {
        for own in layout.arcs.chunk_by(|one, next| one[..2] == next[..2]) {
            let times = times[Arc::of(&own[0]).mode() & 255];
            if times > 0 {
                self.add(own, u32::from(times));
            }
        }
    }

    #[inline(always)]
    fn add(&mut self, own: &[[u8; 16]], times: u32) {
        for arc in own.iter().map(Arc::of) {
            let sum = &mut self.at[arc.pair()];
            self.pairs[self.count] = arc.pair() as u8;
            self.count += usize::from(sum.is_blank());
            sum.add(arc, times);
        }
    }

    #[inline(always)]
    fn of_pair(&self, pair: u8) -> &Sum {
        &self.at[usize::from(pair)]
    }
}

/// Why a step is not enabled: "11, 12, 13, 14 over the sums", each at its lowest pair, by its amount there.
#[cold]
fn fault(layout: &Layout, sums: &Sums, marking: &[u32]) -> Answer {
    // What is compared, and the most that it may be.
    let compared: [fn(&Sum, u32, u32) -> (u32, u32); 4] = [
        |sum, count, _| (sum.pre, count),
        |sum, count, room| (count + sum.post, room),
        |sum, count, _| (count, sum.inhibitor),
        |sum, count, _| (count - sum.pre + sum.post, LARGEST),
    ];
    for (number, compared) in (11..).zip(compared) {
        for pair in 0..layout.pairs {
            let sum = &sums.at[pair];
            let (compared, most) = compared(sum, marking[pair], layout.room(layout.capacity(pair), sum.pre));
            if compared > most {
                return Answer::refused(number, ARGUMENT, pair).by(compared - most);
            }
        }
    }
    unreachable!("a refused step has a fault")
}
