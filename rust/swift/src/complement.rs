//! "The complemented net."

use crate::answer::{Answer, NET, UNBOUNDED};
use crate::layout::{Arc, Layout, pair_of, whole_net};
use crate::writer::{Counts, Rest};

/// Writes the complement's sheet: "the call returns the length written and touches no byte after it".
pub fn complement(net: &[u8], output: &mut [u8]) -> Result<usize, Answer> {
    let layout = whole_net(net)?;
    let mates = Mates::of(&layout);
    let arcs = arcs_of(&layout, &mates)?;
    let counts = counts_of(&layout, &mates, arcs.len());
    let length = counts.length(layout.version);
    if exceeds(&counts) || output.len() < length {
        return Err(Answer::refused(10, NET, 0));
    }
    write(&layout, &mates, &counts, &arcs, &mut output[..length]);
    Ok(length)
}

/// The counts of the complement of so many arcs.
pub fn counts_of(layout: &Layout, mates: &Mates, arcs: usize) -> Counts {
    Counts {
        places: layout.colours.len() / 2 + mates.places.len(),
        transitions: layout.mode_counts.len() / 2,
        pairs: layout.pairs + mates.count,
        modes: layout.modes,
        arcs,
    }
}

/// "Complement exceeds the sheet's limits."
pub fn exceeds(counts: &Counts) -> bool {
    counts.places > 64 || counts.pairs > 256 || counts.arcs > 2_048
}

/// The complement pairs.
pub struct Mates {
    /// The capacity of each pair, and its complement pair where that is finite.
    pub of: [(u32, u32); 256],
    /// How many there are.
    pub count: usize,
    /// How many finite pairs each place has that has one.
    places: Vec<u16>,
}

impl Mates {
    /// "Each pair of finite K gets a complement pair, numbered after all originals in rising order."
    pub fn of(layout: &Layout) -> Mates {
        let mut of = [(UNBOUNDED, 0); 256];
        let mut places = Vec::with_capacity(64);
        let mut count = 0;
        let mut pairs = of.iter_mut().zip(layout.table);
        for colours in layout.colours.as_chunks().0 {
            let before = count;
            for (mate, bytes) in pairs.by_ref().take(usize::from(u16::from_be_bytes(*colours))) {
                *mate = (pair_of(bytes).0, (layout.pairs + count) as u32);
                count += usize::from(mate.0 != UNBOUNDED);
            }
            if count > before {
                places.push((count - before) as u16);
            }
        }
        Mates { of, count, places }
    }
}

/// Pre and Post on the complement pair of a finite K, for a live mode and for a dead one: "for a locally dead mode
/// write each complement Post equal to its complement Pre".
#[inline(always)]
pub fn mated(arc: Arc, capacity: u32, weak: bool, dead: bool) -> (u32, u32) {
    let taken_up = arc.post.saturating_sub(if weak { arc.pre } else { 0 });
    let pre = taken_up.max(capacity.saturating_sub(arc.inhibitor));
    (pre, if dead { pre } else { pre + arc.pre - arc.post })
}

/// "Pre is above the least of K less Post and I, or Post is above K", by the weak rule "of K and I".
#[inline(always)]
pub fn dead_at(arc: Arc, capacity: u32, weak: bool) -> bool {
    let most = if weak { arc.pre.max(arc.post) } else { arc.pre + arc.post };
    (most > capacity) | (arc.pre > arc.inhibitor)
}

/// The complement's arcs as its sheet has them: each mode's original arcs, then those at complement pairs.
/// "Blank arcs are left out."
fn arcs_of(layout: &Layout, mates: &Mates) -> Result<Vec<[u8; 16]>, Answer> {
    let mut arcs = Arcs { bytes: vec![[0; 16]; 2 * layout.arcs.len()], count: 0, inhibited: false };
    let mut rest = &layout.arcs[..];
    while let Some(first) = rest.first() {
        let mut own = 0;
        while let Some(bytes) = rest.get(own).filter(|bytes| bytes[..2] == first[..2]) {
            own += 1;
            // The eight bytes of Pre and Post.
            if bytes[4..12] != [0; 8] {
                arcs.put(with_open_inhibitor(bytes));
            }
        }
        let originals = arcs.count;
        if arcs.put_mates(&rest[..own], mates, layout.weak, false) {
            // What a live mode would have is put aside: few modes are dead.
            arcs.count = originals;
            arcs.put_mates(&rest[..own], mates, layout.weak, true);
        }
        rest = &rest[own..];
    }
    if arcs.inhibited {
        return Err(inhibited(layout, mates));
    }
    arcs.bytes.truncate(arcs.count);
    Ok(arcs.bytes)
}

/// The complement's arcs so far.
struct Arcs {
    bytes: Vec<[u8; 16]>,
    count: usize,
    /// Whether an arc inhibits a pair of unbounded K.
    inhibited: bool,
}

impl Arcs {
    #[inline(always)]
    fn put(&mut self, arc: [u8; 16]) {
        self.bytes[self.count] = arc;
        self.count += 1;
    }

    /// A mode's arcs at complement pairs, as of a live mode or of a dead one; whether a pair of finite K shows that it
    /// is dead. (Where one of unbounded K does, its inhibitor is finite, and there is no complement.)
    #[inline(always)]
    fn put_mates(&mut self, own: &[[u8; 16]], mates: &Mates, weak: bool, dead: bool) -> bool {
        let mut shown = false;
        for bytes in own {
            let arc = Arc::of(bytes);
            let (capacity, mate) = mates.of[arc.pair()];
            if capacity == UNBOUNDED {
                self.inhibited |= arc.inhibitor != UNBOUNDED;
                continue;
            }
            shown |= dead_at(arc, capacity, weak);
            let (pre, post) = mated(arc, capacity, weak, dead);
            if pre | post != 0 {
                self.put(open_arc(arc.key & 0xFFFF_0000 | mate, pre, post));
            }
        }
        shown
    }
}

/// 15 at its first arc.
#[cold]
pub fn inhibited(layout: &Layout, mates: &Mates) -> Answer {
    let unbounded = |arc: Arc| mates.of[arc.pair()].0 == UNBOUNDED && arc.inhibitor != UNBOUNDED;
    let at = layout.arcs.iter().map(Arc::of).position(unbounded).expect("an arc was at fault");
    Answer::refused(15, NET, layout.arc_offset(at))
}

/// Writes the sheet, of the version given, into a slice of its length.
fn write(layout: &Layout, mates: &Mates, counts: &Counts, arcs: &[[u8; 16]], output: &mut [u8]) {
    let mut rest = Rest(output);
    rest.head(layout.version, layout.weak, counts);
    rest.copy(layout.colours);
    mates.places.iter().for_each(|place| rest.put(place.to_be_bytes()));
    rest.copy(layout.mode_counts);
    for bytes in layout.table {
        rest.put(open_pair(pair_of(bytes).1));
    }
    for (capacity, count) in layout.table.iter().map(pair_of) {
        if capacity != UNBOUNDED {
            rest.put(open_pair(capacity - count));
        }
    }
    rest.arcs(layout.version, layout.modes, arcs);
}

/// "All K and I become unbounded."
fn open_pair(count: u32) -> [u8; 8] {
    (u64::from(UNBOUNDED) << 32 | u64::from(count)).to_be_bytes()
}

#[inline(always)]
fn open_arc(key: u32, pre: u32, post: u32) -> [u8; 16] {
    let (high, low) = (u64::from(key) << 32 | u64::from(pre), u64::from(post) << 32 | u64::from(UNBOUNDED));
    (u128::from(high) << 64 | u128::from(low)).to_be_bytes()
}

/// "Original Pre, Post and first marking stay."
#[inline(always)]
fn with_open_inhibitor(bytes: &[u8; 16]) -> [u8; 16] {
    let open = u128::from(UNBOUNDED);
    (u128::from_ne_bytes(*bytes) | u128::from_ne_bytes(open.to_be_bytes())).to_ne_bytes()
}
