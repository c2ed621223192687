//! Writing a net sheet of either version.

/// The part of the output that is still to be written.
pub struct Rest<'a>(pub &'a mut [u8]);

/// How many places, transitions, pairs, modes and arcs a sheet has.
pub struct Counts {
    pub places: usize,
    pub transitions: usize,
    pub pairs: usize,
    pub modes: usize,
    pub arcs: usize,
}

impl Counts {
    /// How many bytes their sheet of a version takes.
    pub fn length(&self, version: u8) -> usize {
        let arcs = match version {
            1 => 2 + 16 * self.arcs,
            _ => 1 + 2 * self.modes + 14 * self.arcs,
        };
        9 + 2 * (self.places + self.transitions) + 8 * self.pairs + arcs
    }
}

impl Rest<'_> {
    /// All before the colours: the length, the version, in version 2 the rule byte, the first two counts.
    pub fn head(&mut self, version: u8, weak: bool, counts: &Counts) {
        self.put((self.0.len() as u32 - 4).to_be_bytes());
        self.put([version]);
        if version == 2 {
            self.put([u8::from(weak)]);
        }
        self.put((counts.places as u16).to_be_bytes());
        self.put((counts.transitions as u16).to_be_bytes());
    }

    /// All after the pairs, from arcs with their modes.
    pub fn arcs(&mut self, version: u8, modes: usize, arcs: &[[u8; 16]]) {
        if version == 1 {
            self.put((arcs.len() as u16).to_be_bytes());
            return self.copy(arcs.as_flattened());
        }
        let mut rest = arcs;
        for mode in 0..modes as u16 {
            let own = rest.iter().take_while(|bytes| bytes[..2] == mode.to_be_bytes()).count();
            self.put((own as u16).to_be_bytes());
            rest[..own].iter().for_each(|bytes| self.copy(&bytes[2..]));
            rest = &rest[own..];
        }
    }

    #[inline(always)]
    pub fn put<const N: usize>(&mut self, bytes: [u8; N]) {
        let (place, rest) =
            std::mem::take(&mut self.0).split_first_chunk_mut().expect("the length is counted");
        *place = bytes;
        self.0 = rest;
    }

    #[inline(always)]
    pub fn copy(&mut self, bytes: &[u8]) {
        let (place, rest) = std::mem::take(&mut self.0).split_at_mut(bytes.len());
        place.copy_from_slice(bytes);
        self.0 = rest;
    }
}
