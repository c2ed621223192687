//! Plain nets, weights and movements, written as sheets. Nothing is checked: a wrong sheet can be built too.

use crate::form::Form;
use crate::limits::UNBOUNDED;
use crate::version::Version;

/// A plain net: what a net sheet says, field by field.
#[derive(Clone, Debug, Default, PartialEq, Eq)]
pub struct PlainNet {
    /// Colours of each place.
    pub colours: Vec<u16>,
    /// Modes of each transition.
    pub modes: Vec<u16>,
    /// For each pair K and the first marking.
    pub pairs: Vec<(u32, u32)>,
    /// The arcs.
    pub arcs: Vec<PlainArc>,
}

/// An arc as it stands in a net sheet.
#[derive(Clone, Copy, Debug, PartialEq, Eq)]
pub struct PlainArc {
    /// The mode's number.
    pub mode: u16,
    /// The pair's number.
    pub pair: u16,
    /// What firing takes.
    pub pre: u32,
    /// What firing gives.
    pub post: u32,
    /// The inhibitor I; 4,294,967,295 is unbounded.
    pub inhibitor: u32,
}

/// An arc, its parts in the order of the sheet.
pub fn arc(mode: u16, pair: u16, pre: u32, post: u32, inhibitor: u32) -> PlainArc {
    PlainArc { mode, pair, pre, post, inhibitor }
}

impl PlainNet {
    /// Every place of one colour, every transition of one mode.
    pub fn plain(transitions: usize, pairs: &[(u32, u32)], arcs: &[PlainArc]) -> PlainNet {
        PlainNet {
            colours: vec![1; pairs.len()],
            modes: vec![1; transitions],
            pairs: pairs.to_vec(),
            arcs: arcs.to_vec(),
        }
    }

    /// The net sheet of version 1.
    pub fn sheet(&self) -> Vec<u8> {
        self.sheet_in(Form::One)
    }

    /// The net sheet of a version, or of a version and rule. In version 2 an arc stands with those of its mode, and one
    /// whose mode is not there nowhere.
    pub fn sheet_in(&self, form: impl Into<Form>) -> Vec<u8> {
        let (form, mut fields) = (form.into(), Vec::new());
        if let Form::Two(rule) = form {
            fields.push(rule as u8);
        }
        self.put_counts_and_pairs(&mut fields);
        match form {
            Form::One => self.put_arcs(&mut fields),
            Form::Two(_) => self.put_arcs_of_modes(&mut fields),
        }
        sheet_in(form.version(), &fields)
    }

    fn put_counts_and_pairs(&self, fields: &mut Vec<u8>) {
        two(fields, self.colours.len() as u16);
        two(fields, self.modes.len() as u16);
        self.colours.iter().chain(&self.modes).for_each(|&count| two(fields, count));
        for &(capacity, count) in &self.pairs {
            four(fields, capacity);
            four(fields, count);
        }
    }

    fn put_arcs(&self, fields: &mut Vec<u8>) {
        two(fields, self.arcs.len() as u16);
        for arc in &self.arcs {
            two(fields, arc.mode);
            arc.put(fields);
        }
    }

    fn put_arcs_of_modes(&self, fields: &mut Vec<u8>) {
        let mut of_modes = vec![Vec::new(); self.modes.iter().map(|&modes| usize::from(modes)).sum()];
        for arc in &self.arcs {
            of_modes.get_mut(usize::from(arc.mode)).into_iter().for_each(|own| own.push(arc));
        }
        for own in of_modes {
            two(fields, own.len() as u16);
            own.iter().for_each(|arc| arc.put(fields));
        }
    }

    /// The offset of an arc's first byte in the sheet of version 1.
    pub fn arc_offset(&self, arc: usize) -> u64 {
        self.pair_offset(self.pairs.len()) + (2 + 16 * arc) as u64
    }

    /// The offset of a mode's arc count in the sheet of version 2.
    pub fn count_offset_2(&self, mode: u16) -> u64 {
        let before = self.arcs.iter().filter(|arc| arc.mode < mode).count();
        1 + self.pair_offset(self.pairs.len()) + 2 * u64::from(mode) + 14 * before as u64
    }

    /// The offset of an arc's first byte in the sheet of version 2.
    pub fn arc_offset_2(&self, arc: usize) -> u64 {
        let mode = self.arcs[arc].mode;
        let before = self.arcs[..arc].iter().filter(|arc| arc.mode == mode).count();
        self.count_offset_2(mode) + 2 + 14 * before as u64
    }

    /// The offset of a pair's K in the sheet of version 1, one less than in that of version 2; the first marking stands 4
    /// bytes after it.
    pub fn pair_offset(&self, pair: usize) -> u64 {
        (9 + 2 * (self.colours.len() + self.modes.len()) + 8 * pair) as u64
    }
}

impl PlainArc {
    /// The arc from its pair on.
    fn put(&self, fields: &mut Vec<u8>) {
        two(fields, self.pair);
        [self.pre, self.post, self.inhibitor].into_iter().for_each(|number| four(fields, number));
    }
}

/// The value that means unbounded.
pub const OPEN: u32 = UNBOUNDED;

/// The sheet of these fields: "a 4-byte length L, a version byte 1, then its fields".
pub fn sheet(fields: &[u8]) -> Vec<u8> {
    sheet_in(Version::One, fields)
}

/// The sheet of a version of these fields; the first of version 2 is the rule byte.
pub fn sheet_in(version: Version, fields: &[u8]) -> Vec<u8> {
    let mut sheet = Vec::new();
    four(&mut sheet, fields.len() as u32 + 1);
    sheet.push(version as u8);
    sheet.extend_from_slice(fields);
    sheet
}

/// The weight sheet of these weights.
pub fn weights(weights: &[i32]) -> Vec<u8> {
    let mut fields = Vec::new();
    two(&mut fields, weights.len() as u16);
    weights.iter().for_each(|&weight| four(&mut fields, weight as u32));
    sheet(&fields)
}

/// The movement sheet of these modes.
pub fn movements(modes: &[u16]) -> Vec<u8> {
    let mut fields = Vec::new();
    modes.iter().for_each(|&mode| two(&mut fields, mode));
    sheet(&fields)
}

fn two(bytes: &mut Vec<u8>, field: u16) {
    bytes.extend_from_slice(&field.to_be_bytes());
}

fn four(bytes: &mut Vec<u8>, field: u32) {
    bytes.extend_from_slice(&field.to_be_bytes());
}
