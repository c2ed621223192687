//! A net as its sheet describes it.

use crate::arc::{Arc, BLANK, Flow};
use crate::bound::Bound;
use crate::build::PlainNet;
use crate::form::Form;
use crate::kinds::Mode;
use crate::rule::Rule;

/// A net that its sheet's reader accepted.
#[derive(Clone, Debug)]
pub struct Net {
    /// The version of its sheet, and the rule.
    pub form: Form,
    /// Colours of each place.
    pub colours: Vec<u16>,
    /// Modes of each transition.
    pub modes: Vec<u16>,
    /// The capacity K of each pair.
    pub capacity: Vec<Bound>,
    /// The first marking, one count for each pair.
    pub first: Vec<u32>,
    /// The arcs, which "rise strictly by mode, then pair".
    pub arcs: Vec<Arc>,
}

impl Net {
    /// The rule in force.
    pub fn rule(&self) -> Rule {
        self.form.rule()
    }

    /// What its sheet says, field by field.
    pub fn plain(&self) -> PlainNet {
        PlainNet {
            colours: self.colours.clone(),
            modes: self.modes.clone(),
            pairs: self.capacity.iter().zip(&self.first).map(|(k, &first)| (k.field(), first)).collect(),
            arcs: self.arcs.iter().map(Arc::plain).collect(),
        }
    }

    /// How many pairs the net has.
    pub fn pair_count(&self) -> usize {
        self.capacity.len()
    }

    /// How many modes the net has.
    pub fn mode_count(&self) -> usize {
        self.modes.iter().map(|&modes| usize::from(modes)).sum()
    }

    /// The modes in the order of their numbers.
    pub fn all_modes(&self) -> impl Iterator<Item = Mode> {
        (0..).map(Mode).take(self.mode_count())
    }

    /// A mode's arcs, which stand together; a mode that is not there has none.
    pub fn arcs_of(&self, mode: Mode) -> &[Arc] {
        let from = self.arcs.partition_point(|arc| arc.mode < mode);
        let to = self.arcs.partition_point(|arc| arc.mode <= mode);
        &self.arcs[from..to]
    }

    /// Pre, Post and I of a mode at every pair, in the order of the pairs.
    pub fn flows(&self, mode: Mode) -> Vec<Flow> {
        let mut flows = vec![BLANK; self.pair_count()];
        for arc in self.arcs_of(mode) {
            flows[arc.pair.index()] = arc.flow;
        }
        flows
    }
}
