//! "Yards with the weak capacity rule": the rule byte of version 2.

use crate::bound::Bound;

/// What a net's capacities ask of a movement.
#[derive(Clone, Copy, Debug, PartialEq, Eq)]
pub enum Rule {
    /// Rule byte 0, and every sheet of version 1: "M + Post ≤ K".
    Strict = 0,
    /// "Rule byte 1 in version 2 means M + Post ≤ K + Pre, with the other two conditions as before."
    Weak = 1,
}

impl Rule {
    /// Those of version 2.
    pub const BOTH: [Rule; 2] = [Rule::Strict, Rule::Weak];

    /// The most that M + Post may be.
    pub fn room(self, capacity: Bound, pre: u32) -> Bound {
        match self {
            Rule::Strict => capacity,
            Rule::Weak => capacity.plus(pre),
        }
    }
}
