//! How a net's sheet is written: a call that writes a net "writes the version and rule it was given".

use crate::rule::Rule;
use crate::version::Version;

/// A net sheet's version, with the rule byte that version 2 has.
#[derive(Clone, Copy, Debug, PartialEq, Eq)]
pub enum Form {
    /// Version 1, which has no rule byte and means rule 0.
    One,
    /// Version 2 of a rule.
    Two(Rule),
}

impl Form {
    /// Every form that a net sheet can have.
    pub const ALL: [Form; 3] = [Form::One, Form::Two(Rule::Strict), Form::Two(Rule::Weak)];

    /// Its version.
    pub fn version(self) -> Version {
        match self {
            Form::One => Version::One,
            Form::Two(_) => Version::Two,
        }
    }

    /// The rule of its net.
    pub fn rule(self) -> Rule {
        match self {
            Form::One => Rule::Strict,
            Form::Two(rule) => rule,
        }
    }
}

/// The version with rule 0.
impl From<Version> for Form {
    fn from(version: Version) -> Form {
        match version {
            Version::One => Form::One,
            Version::Two => Form::Two(Rule::Strict),
        }
    }
}
