//! The text of a net in PNML, byte for byte: a place for each pair, a transition for each mode, an arc for each Pre and each Post that is
//! not 0.

use crate::kinds::{Mode, Pair};

/// "The export's opening and closing text is fixed byte for byte."
pub const OPEN: &str = r#"<?xml version="1.0" encoding="UTF-8"?>
<pnml xmlns="http://www.pnml.org/version-2009/grammar/pnml">
  <net id="n" type="http://www.pnml.org/version-2009/grammar/ptnet">
    <page id="g">
"#;

/// What every export ends with.
pub const CLOSE: &str = "    </page>\n  </net>\n</pnml>\n";

/// A line of the page up to its number, where it has one: `OPEN` and `CLOSE` stand around them.
#[derive(Clone, Copy, Debug, PartialEq, Eq)]
pub enum Line {
    /// "Each pair becomes a place", with its first marking.
    Place(Pair),
    /// "Each mode a transition"; its arcs follow it.
    Transition(Mode),
    /// Pre of a mode at a pair.
    Pre(Mode, Pair),
    /// Post of a mode at a pair.
    Post(Mode, Pair),
}

impl Line {
    /// The line up to its number.
    pub fn head(self) -> String {
        match self {
            Line::Place(Pair(pair)) => format!("      <place id=\"p{pair:03}\"><initialMarking><text>"),
            Line::Transition(Mode(mode)) => format!("      <transition id=\"t{mode:03}\"/>\n"),
            Line::Pre(Mode(mode), Pair(pair)) => format!(
                "      <arc id=\"i{mode:03}-{pair:03}\" source=\"p{pair:03}\" target=\"t{mode:03}\"><inscription><text>"
            ),
            Line::Post(Mode(mode), Pair(pair)) => format!(
                "      <arc id=\"o{mode:03}-{pair:03}\" source=\"t{mode:03}\" target=\"p{pair:03}\"><inscription><text>"
            ),
        }
    }

    /// What follows the number.
    pub fn tail(self) -> &'static str {
        match self {
            Line::Place(_) => "</text></initialMarking></place>\n",
            Line::Transition(_) => "",
            Line::Pre(..) | Line::Post(..) => "</text></inscription></arc>\n",
        }
    }

    /// The least number that it may have, where it has one: a marking may be 0, and a weight is positive.
    pub fn least(self) -> Option<u32> {
        match self {
            Line::Place(_) => Some(0),
            Line::Transition(_) => None,
            Line::Pre(..) | Line::Post(..) => Some(1),
        }
    }
}
