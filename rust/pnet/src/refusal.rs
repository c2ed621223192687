//! Why a call was refused.

use std::fmt;

use crate::fault::{Fault, Length};
use crate::kinds::{Mode, Pair, Thing};

/// Why a call was refused: what is wrong, in which thing, where and by how much. It prints in words.
#[derive(Clone, Copy, Debug, PartialEq, Eq, Hash)]
pub struct Refusal {
    fault: Fault,
    thing: Thing,
    position: u64,
    amount: u64,
}

impl Refusal {
    pub(crate) fn new(fault: Fault, thing: Thing, position: u64, amount: u64) -> Refusal {
        Refusal { fault, thing, position, amount }
    }

    /// The same refusal, what is wrong by another name.
    pub(crate) fn with(self, fault: Fault) -> Refusal {
        Refusal { fault, ..self }
    }

    /// What is wrong.
    pub fn fault(&self) -> Fault {
        self.fault
    }

    /// The number of the table, from 1.
    pub fn number(&self) -> u64 {
        self.fault.number()
    }

    /// What was at fault.
    pub fn thing(&self) -> Thing {
        self.thing
    }

    /// The position of the table: a pair's or a mode's number, the offset of a byte in its sheet or text, or 0.
    pub fn position(&self) -> u64 {
        self.position
    }

    /// How many tokens are lacking at the pair (11), over its capacity (12), over the inhibitor (13) or over 1,000,000 (14); 0 for
    /// every other number.
    pub fn amount(&self) -> u64 {
        self.amount
    }

    /// The pair at fault, where the position is one.
    pub fn pair(&self) -> Option<Pair> {
        use Fault::*;
        let of_pair = match self.fault {
            Lacking | OverCapacity | Inhibited | OverLimit | EndsElsewhere => true,
            NumberOutside | AboveCapacity => self.thing == Thing::Argument,
            _ => false,
        };
        of_pair.then_some(Pair(self.position as u16))
    }

    /// The mode at fault, where the position is one.
    pub fn mode(&self) -> Option<Mode> {
        (self.fault == Fault::Unbalanced).then_some(Mode(self.position as u16))
    }

    /// The offset in its sheet or text of the byte, field or arc at fault, where the position is one.
    pub fn offset(&self) -> Option<u64> {
        use Fault::*;
        let of_byte = match self.fault {
            WrongVersion | WrongLength(_) | NotRising | Blank | ComplementAbove => true,
            NotUnbounded | NotAnExport | TextCutShort => true,
            // The pair to strip is no byte.
            InhibitedUnbounded => self.position > 0,
            CountOutside | NumberOutside | AboveCapacity | NotOneEach => self.thing != Thing::Argument,
            NotThere => self.thing == Thing::Net,
            _ => false,
        };
        of_byte.then_some(self.position)
    }
}

impl std::error::Error for Refusal {}

/// Where a net sheet has its place count in version 1, and its rule byte in version 2.
const RULE_OR_PLACES: u64 = 5;

impl fmt::Display for Refusal {
    fn fmt(&self, f: &mut fmt::Formatter) -> fmt::Result {
        let (at, amount) = (self.position, self.amount);
        write!(f, "{}: ", self.number())?;
        match (self.fault, self.thing) {
            (Fault::CutShort, thing) => write!(f, "the {thing} sheet is cut short"),
            (Fault::WrongVersion, Thing::Net) => {
                write!(f, "the net sheet is of no version that this call reads")
            }
            (Fault::WrongVersion, thing) => write!(f, "the {thing} sheet is not of version 1"),
            (Fault::WrongLength(Length::Nothing), thing) => write!(f, "the {thing} sheet has length 0"),
            (Fault::WrongLength(Length::FieldPastEnd), thing) => {
                write!(f, "the {thing} sheet ends before the field at byte {at} does")
            }
            (Fault::WrongLength(Length::BytesLeftOver), thing) => {
                write!(f, "the {thing} sheet has bytes left over from byte {at} on")
            }
            (Fault::CountOutside, Thing::Argument) => write!(f, "the step has no mode, or more than 64"),
            (Fault::CountOutside, Thing::Net) if at == RULE_OR_PLACES => {
                write!(f, "the rule or count at byte {at} of the net sheet is outside its limits")
            }
            (Fault::CountOutside, thing) => {
                write!(f, "the count at byte {at} of the {thing} sheet is outside its limits")
            }
            (Fault::NumberOutside, Thing::Argument) => write!(f, "pair {at} holds more than 1,000,000"),
            (Fault::NumberOutside, thing) => {
                write!(f, "the number at byte {at} of the {thing} sheet is outside its range")
            }
            (Fault::NotThere, Thing::Net) => {
                write!(f, "the mode or pair at byte {at} of the net sheet is not there")
            }
            (Fault::NotThere, Thing::Argument) => write!(f, "the mode or pair is not there"),
            (Fault::NotThere, _) => write!(f, "the mode is not there"),
            (Fault::NotRising, _) => write!(f, "the arc at byte {at} is not above the one before"),
            (Fault::Blank, _) => write!(f, "the arc at byte {at} is blank"),
            (Fault::AboveCapacity, Thing::Argument) => write!(f, "pair {at} holds more than its capacity"),
            (Fault::AboveCapacity, _) => {
                write!(f, "the first marking at byte {at} is above the pair's capacity")
            }
            (Fault::NoRoom, _) => {
                write!(f, "what is to be written exceeds the room for it, or the limits of a sheet")
            }
            (Fault::Lacking, _) => write!(f, "pair {at} holds {amount} too few"),
            // True by either capacity rule: by rule 1 what the movement takes is gone before.
            (Fault::OverCapacity, _) => write!(f, "pair {at} has no room for {amount} of what is added"),
            (Fault::Inhibited, _) => write!(f, "pair {at} holds {amount} over the inhibitor"),
            (Fault::OverLimit, _) => {
                write!(f, "pair {at} would hold {amount} over the counter's limit, 1,000,000")
            }
            (Fault::InhibitedUnbounded, _) if at == 0 => {
                write!(f, "the pair to strip has unbounded capacity")
            }
            (Fault::InhibitedUnbounded, _) => {
                write!(f, "the arc at byte {at} inhibits a pair of unbounded capacity")
            }
            (Fault::ComplementAbove, _) => {
                write!(f, "the arc at byte {at} has a complement number above 1,000,000")
            }
            (Fault::NotOneEach, Thing::Weights) => write!(f, "the weights are not one for each pair"),
            (Fault::NotOneEach, _) => write!(f, "the counts are not one for each pair"),
            (Fault::EndsElsewhere, _) => write!(f, "pair {at} ends at another count than is claimed"),
            (Fault::NotUnbounded, _) => {
                write!(f, "the capacity or inhibitor at byte {at} of the net sheet is not unbounded")
            }
            (Fault::NotAnExport, _) => write!(f, "no export agrees with the text from byte {at} on"),
            (Fault::TextCutShort, _) => write!(f, "the text is cut short at byte {at}"),
            (Fault::TextTooLarge, _) => write!(f, "the text has more than 64 pairs or modes"),
            (Fault::Unbalanced, _) => write!(f, "mode {at} changes the figure, which so excludes nothing"),
            (Fault::EqualFigures, _) => write!(f, "the claim has the figure of the first marking"),
            (Fault::FleetFull, _) => write!(f, "the record has 1,000 ships, and has no place for another"),
            (Fault::FigureOutside, _) => write!(f, "a figure of the record would pass 10^18"),
            (Fault::RecordOutside, _) => write!(f, "the record is out of its bounds"),
            (Fault::WeakRule, _) => write!(f, "a net of the weak capacity rule has no sheet of version 1"),
            (Fault::Other(_), thing) => write!(f, "the {thing} is refused at {at}"),
        }
    }
}

impl fmt::Display for Thing {
    fn fmt(&self, f: &mut fmt::Formatter) -> fmt::Result {
        f.write_str(match self {
            Thing::Net => "net",
            Thing::Weights => "weight",
            Thing::Movements => "movement",
            Thing::Argument => "argument",
        })
    }
}
