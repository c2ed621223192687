//! "Every answer carries the number, which thing was at fault and a position", and an amount.

/// What a call answers.
#[derive(Clone, Copy, Debug, PartialEq, Eq)]
pub struct Answer {
    /// The number of the table "Refusal numbers", 0 where accepted.
    pub number: u32,
    /// Which thing was at fault: 0 net, 1 weights, 2 movements, 3 any other argument.
    pub thing: u8,
    /// An offset, a pair or 0, as the table says.
    pub position: u64,
    /// How many tokens are lacking (11), or above the bound (12, 13, 14), at the named pair; else 0.
    pub amount: u64,
}

pub const NET: u8 = 0;
pub const WEIGHTS: u8 = 1;
pub const MOVEMENTS: u8 = 2;
/// The thing of a marking or any other argument.
pub const ARGUMENT: u8 = 3;

/// "Numbers in net sheets and markings are 0..1,000,000."
pub const LARGEST: u32 = 1_000_000;

/// "The value 4,294,967,295 means unbounded."
pub const UNBOUNDED: u32 = u32::MAX;

impl Answer {
    /// "0 | accepted | 0"
    pub const ACCEPTED: Answer = Answer { number: 0, thing: 0, position: 0, amount: 0 };

    /// A refusal by its number, with no amount.
    pub fn refused(number: u32, thing: u8, position: usize) -> Answer {
        Answer { number, thing, position: position as u64, amount: 0 }
    }

    /// The same refusal by an amount.
    pub fn by(self, amount: u32) -> Answer {
        Answer { amount: amount.into(), ..self }
    }
}
