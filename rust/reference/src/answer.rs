//! "Every answer carries the number, which thing was at fault and a position"; "every answer now carries
//! this amount, 0 for all other numbers".

/// What a call answers.
#[derive(Clone, Copy, Debug, PartialEq, Eq)]
pub struct Answer {
    /// The number of the table "Refusal numbers", 0 where accepted.
    pub number: u32,
    /// Which thing was at fault.
    pub thing: u8,
    /// An offset, a pair or 0, as the table says.
    pub position: u64,
    /// "How many tokens are lacking (11), over capacity (12), over the inhibitor (13) or over the counter's
    /// limit (14) at the named pair"; 0 for every other number.
    pub amount: u64,
}

/// Which thing was at fault.
#[derive(Clone, Copy, Debug, PartialEq, Eq)]
pub enum Thing {
    /// "0 net, also for numbers 0, 10, 15, 16 and any above 18."
    Net = 0,
    /// "1 weights."
    Weights = 1,
    /// "2 movements, also one that a run or certificate refuses."
    Movements = 2,
    /// "3 marking, claim or any other argument."
    Argument = 3,
}

/// The refusals of the table, by their numbers.
#[derive(Clone, Copy, Debug, PartialEq, Eq)]
pub enum Refusal {
    /// "Fewer than 4 bytes, or fewer than 4 + L."
    Short = 1,
    /// "Version byte is not 1", nor 2 of a net; "a conversion answers 2 to a sheet of its target version".
    Version = 2,
    /// "L = 0; a field runs past L; bytes left over."
    Field = 3,
    /// "A count outside its limits, or the running total passes 256"; "another rule byte, or the arc count whose running
    /// total passes 2,048"; "4 for ship 1,001"; "4 where there are more than 64 pairs or modes" in a text.
    Count = 4,
    /// "A number outside its range."
    Range = 5,
    /// "An arc's mode or pair is not there; a movement's mode is not there."
    Absent = 6,
    /// "Arc not above the one before."
    Order = 7,
    /// "Blank arc."
    Blank = 8,
    /// "A count above a finite K."
    AboveCapacity = 9,
    /// "Complement exceeds the sheet's limits, or the output slice is shorter than it."
    NoRoom = 10,
    /// "Pre above the count."
    Pre = 11,
    /// "Count plus Post above K", or by rule 1 above K plus Pre: "12 reads by the rule in force".
    Post = 12,
    /// "Count above I."
    Inhibitor = 13,
    /// "New count above 1,000,000."
    NewCount = 14,
    /// "Finite I at a pair of unbounded K."
    UnboundedCapacity = 15,
    // 16 is given no more: "show that 16 no longer occurs, and keep its number reserved".
    /// "Marking or weights not one for each pair."
    NotEachPair = 17,
    /// "Certificate ends at another marking."
    OtherMarking = 18,
    /// "19 at the first finite K or I."
    Bounded = 19,
    /// "20 at the first byte (or the end) from which no export agrees with the text."
    NoExport = 20,
    /// "21 with the first unbalanced mode."
    Unbalanced = 21,
    /// "22 when the figures are equal."
    EqualFigures = 22,
    /// "Converting a rule-1 sheet to version 1 is always refused by 23, before 10."
    WeakRule = 23,
    /// "24 where a figure would pass 10^18."
    FigureOutside = 24,
    /// "25 for a lent record with ships or a refusal count above 1,000, movements above 8,192,000, or a figure below 0 or above 10^18."
    RecordOutside = 25,
}

impl Answer {
    /// "0 | accepted | 0"
    pub const ACCEPTED: Answer = Answer { number: 0, thing: 0, position: 0, amount: 0 };

    /// A refusal of a thing at a position, by no amount.
    pub fn refused(refusal: Refusal, thing: Thing, position: usize) -> Answer {
        Answer { number: refusal as u32, thing: thing as u8, position: position as u64, amount: 0 }
    }

    /// The same refusal by an amount.
    pub fn by(self, amount: u32) -> Answer {
        Answer { amount: amount.into(), ..self }
    }

    /// The answer of a call whose value is there only where it was accepted.
    pub fn of<V>(outcome: &Result<V, Answer>) -> Answer {
        match outcome {
            Ok(_) => Answer::ACCEPTED,
            Err(answer) => *answer,
        }
    }
}
