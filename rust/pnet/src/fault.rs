//! The refusals, by name.

/// What is wrong: the rows of the table of numbers in docs/RULES.md.
#[derive(Clone, Copy, Debug, PartialEq, Eq, PartialOrd, Ord, Hash)]
#[non_exhaustive]
pub enum Fault {
    /// 1: fewer than 4 bytes, or fewer than 4 + L; of movements to salvage fewer than 5.
    CutShort,
    /// 2: the version byte is not 1, or 2 in a net sheet; in a conversion, not the version that it converts.
    WrongVersion,
    /// 3: the sheet is not as long as it says.
    WrongLength(Length),
    /// 4: a count outside its limits, or the running total passes 256, or 2,048 of arcs; another rule byte than 0 and 1; a step that is
    /// empty or has more than 64 modes.
    CountOutside,
    /// 5: a number outside its range.
    NumberOutside,
    /// 6: a mode or a pair is not there.
    NotThere,
    /// 7: an arc is not above the one before.
    NotRising,
    /// 8: an arc is blank.
    Blank,
    /// 9: a count is above a finite K.
    AboveCapacity,
    /// 10: the complement or the stripped net exceeds the sheet's limits, or the output slice is shorter than what is to be written.
    NoRoom,
    /// 11: Pre is above the count.
    Lacking,
    /// 12: the count plus Post is above K, or by rule 1 above K plus Pre.
    OverCapacity,
    /// 13: the count is above I.
    Inhibited,
    /// 14: the new count is above 1,000,000.
    OverLimit,
    /// 15: a finite I stands at a pair of unbounded K; the pair to strip has unbounded K.
    InhibitedUnbounded,
    /// 16: kept, and given by no call: a complement number is never above 1,000,000.
    ComplementAbove,
    /// 17: the marking or the weights are not one for each pair.
    NotOneEach,
    /// 18: a certificate ends at another marking.
    EndsElsewhere,
    /// 19: a K or an I is finite, of a net that is to be exported.
    NotUnbounded,
    /// 20: a text is no export, and no export goes on as it does.
    NotAnExport,
    /// 20: a text is the beginning of an export, and ends there.
    TextCutShort,
    /// 4: a text is the export of a net of more than 64 pairs or modes.
    TextTooLarge,
    /// 21: a mode changes the figure, so that an exclusion's weights show nothing.
    Unbalanced,
    /// 22: an exclusion's claim has the figure of the first marking.
    EqualFigures,
    /// 23: a net of rule 1 has no sheet of version 1.
    WeakRule,
    /// 4: a fleet's record has 1,000 ships.
    FleetFull,
    /// 24: a figure of a fleet's record would pass 10^18.
    FigureOutside,
    /// 25: a fleet's record has more than 1,000 ships or refusals by a number, or 8,192,000 movements, or a figure below 0 or above 10^18.
    RecordOutside,
    /// A number that has no name here yet.
    Other(u64),
}

/// The causes of a wrong length.
#[derive(Clone, Copy, Debug, PartialEq, Eq, PartialOrd, Ord, Hash)]
pub enum Length {
    /// L = 0.
    Nothing,
    /// A field runs past L.
    FieldPastEnd,
    /// Bytes are left over after the last field, or after the sheet.
    BytesLeftOver,
}

impl Fault {
    /// The fault of a number, with the cause of a wrong length.
    pub(crate) fn of(number: u64, length: impl FnOnce() -> Length) -> Fault {
        use Fault::*;
        match number {
            1 => CutShort,
            2 => WrongVersion,
            3 => WrongLength(length()),
            4 => CountOutside,
            5 => NumberOutside,
            6 => NotThere,
            7 => NotRising,
            8 => Blank,
            9 => AboveCapacity,
            10 => NoRoom,
            11 => Lacking,
            12 => OverCapacity,
            13 => Inhibited,
            14 => OverLimit,
            15 => InhibitedUnbounded,
            16 => ComplementAbove,
            17 => NotOneEach,
            18 => EndsElsewhere,
            19 => NotUnbounded,
            20 => NotAnExport,
            21 => Unbalanced,
            22 => EqualFigures,
            23 => WeakRule,
            24 => FigureOutside,
            25 => RecordOutside,
            other => Other(other),
        }
    }

    /// The number of the table.
    pub fn number(self) -> u64 {
        use Fault::*;
        match self {
            CutShort => 1,
            WrongVersion => 2,
            WrongLength(_) => 3,
            CountOutside | FleetFull | TextTooLarge => 4,
            NumberOutside => 5,
            NotThere => 6,
            NotRising => 7,
            Blank => 8,
            AboveCapacity => 9,
            NoRoom => 10,
            Lacking => 11,
            OverCapacity => 12,
            Inhibited => 13,
            OverLimit => 14,
            InhibitedUnbounded => 15,
            ComplementAbove => 16,
            NotOneEach => 17,
            EndsElsewhere => 18,
            NotUnbounded => 19,
            NotAnExport | TextCutShort => 20,
            Unbalanced => 21,
            EqualFigures => 22,
            WeakRule => 23,
            FigureOutside => 24,
            RecordOutside => 25,
            Other(number) => number,
        }
    }
}

#[cfg(test)]
mod tests {
    use super::{Fault, Length};

    #[test]
    fn every_fault_has_its_number_and_no_number_panics() {
        for number in (1..100).chain([u64::MAX]) {
            let fault = Fault::of(number, || Length::Nothing);
            let named = matches!(number, 1..=25);
            assert_eq!((fault.number(), matches!(fault, Fault::Other(_))), (number, !named));
        }
    }
}
