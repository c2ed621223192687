//! Numbers as decimal text, eight digits at a time.

/// Text of up to eight bytes: the bytes, the first lowest, and how many.
#[derive(Clone, Copy)]
pub struct Word(pub u64, pub usize);

impl Word {
    /// A short text as a word.
    pub fn of<const N: usize>(text: &[u8; N]) -> Word {
        let mut bytes = [0; 8];
        bytes[..N].copy_from_slice(text);
        Word(u64::from_le_bytes(bytes), N)
    }
}

/// The eight digits of a number below 100,000,000 as values, the first digit lowest.
#[inline(always)]
fn eight_digits(number: u32) -> u64 {
    // Two fours of digits, then four twos, then eight ones, side by side.
    let fours = u64::from(number / 10_000) | u64::from(number % 10_000) << 32;
    let hundreds = ((fours * 10_486) >> 20) & 0x0000_007F_0000_007F;
    let twos = hundreds | (fours - 100 * hundreds) << 16;
    let tens = ((twos * 103) >> 10) & 0x000F_000F_000F_000F;
    tens | (twos - 10 * tens) << 8
}

const ZEROS: u64 = 0x3030_3030_3030_3030;

/// A number below 100,000,000 without leading zeros; zero is '0'.
#[inline(always)]
pub fn short(number: u32) -> Word {
    let digits = eight_digits(number);
    // The last digit is always kept.
    let skipped = (digits | 1 << 56).trailing_zeros() / 8;
    Word((digits | ZEROS) >> (8 * skipped), 8 - skipped as usize)
}

/// The digits of a number above its last eight, kept because those of the next number are often the same.
pub struct High(u32, Word);

impl High {
    pub fn new() -> High {
        High(0, Word(0, 0))
    }
}

/// The positions in a list as text, counted from 1.
pub struct Positions {
    last_digit: u8,
    word: Word,
    position: u32,
}

impl Positions {
    pub fn new() -> Positions {
        Positions { last_digit: 0, word: short(0), position: 0 }
    }

    /// The next position: its last digit is one more, unless it was 9.
    #[inline(always)]
    pub fn next(&mut self) -> Word {
        self.position += 1;
        self.last_digit += 1;
        if self.last_digit == 10 {
            self.last_digit = 0;
            self.word = short(self.position);
        } else {
            self.word.0 += 1 << (8 * (self.word.1 - 1));
        }
        self.word
    }
}

/// How many bytes of text a page holds before it is handed over.
const FULL: usize = 4_096;

/// A page of text under way, with room for three more lines and for the bytes that a word writes and takes
/// back. How many of its bytes are text is kept beside it.
pub struct Page([u8; FULL + 128]);

impl Page {
    pub fn new() -> Page {
        Page([0; FULL + 128])
    }

    /// Eight bytes are written at once; those after the word are taken back by not being counted.
    #[inline(always)]
    pub fn word(&mut self, at: usize, word: Word) -> usize {
        let place = self.0[at..].first_chunk_mut();
        *place.expect("a line is short") = word.0.to_le_bytes();
        at + word.1
    }

    /// A number of at most 16 digits with its sign. "A negative figure is '-' and its digits."
    #[inline(always)]
    pub fn number(&mut self, at: usize, number: i64, high: &mut High) -> usize {
        let at = self.word(at, Word(u64::from(b'-'), usize::from(number < 0)));
        let size = number.unsigned_abs();
        let (upper, lower) = ((size / 100_000_000) as u32, (size % 100_000_000) as u32);
        if upper == 0 {
            return self.word(at, short(lower));
        }
        if upper != high.0 {
            *high = High(upper, short(upper));
        }
        let at = self.word(at, high.1);
        self.word(at, Word(eight_digits(lower) | ZEROS, 8))
    }

    /// Ends a line, and hands the page over where it is full.
    #[inline(always)]
    pub fn end_line(&mut self, at: usize, text: &mut Vec<u8>) -> usize {
        let at = self.word(at, Word(u64::from(b'\n'), 1));
        if at < FULL {
            return at;
        }
        text.extend_from_slice(&self.0[..at]);
        0
    }

    /// The page's text after what was handed over.
    pub fn finish(&self, at: usize, mut text: Vec<u8>) -> Vec<u8> {
        text.extend_from_slice(&self.0[..at]);
        text
    }
}
