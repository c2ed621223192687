//! "A sheet is a 4-byte length L (the bytes after it), a version byte 1, then its fields, all big-endian." A net's
//! may be of version 2.

use crate::answer::{Answer, Refusal, Thing};
use crate::version::Version;

/// One sheet, read field by field from the left.
pub struct Sheet<'a> {
    /// The 4 + L bytes of the sheet.
    bytes: &'a [u8],
    /// The offset of the next field, counted from the first byte of the length.
    offset: usize,
    thing: Thing,
    version: Version,
}

impl<'a> Sheet<'a> {
    /// "Order in a sheet: 1, then L = 0, then 2, then the fields left to right": 2 where its version is none of these.
    pub fn open(run: &'a [u8], thing: Thing, versions: &[Version]) -> Result<Sheet<'a>, Answer> {
        let refuse = |refusal, position| Answer::refused(refusal, thing, position);
        let length = run.first_chunk::<4>().ok_or(refuse(Refusal::Short, 0))?;
        let length = u32::from_be_bytes(*length);
        // 4 + L is a number without wrap.
        if (run.len() as u64) < 4 + u64::from(length) {
            return Err(refuse(Refusal::Short, 0));
        }
        if length == 0 {
            return Err(refuse(Refusal::Field, 0));
        }
        let version = versions.iter().find(|&&version| version as u8 == run[4]);
        let version = *version.ok_or(refuse(Refusal::Version, 4))?;
        Ok(Sheet { bytes: &run[..4 + length as usize], offset: 5, thing, version })
    }

    /// Its version.
    pub fn version(&self) -> Version {
        self.version
    }

    /// The offset of the next field.
    pub fn offset(&self) -> usize {
        self.offset
    }

    /// How many bytes of the sheet are not read yet.
    pub fn left(&self) -> usize {
        self.bytes.len() - self.offset
    }

    /// A refusal of this sheet at an offset.
    pub fn refuse(&self, refusal: Refusal, offset: usize) -> Answer {
        Answer::refused(refusal, self.thing, offset)
    }

    /// "A field runs past L": 3 at the field.
    pub fn must_hold(&self, bytes: usize) -> Result<(), Answer> {
        if self.left() < bytes {
            return Err(self.refuse(Refusal::Field, self.offset));
        }
        Ok(())
    }

    /// The next field, of 1 byte.
    pub fn one(&mut self) -> Result<u8, Answer> {
        Ok(u8::from_be_bytes(self.field()?))
    }

    /// The next field, of 2 bytes.
    pub fn two(&mut self) -> Result<u16, Answer> {
        Ok(u16::from_be_bytes(self.field()?))
    }

    /// The next field, of 4 bytes.
    pub fn four(&mut self) -> Result<u32, Answer> {
        Ok(u32::from_be_bytes(self.field()?))
    }

    /// The next field, of 4 bytes with a sign.
    pub fn four_signed(&mut self) -> Result<i32, Answer> {
        Ok(i32::from_be_bytes(self.field()?))
    }

    fn field<const N: usize>(&mut self) -> Result<[u8; N], Answer> {
        self.must_hold(N)?;
        let mut field = [0; N];
        field.copy_from_slice(&self.bytes[self.offset..self.offset + N]);
        self.offset += N;
        Ok(field)
    }

    /// "Bytes left over": 3 at the first. Otherwise how many bytes the sheet takes.
    pub fn close(self) -> Result<usize, Answer> {
        if self.left() > 0 {
            return Err(self.refuse(Refusal::Field, self.offset));
        }
        Ok(self.bytes.len())
    }
}

/// What a sheet says, and how many bytes it takes.
pub type Read<V> = Result<(V, usize), Answer>;

/// "A call that takes one sheet as an argument refuses left-over bytes by 3."
pub fn whole<V>(run: &[u8], thing: Thing, read: Read<V>) -> Result<V, Answer> {
    let (value, taken) = read?;
    if run.len() > taken {
        return Err(Answer::refused(Refusal::Field, thing, taken));
    }
    Ok(value)
}

/// A reader's answer and how many bytes its sheet takes: none on a refusal, which "hands back the whole run".
pub fn answer_and_taken<V>(read: &Read<V>) -> (Answer, usize) {
    match read {
        Ok((_, taken)) => (Answer::ACCEPTED, *taken),
        Err(answer) => (*answer, 0),
    }
}
