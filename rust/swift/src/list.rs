//! "Movement sheet. Mode numbers, 2 bytes each, at most 8,192."

use crate::answer::{Answer, MOVEMENTS};
use crate::sheet::open;

/// The movements of a sheet that is all that is left, in a call or on `replay`'s input: bytes after it
/// are 3 at 4 + L. "A lone last byte comes before too many movements."
pub fn whole_list(run: &[u8]) -> Result<&[[u8; 2]], Answer> {
    let sheet = open(run, MOVEMENTS, 1..=1)?;
    let (movements, lone) = sheet[5..].as_chunks();
    if !lone.is_empty() {
        return Err(Answer::refused(3, MOVEMENTS, sheet.len() - 1));
    }
    if movements.len() > 8_192 {
        return Err(Answer::refused(4, MOVEMENTS, 5));
    }
    if run.len() > sheet.len() {
        return Err(Answer::refused(3, MOVEMENTS, sheet.len()));
    }
    Ok(movements)
}
