//! Exchange with PNML tools (ISO/IEC 15909-2): a net whose K and I are all unbounded, such as a complement, as the text of a place/transition net, and back.
#![allow(unsafe_code)]

use crate::fault::Fault;
use crate::raw::{Sheets, pnet_export_pnml, pnet_import_pnml};
use crate::refusal::Refusal;

/// Writes the net as a text in PNML, and says how long it is: a place for each pair with its first marking, a transition for each mode, an arc for each Pre and each Post
/// above 0. No byte after the text is touched; [`LARGEST_PNML`](crate::LARGEST_PNML) bytes are always room enough. A net with a finite K or I is refused by 19.
///
/// ```
/// use pnet::{LARGEST_NET, LARGEST_PNML, complement, export_pnml, import_pnml};
///
/// // the small net of docs/RULES.md: K of its first pair is 5, which only its complement writes as tokens
/// let net = [
///     0, 0, 0, 61, 1, 0, 2, 0, 1, 0, 1, 0, 1, 0, 1, 0, 0, 0, 5, 0, 0, 0, 3, 255, 255, 255, 255, 0, 0, 0, 0, 0, 2, //
///     0, 0, 0, 0, 0, 0, 0, 1, 0, 0, 0, 0, 0, 0, 0, 4, 0, 0, 0, 1, 0, 0, 0, 0, 0, 0, 0, 1, 255, 255, 255, 255,
/// ];
/// let (mut sheet, mut text, mut back) = ([0; LARGEST_NET], vec![0; LARGEST_PNML], [0; LARGEST_NET]);
/// assert_eq!(export_pnml(&net, &mut text).unwrap_err().number(), 19);
/// let length = complement(&net, &mut sheet)?;
/// let written = export_pnml(&sheet[..length], &mut text)?;
/// assert!(text.starts_with(b"<?xml version=\"1.0\" encoding=\"UTF-8\"?>\n<pnml "));
/// // its places have one colour each, and its transition one mode: the very sheet comes back
/// assert_eq!(import_pnml(&text[..written], &mut back)?, length);
/// assert_eq!(back[..length], sheet[..length]);
/// # Ok::<(), pnet::Refusal>(())
/// ```
pub fn export_pnml(net: &[u8], out: &mut [u8]) -> Result<usize, Refusal> {
    // SAFETY: pointers and lengths are slices', and the one that is written is lent by `&mut`.
    let written = unsafe { pnet_export_pnml(net.as_ptr(), net.len(), out.as_mut_ptr(), out.len()) };
    written.result(Sheets::net(net)).map(|length| length as usize)
}

/// Writes the sheet of version 1 of the net whose export the text is, and says how long it is: each pair is a place of one colour there, and each mode a transition of one
/// mode. No byte after it is touched; [`LARGEST_NET`](crate::LARGEST_NET) bytes are always room enough. Exactly what [`export_pnml`] writes is read; any other text is
/// refused by 20, at the first byte from which no export agrees with it, and an export of more than 64 pairs or modes by 4.
pub fn import_pnml(text: &[u8], out: &mut [u8]) -> Result<usize, Refusal> {
    // SAFETY: pointers and lengths are slices', and the one that is written is lent by `&mut`.
    let written = unsafe { pnet_import_pnml(text.as_ptr(), text.len(), out.as_mut_ptr(), out.len()) };
    let imported = written.result(Sheets::default()).map(|length| length as usize);
    imported.map_err(|refusal| match refusal.fault() {
        // 4 of no sheet is of the text.
        Fault::CountOutside => refusal.with(Fault::TextTooLarge),
        // At its end it agrees with an export as far as it goes.
        Fault::NotAnExport if refusal.position() == text.len() as u64 => refusal.with(Fault::TextCutShort),
        _ => refusal,
    })
}
