//! The calls: slices go over as pointer and length, answers come back as structs by value.
#![allow(unsafe_code)]

use crate::kinds::{Mode, Pair};
use crate::raw::*;
use crate::refusal::Refusal;

/// The part of the bytes after a sheet that takes so many.
fn after<'a>(bytes: &'a [u8], read: With<u64>, given: Sheets) -> Result<&'a [u8], Refusal> {
    read.result(given).map(|taken| &bytes[taken as usize..])
}

/// Reads the net sheet at the start of the bytes, and hands back those after it.
pub fn read_net(bytes: &[u8]) -> Result<&[u8], Refusal> {
    // SAFETY: the pointer and the length are a slice's, which is only read.
    let read = unsafe { pnet_read_net(bytes.as_ptr(), bytes.len()) };
    after(bytes, read, Sheets::net(bytes))
}

/// Reads the weight sheet of a net of so many pairs at the start of the bytes, and hands back those after it.
pub fn read_weights(bytes: &[u8], pairs: usize) -> Result<&[u8], Refusal> {
    // SAFETY: the pointer and the length are a slice's, which is only read.
    let read = unsafe { pnet_read_weights(bytes.as_ptr(), bytes.len(), pairs) };
    after(bytes, read, Sheets::weights(bytes, pairs))
}

/// Reads the movement sheet at the start of the bytes, and hands back those after it.
pub fn read_movements(bytes: &[u8]) -> Result<&[u8], Refusal> {
    // SAFETY: the pointer and the length are a slice's, which is only read.
    let read = unsafe { pnet_read_movements(bytes.as_ptr(), bytes.len()) };
    after(bytes, read, Sheets::movements(bytes))
}

/// How large a net is.
#[derive(Clone, Copy, Debug, PartialEq, Eq)]
#[repr(C)]
pub struct Size {
    /// How many pairs: a marking has one count for each.
    pub pairs: usize,
    /// How many modes: those with numbers below this.
    pub modes: usize,
    /// How many arcs.
    pub arcs: usize,
}

/// How many pairs, modes and arcs a net has.
pub fn size(net: &[u8]) -> Result<Size, Refusal> {
    // SAFETY: the pointer and the length are a slice's, which is only read.
    unsafe { pnet_size(net.as_ptr(), net.len()) }.result(Sheets::net(net))
}

/// Writes the net's first marking into a slice of one count for each pair.
pub fn begin(net: &[u8], marking: &mut [u32]) -> Result<(), Refusal> {
    // SAFETY: pointers and lengths are slices', and the one that is written is lent by `&mut`.
    unsafe { pnet_begin(net.as_ptr(), net.len(), marking.as_mut_ptr(), marking.len()) }
        .result(Sheets::net(net))
}

/// The net's first marking.
pub fn first_marking(net: &[u8]) -> Result<Vec<u32>, Refusal> {
    let mut marking = vec![0; size(net)?.pairs];
    begin(net, &mut marking)?;
    Ok(marking)
}

/// Whether the mode is enabled at the marking, or why not.
pub fn test(net: &[u8], marking: &[u32], mode: Mode) -> Result<(), Refusal> {
    // SAFETY: pointers and lengths are slices', which are only read.
    unsafe { pnet_test(net.as_ptr(), net.len(), marking.as_ptr(), marking.len(), mode) }
        .result(Sheets::net(net))
}

/// Fires the mode: the marking becomes the one after it, or stays as it was.
pub fn fire(net: &[u8], marking: &mut [u32], mode: Mode) -> Result<(), Refusal> {
    // SAFETY: pointers and lengths are slices', and the one that is written is lent by `&mut`.
    unsafe { pnet_fire(net.as_ptr(), net.len(), marking.as_mut_ptr(), marking.len(), mode) }
        .result(Sheets::net(net))
}

/// Whether a step is enabled at the marking, or why not: 1 to 64 modes that fire at once, repeats allowed.
pub fn test_step(net: &[u8], marking: &[u32], modes: &[Mode]) -> Result<(), Refusal> {
    // SAFETY: pointers and lengths are slices', which are only read.
    unsafe {
        pnet_test_step(net.as_ptr(), net.len(), marking.as_ptr(), marking.len(), modes.as_ptr(), modes.len())
    }
    .result(Sheets::net(net))
}

/// Fires a step: the marking becomes the one after all its modes, or stays as it was.
pub fn fire_step(net: &[u8], marking: &mut [u32], modes: &[Mode]) -> Result<(), Refusal> {
    // SAFETY: pointers and lengths are slices', and the one that is written is lent by `&mut`.
    unsafe {
        pnet_fire_step(
            net.as_ptr(),
            net.len(),
            marking.as_mut_ptr(),
            marking.len(),
            modes.as_ptr(),
            modes.len(),
        )
    }
    .result(Sheets::net(net))
}

/// How a run went.
#[derive(Clone, Copy, Debug, PartialEq, Eq)]
pub struct Ran {
    /// How many movements were accepted.
    pub accepted: usize,
    /// How many arcs were visited: each movement that was tried counts its mode's arcs once, a refused one too, and a mode that is not there
    /// counts none. It is 0 where the run stopped before its first movement.
    pub arcs: usize,
    /// Why it stopped before its end, or before its first movement.
    pub result: Result<(), Refusal>,
}

/// Runs the movements from the counts found in the marking, up to the first that is refused. The marking becomes the one that the
/// accepted movements gave.
pub fn run(net: &[u8], movements: &[u8], marking: &mut [u32]) -> Ran {
    // SAFETY: pointers and lengths are slices', and the one that is written is lent by `&mut`.
    let ran = unsafe {
        pnet_run(
            net.as_ptr(),
            net.len(),
            movements.as_ptr(),
            movements.len(),
            marking.as_mut_ptr(),
            marking.len(),
        )
    };
    Ran {
        accepted: ran.value.accepted as usize,
        arcs: ran.value.arcs as usize,
        result: ran.answer.result(Sheets { net, movements, ..Sheets::default() }),
    }
}

/// What was salvaged of a movement sheet.
#[derive(Clone, Copy, Debug, PartialEq, Eq)]
pub struct Salvaged {
    /// The bytes of the fresh sheet.
    pub length: usize,
    /// How many movements it has.
    pub kept: usize,
    /// How many more were considered and dropped.
    pub dropped: usize,
    /// Why the first of these was refused.
    pub stop: Option<Refusal>,
}

/// Writes a fresh movement sheet with the leading movements of a damaged one that the net accepts from its first marking, up to the first that it
/// refuses. Bytes past the length that the damaged sheet declares are ignored, what is there is used where it declares more, a lone last byte is
/// dropped, and at most 8,192 movements are considered. No byte after the fresh sheet is touched; 16,389 bytes are always room enough.
pub fn salvage(net: &[u8], damaged: &[u8], out: &mut [u8]) -> Result<Salvaged, Refusal> {
    // SAFETY: pointers and lengths are slices', and the one that is written is lent by `&mut`.
    let salvaged = unsafe {
        pnet_salvage(net.as_ptr(), net.len(), damaged.as_ptr(), damaged.len(), out.as_mut_ptr(), out.len())
    }
    .result(Sheets { net, movements: damaged, ..Sheets::default() })?;
    Ok(Salvaged {
        length: salvaged.length as usize,
        kept: salvaged.kept as usize,
        dropped: salvaged.dropped as usize,
        stop: salvaged.stop.result(Sheets::default()).err(),
    })
}

/// Whether the movements run whole from the net's first marking and end at the claim, or why not.
pub fn certify(net: &[u8], movements: &[u8], claim: &[u32]) -> Result<(), Refusal> {
    // SAFETY: pointers and lengths are slices', which are only read.
    unsafe {
        pnet_certify(
            net.as_ptr(),
            net.len(),
            movements.as_ptr(),
            movements.len(),
            claim.as_ptr(),
            claim.len(),
        )
    }
    .result(Sheets { net, movements, ..Sheets::default() })
}

/// The lightship figure of the marking, in kilograms.
pub fn figure(net: &[u8], weights: &[u8], marking: &[u32]) -> Result<i64, Refusal> {
    // SAFETY: pointers and lengths are slices', which are only read.
    unsafe {
        pnet_figure(net.as_ptr(), net.len(), weights.as_ptr(), weights.len(), marking.as_ptr(), marking.len())
    }
    .result(Sheets { net, weights, ..Sheets::default() })
}

/// The mode's weight change, in kilograms.
pub fn change(net: &[u8], weights: &[u8], mode: Mode) -> Result<i64, Refusal> {
    // SAFETY: pointers and lengths are slices', which are only read.
    unsafe { pnet_change(net.as_ptr(), net.len(), weights.as_ptr(), weights.len(), mode) }.result(Sheets {
        net,
        weights,
        ..Sheets::default()
    })
}

/// Whether the weights show that no list of movements leads from the net's first marking to the claim, or why not: every mode's weight
/// change is 0, and the claim's figure is not that of the first marking. The weights need not be kilograms.
pub fn exclude(net: &[u8], weights: &[u8], claim: &[u32]) -> Result<(), Refusal> {
    // SAFETY: pointers and lengths are slices', which are only read.
    unsafe {
        pnet_exclude(net.as_ptr(), net.len(), weights.as_ptr(), weights.len(), claim.as_ptr(), claim.len())
    }
    .result(Sheets { net, weights, ..Sheets::default() })
}

/// Whether the mode is locally dead: at some pair Pre is above the least of K less Post and I, by rule 1 of K and I, or Post is above K. Exactly
/// then no marking enables it.
pub fn is_dead(net: &[u8], mode: Mode) -> Result<bool, Refusal> {
    // SAFETY: the pointer and the length are a slice's, which is only read.
    unsafe { pnet_is_dead(net.as_ptr(), net.len(), mode) }.result(Sheets::net(net))
}

/// The lowest locally dead mode with the lowest pair that makes it so, if there is one.
pub fn first_dead(net: &[u8]) -> Result<Option<(Mode, Pair)>, Refusal> {
    // SAFETY: the pointer and the length are a slice's, which is only read.
    let named = unsafe { pnet_first_dead(net.as_ptr(), net.len()) }.result(Sheets::net(net))?;
    Ok(named.found.then_some((named.mode, named.pair)))
}

/// Writes the sheet of the net's complement, of the version and rule given, and says how long it is. No byte after it is touched;
/// [`LARGEST_NET`](crate::LARGEST_NET) bytes are always room enough.
pub fn complement(net: &[u8], out: &mut [u8]) -> Result<usize, Refusal> {
    // SAFETY: pointers and lengths are slices', and the one that is written is lent by `&mut`.
    let written = unsafe { pnet_complement(net.as_ptr(), net.len(), out.as_mut_ptr(), out.len()) };
    written.result(Sheets::net(net)).map(|length| length as usize)
}

/// Writes the net's sheet with one transition more, which strips the pair bare, and says how long it is: the transition comes last, and its mode n, for n
/// from 0 to K, takes n where n stand there. At every marking exactly one of the new modes is enabled; the old ones keep their numbers. No byte after the
/// sheet is touched; [`LARGEST_NET`](crate::LARGEST_NET) bytes are always room enough.
pub fn strip(net: &[u8], pair: Pair, out: &mut [u8]) -> Result<usize, Refusal> {
    // SAFETY: pointers and lengths are slices', and the one that is written is lent by `&mut`.
    let written = unsafe { pnet_strip(net.as_ptr(), net.len(), pair, out.as_mut_ptr(), out.len()) };
    written.result(Sheets::net(net)).map(|length| length as usize)
}

/// Writes the sheet of version 2 of a net in version 1, and says how long it is. No byte after it is touched;
/// [`LARGEST_NET`](crate::LARGEST_NET) bytes are always room enough. A sheet of any other version than 1 is refused by 2.
pub fn to_version_2(net: &[u8], out: &mut [u8]) -> Result<usize, Refusal> {
    // SAFETY: pointers and lengths are slices', and the one that is written is lent by `&mut`.
    let written = unsafe { pnet_to_version_2(net.as_ptr(), net.len(), out.as_mut_ptr(), out.len()) };
    written.result(Sheets::net(net)).map(|length| length as usize)
}

/// Writes the sheet of version 1 of a net in version 2, as [`to_version_2`] does the other way: the bytes that were converted come back
/// exactly. A sheet of any other version than 2 is refused by 2, and one of the weak capacity rule by 23.
pub fn to_version_1(net: &[u8], out: &mut [u8]) -> Result<usize, Refusal> {
    // SAFETY: pointers and lengths are slices', and the one that is written is lent by `&mut`.
    let written = unsafe { pnet_to_version_1(net.as_ptr(), net.len(), out.as_mut_ptr(), out.len()) };
    written.result(Sheets::net(net)).map(|length| length as usize)
}

/// A pair at which a marking and one of the complement are out of step.
#[derive(Clone, Copy, Debug, PartialEq, Eq, Hash)]
pub struct OutOfStep {
    /// The pair, of the net.
    pub pair: Pair,
    /// The count plus the complement pair's, less K, where K is finite and that is not 0; otherwise the count less the count of the same
    /// pair in the complement's marking. It is never 0.
    pub excess: i64,
}

/// The lowest pair at which a marking of the net and one of its complement are out of step, if there is one: the two differ on it, or its K
/// is finite and its count and its complement pair's do not add up to it. The counts may be any.
pub fn audit(net: &[u8], marking: &[u32], complement_marking: &[u32]) -> Result<Option<OutOfStep>, Refusal> {
    // SAFETY: pointers and lengths are slices', which are only read.
    let audited = unsafe {
        pnet_audit(
            net.as_ptr(),
            net.len(),
            marking.as_ptr(),
            marking.len(),
            complement_marking.as_ptr(),
            complement_marking.len(),
        )
    }
    .result(Sheets::net(net))?;
    Ok(audited.found.then_some(OutOfStep { pair: audited.pair, excess: audited.excess }))
}

/// Writes the text that `replay` prints for an input, a net sheet, a weight sheet and a movement sheet, and says how long it is. No
/// byte after it is touched. A bad or a long input has a text too: refused is only a room below [`TEXT_ROOM`](crate::TEXT_ROOM).
pub fn statement(input: &[u8], out: &mut [u8]) -> Result<usize, Refusal> {
    // SAFETY: pointers and lengths are slices', and the one that is written is lent by `&mut`.
    let written = unsafe { pnet_statement(input.as_ptr(), input.len(), out.as_mut_ptr(), out.len()) };
    written.result(Sheets::default()).map(|length| length as usize)
}
