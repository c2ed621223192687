//! The calls, with every slice that they are lent between pages that nothing may touch: a read or a write out of bounds ends the comparison,
//! and so does a write to a slice that is lent to be read.
//!
//! A slice is copied into a stretch of memory of its own, and what was lent to be written is copied back; one that a sheet or a text is written
//! into is blank. It stands at the end of its stretch in one call and at the start in another, so that both of its ends come to stand at a
//! guard, to the byte.
#![allow(unsafe_code)]

use std::cell::RefCell;
use std::ffi::{c_char, c_int, c_uint, c_void};
use std::{ptr, slice};

use pnet::{Fleet, Mode, OutOfStep, Pair, Ran, Refusal, Salvaged, Size};

use crate::blank::{self, BLANK, ROOM};

/// Whole pages on both sides, more than a number of 16 bits leads past.
const GUARD: usize = 1 << 20;

const NO_ACCESS: c_int = 0;
const READ: c_int = 1;
const READ_AND_WRITE: c_int = 3;
const SHARED: c_int = 0x01;
const PRIVATE_AND_ANONYMOUS: c_int = 0x22;
const FIXED: c_int = 0x10;

unsafe extern "C" {
    fn memfd_create(name: *const c_char, flags: c_uint) -> c_int;
    fn ftruncate(file: c_int, bytes: i64) -> c_int;
    fn mmap(at: *mut c_void, bytes: usize, access: c_int, kind: c_int, file: c_int, from: i64) -> *mut u8;
}

/// So many bytes between two guards, as they are lent; and the same bytes where we write them, though those that are lent be only read.
struct Stretch {
    lent: *mut u8,
    ours: *mut u8,
    /// Where the next slice stands: at the end, or at the start.
    at_end: bool,
}

impl Stretch {
    fn new(access: c_int) -> Stretch {
        // SAFETY: fresh mappings overlap nothing; the fixed one replaces the middle of one of them.
        let (lent, ours) = unsafe {
            let file = memfd_create(c"lent".as_ptr(), 0);
            assert_eq!(ftruncate(file, ROOM as i64), 0, "no memory for the slices that are lent");
            let guards = mmap(ptr::null_mut(), GUARD + ROOM + GUARD, NO_ACCESS, PRIVATE_AND_ANONYMOUS, -1, 0);
            let lent = mmap(guards.wrapping_add(GUARD).cast(), ROOM, access, SHARED | FIXED, file, 0);
            (lent, mmap(ptr::null_mut(), ROOM, READ_AND_WRITE, SHARED, file, 0))
        };
        assert!(
            [lent, ours].iter().all(|at| at.addr() != usize::MAX),
            "no memory for the slices that are lent"
        );
        Stretch { lent, ours, at_end: false }
    }

    /// Where so many bytes stand.
    fn offset(&self, bytes: usize) -> usize {
        assert!(bytes <= ROOM, "a slice of {bytes} bytes");
        if self.at_end { ROOM - bytes } else { 0 }
    }

    /// Where the bytes of a copy are lent.
    fn put<T: Copy>(&mut self, content: &[T]) -> *mut T {
        let bytes = size_of_val(content);
        let offset = self.offset(bytes);
        // SAFETY: the bytes lie in the stretch, and both of its ends are aligned for a page.
        unsafe { ptr::copy_nonoverlapping(content.as_ptr().cast(), self.ours.add(offset), bytes) };
        self.lent.wrapping_add(offset).cast()
    }

    /// A copy that is only read.
    fn show<T: Copy>(&mut self, content: &[T]) -> &[T] {
        // SAFETY: the bytes of the copy.
        unsafe { slice::from_raw_parts(self.put(content), content.len()) }
    }
}

/// The stretch of a slice that is lent to be written.
struct Open(Stretch);

impl Open {
    /// A copy that may be written.
    fn lend<T: Copy>(&mut self, content: &[T]) -> &mut [T] {
        // SAFETY: the bytes of the copy, which are ours alone.
        unsafe { slice::from_raw_parts_mut(self.0.put(content), content.len()) }
    }
}

/// The stretch of a slice that a sheet or a text is written into: between two calls all of it is blank.
struct Blank(Stretch);

impl Blank {
    fn new() -> Blank {
        let mut blank = Blank(Stretch::new(READ_AND_WRITE));
        blank.lend(ROOM).fill(BLANK);
        blank
    }

    /// So many blank bytes that may be written.
    fn lend(&mut self, room: usize) -> &mut [u8] {
        // SAFETY: the bytes lie in the stretch, and are ours alone.
        unsafe { slice::from_raw_parts_mut(self.0.lent.add(self.0.offset(room)), room) }
    }
}

/// A stretch for each slice that a call takes.
struct Lent {
    net: Stretch,
    sheet: Stretch,
    counts: Stretch,
    written: Open,
    out: Blank,
    calls: u64,
}

thread_local! {
    static LENT: RefCell<Lent> = RefCell::new(Lent {
        net: Stretch::new(READ),
        sheet: Stretch::new(READ),
        counts: Stretch::new(READ),
        written: Open(Stretch::new(READ_AND_WRITE)),
        out: Blank::new(),
        calls: 0,
    });
}

/// The stretches for one call.
fn lend<R>(call: impl FnOnce(&mut Lent) -> R) -> R {
    LENT.with_borrow_mut(|lent| {
        lent.calls += 1;
        // The highest bits of a multiple: in no step with the calls of a round, nor with one another.
        let ends = lent.calls.wrapping_mul(0x9E37_79B9_7F4A_7C15) >> 60;
        let stretches = [&mut lent.net, &mut lent.sheet, &mut lent.counts, &mut lent.written.0];
        for (k, stretch) in stretches.into_iter().enumerate() {
            stretch.at_end = ends >> k & 1 == 1;
        }
        // No call takes both.
        lent.out.0.at_end = lent.written.0.at_end;
        call(lent)
    })
}

/// Reads a byte just before or just after a slice that is lent, or writes into one that is lent to be read: each ends the program.
pub fn trespass(side: &str) {
    lend(|lent| {
        lent.net.at_end = side == "after";
        let held = lent.net.show(&[7u8; 16]).as_ptr();
        // SAFETY: none; the pages' access must stop it.
        unsafe {
            match side {
                "before" => assert_ne!(ptr::read_volatile(held.wrapping_sub(1)), 7),
                "after" => assert_ne!(ptr::read_volatile(held.wrapping_add(16)), 7),
                _ => ptr::write_volatile(held.cast_mut(), 8),
            }
        }
    })
}

/// A reader: the part that it hands back must be the end of what it was lent, and is here the same part of the bytes.
fn reading<'a>(
    bytes: &'a [u8],
    read: impl FnOnce(&[u8]) -> Result<&[u8], Refusal>,
) -> Result<&'a [u8], Refusal> {
    lend(|lent| {
        let held = lent.net.show(bytes);
        let rest = read(held)?;
        assert_eq!(
            rest.as_ptr_range().end,
            held.as_ptr_range().end,
            "a part that is not the end of the bytes"
        );
        Ok(&bytes[bytes.len() - rest.len()..])
    })
}

pub fn read_net(bytes: &[u8]) -> Result<&[u8], Refusal> {
    reading(bytes, pnet::read_net)
}

pub fn read_weights(bytes: &[u8], pairs: usize) -> Result<&[u8], Refusal> {
    reading(bytes, |bytes| pnet::read_weights(bytes, pairs))
}

pub fn read_movements(bytes: &[u8]) -> Result<&[u8], Refusal> {
    reading(bytes, pnet::read_movements)
}

pub fn size(net: &[u8]) -> Result<Size, Refusal> {
    lend(|lent| pnet::size(lent.net.show(net)))
}

pub fn first_marking(net: &[u8]) -> Result<Vec<u32>, Refusal> {
    lend(|lent| pnet::first_marking(lent.net.show(net)))
}

/// A call that writes a marking over a net.
fn marking_by<R>(net: &[u8], marking: &mut [u32], call: impl FnOnce(&[u8], &mut [u32]) -> R) -> R {
    lend(|lent| {
        let held = lent.written.lend(marking);
        let answer = call(lent.net.show(net), held);
        marking.copy_from_slice(held);
        answer
    })
}

pub fn begin(net: &[u8], marking: &mut [u32]) -> Result<(), Refusal> {
    marking_by(net, marking, pnet::begin)
}

pub fn test(net: &[u8], marking: &[u32], mode: Mode) -> Result<(), Refusal> {
    lend(|lent| pnet::test(lent.net.show(net), lent.counts.show(marking), mode))
}

pub fn fire(net: &[u8], marking: &mut [u32], mode: Mode) -> Result<(), Refusal> {
    marking_by(net, marking, |net, marking| pnet::fire(net, marking, mode))
}

pub fn test_step(net: &[u8], marking: &[u32], modes: &[Mode]) -> Result<(), Refusal> {
    lend(|lent| pnet::test_step(lent.net.show(net), lent.counts.show(marking), lent.sheet.show(modes)))
}

pub fn fire_step(net: &[u8], marking: &mut [u32], modes: &[Mode]) -> Result<(), Refusal> {
    lend(|lent| {
        let held = lent.written.lend(marking);
        let answer = pnet::fire_step(lent.net.show(net), held, lent.sheet.show(modes));
        marking.copy_from_slice(held);
        answer
    })
}

pub fn run(net: &[u8], movements: &[u8], marking: &mut [u32]) -> Ran {
    lend(|lent| {
        let held = lent.written.lend(marking);
        let ran = pnet::run(lent.net.show(net), lent.sheet.show(movements), held);
        marking.copy_from_slice(held);
        ran
    })
}

pub fn salvage(net: &[u8], damaged: &[u8], room: usize) -> Result<(Salvaged, Vec<u8>), Refusal> {
    lend(|lent| {
        let out = lent.out.lend(room);
        let salvaged = pnet::salvage(lent.net.show(net), lent.sheet.show(damaged), out);
        let fresh = blank::taken(out, salvaged.map_or(0, |salvaged| salvaged.length));
        Ok((salvaged?, fresh))
    })
}

pub fn fleet_add(record: &mut Fleet, net: &[u8], weights: &[u8], movements: &[u8]) -> Result<(), Refusal> {
    lend(|lent| {
        let [held] = lent.written.lend(&[*record]) else { unreachable!("one record was lent") };
        let (net, weights) = (lent.net.show(net), lent.counts.show(weights));
        let counted = pnet::fleet_add(held, net, weights, lent.sheet.show(movements));
        *record = *held;
        counted
    })
}

pub fn certify(net: &[u8], movements: &[u8], claim: &[u32]) -> Result<(), Refusal> {
    lend(|lent| pnet::certify(lent.net.show(net), lent.sheet.show(movements), lent.counts.show(claim)))
}

pub fn figure(net: &[u8], weights: &[u8], marking: &[u32]) -> Result<i64, Refusal> {
    lend(|lent| pnet::figure(lent.net.show(net), lent.sheet.show(weights), lent.counts.show(marking)))
}

pub fn exclude(net: &[u8], weights: &[u8], claim: &[u32]) -> Result<(), Refusal> {
    lend(|lent| pnet::exclude(lent.net.show(net), lent.sheet.show(weights), lent.counts.show(claim)))
}

pub fn change(net: &[u8], weights: &[u8], mode: Mode) -> Result<i64, Refusal> {
    lend(|lent| pnet::change(lent.net.show(net), lent.sheet.show(weights), mode))
}

pub fn is_dead(net: &[u8], mode: Mode) -> Result<bool, Refusal> {
    lend(|lent| pnet::is_dead(lent.net.show(net), mode))
}

pub fn first_dead(net: &[u8]) -> Result<Option<(Mode, Pair)>, Refusal> {
    lend(|lent| pnet::first_dead(lent.net.show(net)))
}

/// A call that writes a sheet or a text into so many blank bytes: what it wrote.
fn writing(
    given: &[u8],
    room: usize,
    call: impl FnOnce(&[u8], &mut [u8]) -> Result<usize, Refusal>,
) -> Result<Vec<u8>, Refusal> {
    lend(|lent| {
        let out = lent.out.lend(room);
        let length = call(lent.net.show(given), out);
        let written = blank::taken(out, length.unwrap_or(0));
        length.map(|_| written)
    })
}

pub fn complement(net: &[u8], room: usize) -> Result<Vec<u8>, Refusal> {
    writing(net, room, pnet::complement)
}

pub fn strip(net: &[u8], pair: Pair, room: usize) -> Result<Vec<u8>, Refusal> {
    writing(net, room, |net, out| pnet::strip(net, pair, out))
}

pub fn to_version_2(net: &[u8], room: usize) -> Result<Vec<u8>, Refusal> {
    writing(net, room, pnet::to_version_2)
}

pub fn to_version_1(net: &[u8], room: usize) -> Result<Vec<u8>, Refusal> {
    writing(net, room, pnet::to_version_1)
}

pub fn export_pnml(net: &[u8], room: usize) -> Result<Vec<u8>, Refusal> {
    writing(net, room, pnet::export_pnml)
}

pub fn import_pnml(text: &[u8], room: usize) -> Result<Vec<u8>, Refusal> {
    writing(text, room, pnet::import_pnml)
}

pub fn statement(input: &[u8], room: usize) -> Result<Vec<u8>, Refusal> {
    writing(input, room, pnet::statement)
}

pub fn audit(net: &[u8], marking: &[u32], both: &[u32]) -> Result<Option<OutOfStep>, Refusal> {
    lend(|lent| pnet::audit(lent.net.show(net), lent.counts.show(marking), lent.sheet.show(both)))
}
