//! The calls as C has them (include/pnet.h), and what they answer.
#![allow(unsafe_code)]

use std::hint::black_box;

use crate::calls::Size;
use crate::fault::{Fault, Length};
use crate::fleet::Fleet;
use crate::kinds::{Mode, Pair, Thing};
use crate::refusal::Refusal;

#[repr(C)]
pub struct Answer {
    number: u64,
    thing: u64,
    position: u64,
    amount: u64,
}

#[repr(C)]
pub struct With<V> {
    pub answer: Answer,
    pub value: V,
}

/// How many movements a run accepted, and how many arcs it visited.
#[repr(C)]
pub struct Visited {
    pub accepted: u64,
    pub arcs: u64,
}

/// The bytes of a fresh movement sheet, the movements kept and dropped, and the answer of the first that was dropped.
#[repr(C)]
pub struct Salvage {
    pub length: u64,
    pub kept: u64,
    pub dropped: u64,
    pub stop: Answer,
}

/// A mode and a pair, where there is one.
#[repr(C)]
pub struct Named {
    pub found: bool,
    pub mode: Mode,
    pub pair: Pair,
}

/// A pair that is out of step and by how much, where there is one.
#[repr(C)]
pub struct Audited {
    pub found: bool,
    pub pair: Pair,
    pub excess: i64,
}

unsafe extern "C" {
    fn pnet_abi_3() -> u64;
    pub fn pnet_size(net: *const u8, net_length: usize) -> With<Size>;
    pub fn pnet_read_net(bytes: *const u8, length: usize) -> With<u64>;
    pub fn pnet_read_weights(bytes: *const u8, length: usize, pairs: usize) -> With<u64>;
    pub fn pnet_read_movements(bytes: *const u8, length: usize) -> With<u64>;
    pub fn pnet_begin(net: *const u8, net_length: usize, marking: *mut u32, counts: usize) -> Answer;
    pub fn pnet_test(
        net: *const u8,
        net_length: usize,
        marking: *const u32,
        counts: usize,
        mode: Mode,
    ) -> Answer;
    pub fn pnet_fire(
        net: *const u8,
        net_length: usize,
        marking: *mut u32,
        counts: usize,
        mode: Mode,
    ) -> Answer;
    pub fn pnet_test_step(
        net: *const u8,
        net_length: usize,
        marking: *const u32,
        counts: usize,
        modes: *const Mode,
        modes_count: usize,
    ) -> Answer;
    pub fn pnet_fire_step(
        net: *const u8,
        net_length: usize,
        marking: *mut u32,
        counts: usize,
        modes: *const Mode,
        modes_count: usize,
    ) -> Answer;
    pub fn pnet_run(
        net: *const u8,
        net_length: usize,
        movements: *const u8,
        movements_length: usize,
        marking: *mut u32,
        counts: usize,
    ) -> With<Visited>;
    pub fn pnet_certify(
        net: *const u8,
        net_length: usize,
        movements: *const u8,
        movements_length: usize,
        claim: *const u32,
        counts: usize,
    ) -> Answer;
    pub fn pnet_figure(
        net: *const u8,
        net_length: usize,
        weights: *const u8,
        weights_length: usize,
        marking: *const u32,
        counts: usize,
    ) -> With<i64>;
    pub fn pnet_change(
        net: *const u8,
        net_length: usize,
        weights: *const u8,
        weights_length: usize,
        mode: Mode,
    ) -> With<i64>;
    pub fn pnet_exclude(
        net: *const u8,
        net_length: usize,
        weights: *const u8,
        weights_length: usize,
        claim: *const u32,
        counts: usize,
    ) -> Answer;
    pub fn pnet_is_dead(net: *const u8, net_length: usize, mode: Mode) -> With<bool>;
    pub fn pnet_first_dead(net: *const u8, net_length: usize) -> With<Named>;
    pub fn pnet_complement(net: *const u8, net_length: usize, out: *mut u8, room: usize) -> With<u64>;
    pub fn pnet_salvage(
        net: *const u8,
        net_length: usize,
        damaged: *const u8,
        damaged_length: usize,
        out: *mut u8,
        room: usize,
    ) -> With<Salvage>;
    pub fn pnet_fleet_add(
        record: *mut Fleet,
        net: *const u8,
        net_length: usize,
        weights: *const u8,
        weights_length: usize,
        movements: *const u8,
        movements_length: usize,
    ) -> Answer;
    pub fn pnet_strip(net: *const u8, net_length: usize, pair: Pair, out: *mut u8, room: usize) -> With<u64>;
    pub fn pnet_to_version_2(net: *const u8, net_length: usize, out: *mut u8, room: usize) -> With<u64>;
    pub fn pnet_to_version_1(net: *const u8, net_length: usize, out: *mut u8, room: usize) -> With<u64>;
    pub fn pnet_export_pnml(net: *const u8, net_length: usize, out: *mut u8, room: usize) -> With<u64>;
    pub fn pnet_import_pnml(text: *const u8, text_length: usize, out: *mut u8, room: usize) -> With<u64>;
    pub fn pnet_audit(
        net: *const u8,
        net_length: usize,
        marking: *const u32,
        counts: usize,
        complement_marking: *const u32,
        complement_counts: usize,
    ) -> With<Audited>;
    pub fn pnet_statement(input: *const u8, input_length: usize, out: *mut u8, room: usize) -> With<u64>;
}

/// The sheets that a call was given, empty where it takes none.
#[derive(Clone, Copy, Default)]
pub struct Sheets<'a> {
    pub net: &'a [u8],
    pub weights: &'a [u8],
    pub movements: &'a [u8],
    /// The pair count that the weights are read by, where it is not the net's.
    pub pairs: Option<usize>,
}

impl Answer {
    /// Things are 0 to 3, and a wrong length is at a byte of its sheet or just after it: the contract of each call.
    pub fn result(self, given: Sheets) -> Result<(), Refusal> {
        // The structs above are those of one version: an archive of another does not link.
        black_box(pnet_abi_3 as unsafe extern "C" fn() -> u64);
        if self.number == 0 {
            return Ok(());
        }
        let thing = Thing::ALL[self.thing as usize];
        let fault = Fault::of(self.number, || given.length(thing, self.position as usize));
        Err(Refusal::new(fault, thing, self.position, self.amount))
    }
}

impl<V> With<V> {
    pub fn result(self, given: Sheets) -> Result<V, Refusal> {
        self.answer.result(given).map(|()| self.value)
    }
}

impl<'a> Sheets<'a> {
    pub fn net(net: &'a [u8]) -> Sheets<'a> {
        Sheets { net, ..Sheets::default() }
    }

    pub fn weights(weights: &'a [u8], pairs: usize) -> Sheets<'a> {
        Sheets { weights, pairs: Some(pairs), ..Sheets::default() }
    }

    pub fn movements(movements: &'a [u8]) -> Sheets<'a> {
        Sheets { movements, ..Sheets::default() }
    }

    /// Why the length of the sheet at fault is wrong at this byte: a field was due there exactly where the sheet cut off before it is
    /// refused there again.
    fn length(self, thing: Thing, at: usize) -> Length {
        if at == 0 {
            return Length::Nothing;
        }
        let sheet = match thing {
            Thing::Weights => self.weights,
            Thing::Movements => self.movements,
            Thing::Net | Thing::Argument => self.net,
        };
        let mut cut = sheet[..at].to_vec();
        cut[..4].copy_from_slice(&(at as u32 - 4).to_be_bytes());
        let again = self.read(thing, &cut);
        if (again.number, again.position) == (3, at as u64) {
            Length::FieldPastEnd
        } else {
            Length::BytesLeftOver
        }
    }

    /// What the reader of a thing's sheet answers.
    fn read(self, thing: Thing, sheet: &[u8]) -> Answer {
        // SAFETY: the pointers and the lengths are slices', which are only read.
        let read = unsafe {
            let pairs = || pnet_size(self.net.as_ptr(), self.net.len()).value.pairs;
            match thing {
                Thing::Weights => {
                    pnet_read_weights(sheet.as_ptr(), sheet.len(), self.pairs.unwrap_or_else(pairs))
                }
                Thing::Movements => pnet_read_movements(sheet.as_ptr(), sheet.len()),
                Thing::Net | Thing::Argument => pnet_read_net(sheet.as_ptr(), sheet.len()),
            }
        };
        read.answer
    }
}
