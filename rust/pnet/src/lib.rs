//! The calls of a P-net engine (Billington, TR 222) whose every function is proved to do what the published definition says.
//!
//! Nets, weights and movements are lent as the bytes of their sheets, a net's of version 1 or 2, a marking as a slice of counts, one for each
//! pair. By a net sheet of version 2 and rule 1, the weak capacity rule, an item may be swapped where there is no room: Pre is taken off before the
//! capacity test.
//! Every call answers for any bytes and any counts: what it gives, or the first [`Refusal`] in the order of docs/RULES.md.
//! A refused call writes nothing; a run that stops leaves the marking that its accepted movements gave.
//!
//! Building it proves the engine by `tools/build abi`, which may take long; where PNET_ARCHIVE names an archive that this wrote, the
//! build links that one and needs no prover.
//!
//! # Example
//!
//! The small net of docs/RULES.md: aboard (one colour, K 5, first 3) and ashore (unbounded, first 0), and one mode that lands an item.
//!
//! ```
//! use pnet::{Fault, Mode, Pair};
//!
//! let net = [
//!     0, 0, 0, 61, 1, 0, 2, 0, 1, 0, 1, 0, 1, 0, 1, // L, version, places, transitions, colours, modes
//!     0, 0, 0, 5, 0, 0, 0, 3, 255, 255, 255, 255, 0, 0, 0, 0, // K and first marking of both pairs
//!     0, 2, // arcs
//!     0, 0, 0, 0, 0, 0, 0, 1, 0, 0, 0, 0, 0, 0, 0, 4, // mode 0, pair 0: Pre 1, Post 0, I 4
//!     0, 0, 0, 1, 0, 0, 0, 0, 0, 0, 0, 1, 255, 255, 255, 255, // mode 0, pair 1: Pre 0, Post 1
//! ];
//! let weights = [0, 0, 0, 11, 1, 0, 2, 0, 0, 0, 250, 0, 0, 0, 0];
//!
//! assert_eq!(pnet::size(&net)?.pairs, 2);
//! let mut marking = pnet::first_marking(&net)?;
//! assert_eq!(marking, [3, 0]);
//! assert_eq!(pnet::figure(&net, &weights, &marking)?, 750);
//! assert_eq!(pnet::change(&net, &weights, Mode(0))?, -250);
//!
//! let movements = [0, 0, 0, 9, 1, 0, 0, 0, 0, 0, 0, 0, 0];
//! let ran = pnet::run(&net, &movements, &mut marking);
//! assert_eq!((ran.accepted, ran.arcs), (3, 8)); // four were tried, of two arcs each
//! assert_eq!(marking, [0, 3]);
//! let refusal = ran.result.unwrap_err();
//! assert_eq!((refusal.fault(), refusal.pair(), refusal.amount()), (Fault::Lacking, Some(Pair(0)), 1));
//! assert_eq!(refusal.to_string(), "11: pair 0 holds 1 too few");
//!
//! let (input, mut text) = ([&net[..], &weights, &movements].concat(), vec![0; pnet::TEXT_ROOM]);
//! let length = pnet::statement(&input, &mut text)?;
//! assert_eq!(&text[..length], b"start 750\n1 0 0 500\n2 0 0 250\n3 0 0 0\nrefused 4 0 11 0 1\nend 3 0\n");
//! # Ok::<(), pnet::Refusal>(())
//! ```

mod calls;
mod fault;
mod fleet;
mod kinds;
mod left_behind;
mod pnml;
mod raw;
mod refusal;

pub use calls::{
    OutOfStep, Ran, Salvaged, Size, audit, begin, certify, change, complement, exclude, figure, fire,
    fire_step, first_dead, first_marking, is_dead, read_movements, read_net, read_weights, run, salvage,
    size, statement, strip, test, test_step, to_version_1, to_version_2,
};
pub use fault::{Fault, Length};
pub use fleet::{Fleet, fleet_add};
pub use kinds::{LARGEST_NET, LARGEST_PNML, Mode, Pair, TEXT_ROOM, Thing};
pub use left_behind::left_behind;
pub use pnml::{export_pnml, import_pnml};
pub use refusal::Refusal;
