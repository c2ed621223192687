//! The reading, running, salvaging, complementing, converting, stripping, auditing, excluding, counting of a fleet, exchange in PNML and `replay` of docs/RULES.md, written for speed: a net is
//! decoded once into flat arrays, and the loops allocate nothing.
//!
//! A sheet is tested as a whole for yes or no; only a refused one is read again to name its fault.

mod answer;
mod arcs;
mod audit;
mod complement;
mod convert;
mod exclude;
mod export;
mod fault;
mod fleet;
mod import;
mod kernel;
mod layout;
mod list;
mod pnml;
mod replay;
mod rows;
mod run;
mod salvage;
mod sheet;
mod steps;
mod strip;
mod text;
mod weights;
mod writer;

pub use answer::{ARGUMENT, Answer, LARGEST};
pub use audit::audit;
pub use complement::complement;
pub use convert::{to_version_1, to_version_2};
pub use exclude::exclude;
pub use export::export_pnml;
pub use fleet::{Fleet, fleet_add};
pub use import::import_pnml;
pub use layout::{read_net, size};
pub use replay::replay;
pub use run::{Ran, run};
pub use salvage::{Salvaged, salvage};
pub use strip::strip;

/// Sheets as they are read here, for a program that runs them by another method.
pub mod sheets {
    pub use crate::fault::of_movement as refused_movement;
    pub use crate::kernel::{Reach, capacities};
    pub use crate::layout::{Arc, Layout, whole_net};
    pub use crate::run::{arguments, check_marking};
}
