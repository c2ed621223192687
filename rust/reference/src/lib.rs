//! A plain reading of docs/RULES.md: reading a finite P-net, testing and firing one mode or a step of
//! several at once, running a list of movements, salvaging a cut one, checking a certificate, complementing, stripping a pair,
//! auditing a marking by the complement's, the figure, markings out of reach, locally dead modes, both versions of a net
//! sheet and both rules of version 2, a fleet's record, PNML, `replay`.
//!
//! Each call takes sheets as bytes and gives the answer, value and lent slices of docs/RULES.md exactly.

mod answer;
mod arc;
mod audit;
mod begin;
mod bound;
mod certificate;
mod change;
mod complement;
mod conversion;
mod dead;
mod exclusion;
mod export;
mod figure;
mod firing;
mod fleet;
mod form;
mod import;
mod kinds;
mod limits;
mod marking;
mod movement_sheet;
mod net;
mod net_sheet;
mod output;
mod pnml;
mod replay;
mod rule;
mod run;
mod salvage;
mod sheet;
mod size;
mod step;
mod strip;
mod version;
mod weight_sheet;

pub mod build;
pub mod search;

pub use answer::{Answer, Refusal, Thing};
pub use audit::{OutOfStep, audit};
pub use begin::begin;
pub use certificate::certify;
pub use change::change;
pub use complement::complement;
pub use conversion::{to_version_1, to_version_2};
pub use dead::{first_dead, is_dead};
pub use exclusion::exclude;
pub use export::export_pnml;
pub use figure::figure;
pub use firing::{fire, test};
pub use fleet::{Fleet, fleet_add};
pub use form::Form;
pub use import::import_pnml;
pub use kinds::{Mode, Pair};
pub use movement_sheet::read_movements;
pub use net_sheet::read_net;
pub use replay::replay;
pub use rule::Rule;
pub use run::{Ran, run};
pub use salvage::{Salvaged, salvage};
pub use size::{Size, size};
pub use step::{fire_step, test_step};
pub use strip::strip;
pub use version::Version;
pub use weight_sheet::read_weights;
