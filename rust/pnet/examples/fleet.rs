//! The fleet statement: counts one ship after another, each a folder with net.sheet, weights.sheet and movements.sheet, and prints the record
//! in words.
//!
//!     cargo run -p pnet --example fleet -- ../examples/refit ../examples/document ../examples/rack
//!
//! A ship that is refused is named and not counted. examples/c/fleet.c prints the same.

use std::path::Path;
use std::{env, fs};

use pnet::{Fleet, Thing, fleet_add};

/// The refusals that a ship's run may meet, in the order of the record's counts.
const REFUSALS: [&str; 5] = [
    "a movement that is not there (6)",
    "too few (11)",
    "no room (12)",
    "too many for it (13)",
    "the counter's limit (14)",
];

fn main() {
    let mut record = Fleet::default();
    env::args().skip(1).for_each(|folder| ship(&mut record, &folder));
    println!("ships counted: {}", record.ships);
    println!("movements accepted: {}", record.movements);
    for (refusal, count) in REFUSALS.iter().zip(record.refused) {
        println!("ships stopped by {refusal}: {count}");
    }
    println!("added: {} kg", record.added);
    println!("removed: {} kg", record.removed);
}

/// A file that cannot be read has no bytes, and the ship is refused by 1.
fn ship(record: &mut Fleet, folder: &str) {
    let before = *record;
    let [net, weights, movements] = ["net", "weights", "movements"]
        .map(|name| fs::read(Path::new(folder).join(name).with_extension("sheet")).unwrap_or_default());
    if let Err(refusal) = fleet_add(record, &net, &weights, &movements) {
        let thing = match refusal.thing() {
            Thing::Net => "the net",
            Thing::Weights => "the weights",
            Thing::Movements => "the movements",
            Thing::Argument => "the record",
        };
        println!("{folder}: refused by {}, {thing}, at {}", refusal.number(), refusal.position());
        return;
    }
    let stopped = (0..5).find(|&by| record.refused[by] != before.refused[by]);
    println!(
        "{folder}: {} movements, {} kg added, {} kg removed{}",
        record.movements - before.movements,
        record.added - before.added,
        record.removed - before.removed,
        stopped.map_or(String::new(), |by| format!("; stopped by {}", REFUSALS[by]))
    );
}
