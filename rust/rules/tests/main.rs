//! docs/RULES.md as tests of `reference`.

mod arcs;
mod audit;
mod conversions;
mod dead;
mod edges;
mod examples;
mod exclusion;
mod fleet;
mod orders;
mod pnml;
mod properties;
mod refusals;
mod replay_files;
mod replay_text;
mod rule_1;
mod salvage;
mod steps;
mod strip;
mod support;
mod values;
mod version_2;
mod versions;

use std::collections::BTreeSet;
use std::fs;
use std::path::Path;

/// A file that is not named above would not be run.
#[test]
fn every_file_of_the_folder_is_named_here() {
    let folder = Path::new(env!("CARGO_MANIFEST_DIR")).join("tests");
    let files = fs::read_dir(folder).expect("the folder is there");
    let files = files.map(|file| file.expect("an entry of the folder").file_name());
    let files: BTreeSet<String> = files.map(|file| file.into_string().expect("a plain name")).collect();
    let named =
        include_str!("main.rs").lines().filter_map(|line| line.strip_prefix("mod ")?.strip_suffix(';'));
    let named = named.chain(["main"]).map(|name| format!("{name}.rs"));
    assert_eq!(files, named.collect());
}
