//! The inputs of tests/replay and what docs/RULES.md says they print.

use std::{fs, path::Path};

#[test]
fn each_input_prints_its_text() {
    let folder = Path::new(env!("CARGO_MANIFEST_DIR")).join("../../tests/replay");
    let mut compared = 0;
    for entry in fs::read_dir(folder).expect("tests/replay is there") {
        let input = entry.expect("an entry of tests/replay").path();
        if input.extension().is_some_and(|ending| ending == "in") {
            let expected = fs::read(input.with_extension("out")).expect("each input has its text");
            assert_eq!(
                reference::replay(&fs::read(&input).expect("an input")),
                expected,
                "{}",
                input.display()
            );
            compared += 1;
        }
    }
    assert!(compared >= 23, "only {compared} inputs");
}
