//! Instructions, counted by callgrind: those of eleven times a work less those of one time, divided by ten.

use std::env;
use std::process::Command;

use reference::Form;

use crate::inputs::Size;
use crate::works::{Figures, Work};

/// The instructions of each engine, in thousands.
pub fn instructions(work: Work, size: Size) -> Figures {
    work.each(|engine| (counted(work, engine, size, 11) - counted(work, engine, size, 1)) / 10_000.0)
}

fn counted(work: Work, engine: &str, size: Size, times: usize) -> f64 {
    let form = Form::ALL.iter().position(|known| *known == size.form).expect("a known form");
    let [part, arcs, form, times] = [size.part, size.arcs, form, times].map(|number| number.to_string());
    let output = Command::new("valgrind")
        .args(["--tool=callgrind", "--callgrind-out-file=/dev/null"])
        .arg(env::current_exe().expect("this program has a path"))
        .args(["once", work.name, engine, &part, &arcs, &form, &times])
        .output()
        .expect("valgrind is on this machine");
    let said = String::from_utf8_lossy(&output.stderr);
    let collected = said.lines().find_map(|line| line.split_once("Collected : "));
    collected
        .and_then(|(_, count)| count.trim().parse().ok())
        .unwrap_or_else(|| panic!("callgrind said: {said}"))
}
