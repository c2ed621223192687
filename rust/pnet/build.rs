//! Links the engine's static library: the one that PNET_ARCHIVE names, or one that `tools/build abi` proves and builds.

use std::io::Write;
use std::path::{Path, PathBuf};
use std::process::Command;
use std::{env, fs};

/// What cargo links: our own name, since an archive `libabi.a` may be anybody's.
const NAME: &str = "bezgintay_pnet";

fn main() {
    println!("cargo::rerun-if-env-changed=PNET_ARCHIVE");
    let archive = match env::var_os("PNET_ARCHIVE") {
        Some(path) => prebuilt(path.into()),
        None => proved(),
    };
    if let Err(said) = archive.and_then(|archive| link(&archive)) {
        println!("cargo::error={said}");
    }
}

fn prebuilt(archive: PathBuf) -> Result<PathBuf, String> {
    println!("cargo::rerun-if-changed={}", archive.display());
    let there = archive.is_absolute() && archive.is_file();
    let said =
        || format!("PNET_ARCHIVE is {}, and is to be the absolute path of an archive", archive.display());
    there.then_some(archive.clone()).ok_or_else(said)
}

/// The archive of this repository's crates, proved.
fn proved() -> Result<PathBuf, String> {
    const PREBUILT: &str = "set PNET_ARCHIVE to the libabi.a that `tools/build abi` wrote";
    let root = Path::new(env!("CARGO_MANIFEST_DIR")).ancestors().nth(2);
    let root = root.filter(|root| root.join("crates.txt").is_file());
    let root = root.ok_or_else(|| format!("the engine's crates are not here: {PREBUILT}"))?;
    sources(root).map_err(|error| format!("the engine's crates cannot be read ({error})"))?;
    let build = Command::new(root.join("tools/build")).arg("abi").current_dir(root).spawn();
    let mut build = build.map_err(|error| format!("tools/build does not start ({error}): {PREBUILT}"))?;
    say(&format!("`tools/build abi` proves the engine, which may take long; or {PREBUILT}"));
    let status = build.wait().map_err(|error| error.to_string())?;
    // Only where the script itself fails does cargo print what the tool said.
    assert!(
        status.success(),
        "`tools/build abi` failed ({status}); what it said stands above, or {PREBUILT}"
    );
    Ok(root.join("target/staticlib/libabi.a"))
}

/// Has cargo run this again where a file changes that the archive is made from: what rt makes stands in each crate's folder `out`.
fn sources(root: &Path) -> std::io::Result<()> {
    println!("cargo::rerun-if-changed={}", root.join("crates.txt").display());
    for entry in fs::read_dir(root.join("crates"))? {
        let folder = entry?.path();
        for part in ["src", "specs", "proofs"].map(|part| folder.join(part)) {
            if part.is_dir() {
                println!("cargo::rerun-if-changed={}", part.display());
            }
        }
    }
    Ok(())
}

/// Cargo keeps what a build script prints until it ends, so the terminal is told by itself.
fn say(words: &str) {
    eprintln!("pnet: {words}");
    if let Ok(mut terminal) = fs::OpenOptions::new().write(true).open("/dev/tty") {
        // Nobody is there to be told where this fails.
        let _ = writeln!(terminal, "pnet: {words}");
    }
}

/// A copy under our name, which stays when target/ is removed.
fn link(archive: &Path) -> Result<(), String> {
    let out = PathBuf::from(env::var_os("OUT_DIR").ok_or("cargo sets OUT_DIR")?);
    fs::copy(archive, out.join(format!("lib{NAME}.a")))
        .map_err(|error| format!("{} was not copied: {error}", archive.display()))?;
    println!("cargo::rustc-link-search=native={}", out.display());
    println!("cargo::rustc-link-lib=static={NAME}");
    Ok(())
}
