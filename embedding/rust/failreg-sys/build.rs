//! Links `libfailreg.a`, the proved library with the memory functions that it calls. The build
//! looks in the folder FAILREG_LIB, or else in `lib` next to this file (an installed package), and
//! then in `lib` next to the crates' folder (an unpacked package, or the result of
//! `embedding/build`).
//!
//! If it is missing, or for another target, this prints a warning and continues: what links nothing
//! (`cargo check`, `cargo doc`) needs none, and the linker stops otherwise.

use std::env;
use std::path::{Path, PathBuf};

const ARCHIVE: &str = "libfailreg.a";

fn places() -> Vec<PathBuf> {
    let here = Path::new(env!("CARGO_MANIFEST_DIR"));
    match env::var_os("FAILREG_LIB") {
        Some(folder) => vec![folder.into()],
        None => vec![here.join("lib"), here.join("../../lib")],
    }
}

/// Returns the first place that has the archive, or else the last one.
fn folder() -> PathBuf {
    let mut places = places();
    let found = places
        .iter()
        .position(|place| place.join(ARCHIVE).is_file());
    places.swap_remove(found.unwrap_or(places.len() - 1))
}

fn main() {
    println!("cargo::rerun-if-env-changed=FAILREG_LIB");
    let folder = folder();
    let archive = folder.join(ARCHIVE);
    if !archive.is_file() {
        println!(
            "cargo::warning={} isn't there: run embedding/build, put the library of a package there, \
             or let FAILREG_LIB name the folder that has it",
            archive.display()
        );
    }
    let target = env::var("TARGET").unwrap_or_default();
    if !(target.starts_with("x86_64-") && target.contains("-linux-")) {
        println!("cargo::warning={ARCHIVE} is for x86_64 Linux, and this is built for {target}");
    }
    println!("cargo::rerun-if-changed={}", archive.display());
    println!("cargo::rustc-link-lib=static=failreg");
    println!("cargo::rustc-link-search=native={}", folder.display());
}
