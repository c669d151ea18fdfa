//! A node with a journal in a file. Not every test uses all of this.

#![allow(dead_code)]

use failreg::{Builder, Registry, fail_point};
use std::fs;
use std::path::{Path, PathBuf};

/// The seed of its draws.
const SEED: [u8; 32] = [0x9a; 32];

/// Returns the path of a file that doesn't exist.
pub fn new_file(name: &str) -> PathBuf {
    let path = Path::new(env!("CARGO_TARGET_TMPDIR")).join(format!("part_{name}"));
    _ = fs::remove_file(&path);
    path
}

pub fn text_of(path: &Path) -> String {
    fs::read_to_string(path).expect("a text")
}

/// Returns how many calls a journal has.
pub fn calls_in(part: &str) -> u64 {
    part.lines().count() as u64 - 1
}

pub fn builder() -> Builder {
    Registry::builder().node(1).nodes(3).cap(100_000).seed(SEED)
}

pub fn open(path: &Path) -> Registry {
    builder()
        .recording(path)
        .build()
        .expect("the part is taken")
}

/// A message of node 0 to this one, which has set a point to it by then.
pub fn message(actions: &str) -> Vec<u8> {
    let other = Registry::open(0, 3, 100).unwrap();
    other.set("far", actions).unwrap();
    other.shift("far", 0, 1, 2).unwrap();
    other.emit(1).unwrap()
}

pub fn passed(node: &Registry) -> bool {
    fail_point!(in node, "p", |_| true);
    false
}
