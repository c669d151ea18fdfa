//! Without the feature `failpoints` the crate has the same interface: `off.rs` has each public function
//! of the modules in whose place it stands, with the same types.

use std::collections::BTreeSet;

const ON: [&str; 5] = [
    include_str!("../src/registry.rs"),
    include_str!("../src/passing.rs"),
    include_str!("../src/answers.rs"),
    include_str!("../src/gossip.rs"),
    include_str!("../src/serving.rs"),
];

const OFF: [&str; 1] = [include_str!("../src/off.rs")];

/// The types of these modules that are public.
const TYPES: [&str; 4] = ["Registry", "Gossip", "Serving", "Served"];

/// A function of the macros, which are nothing without failpoints.
const OF_MACROS: &str = "eval_at";

// Returns the signatures of public functions, each with the type that has it. Names of arguments that
// aren't used begin with `_`.
fn signatures(sources: &[&str]) -> BTreeSet<String> {
    let mut found = BTreeSet::new();
    for source in sources {
        let mut owner = String::new();
        let mut lines = source.lines();
        while let Some(line) = lines.next() {
            if let Some(name) = line.strip_prefix("impl ") {
                owner = name.trim_end_matches(" {").to_string();
            } else if line == "}" {
                owner.clear();
            }
            let is_method = TYPES.contains(&&owner[..]) && line.starts_with("    pub fn ");
            if !is_method && !line.starts_with("pub fn ") {
                continue;
            }
            let mut signature = line.to_string();
            while !signature.ends_with('{') {
                signature += lines.next().expect("a signature ends");
            }
            let words: String = signature.split_whitespace().collect();
            found.insert(format!(
                "{owner}: {}",
                words.replace("(_", "(").replace(",_", ",")
            ));
        }
    }
    found
}

#[test]
fn the_interface_is_the_same_without_failpoints() {
    let mut on = signatures(&ON);
    on.retain(|signature| !signature.contains(OF_MACROS));
    // Arguments differ in `mut self`, which is no part of a type, and in commas of long lines.
    let plain = |all: BTreeSet<String>| -> BTreeSet<String> {
        all.into_iter()
            .map(|it| it.replace("mutself", "self").replace(",)", ")"))
            .collect()
    };
    let (on, off) = (plain(on), plain(signatures(&OFF)));
    assert!(on.len() > 35, "{}", on.len());
    let differ: Vec<_> = on.symmetric_difference(&off).collect();
    assert!(differ.is_empty(), "{differ:#?}");
}
