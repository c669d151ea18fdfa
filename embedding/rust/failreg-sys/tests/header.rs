//! The numbers, the calls and the texts of statuses here are exactly those of `failreg.h`.

use failreg_sys::{
    DUE_KINDS, FAILREG_NOBODY, FAILREG_VERSION, HTTP_WANTS, OUTCOMES, STATUSES, TASKS,
    failreg_version,
};
use std::collections::BTreeMap;

const HEADER: &str = include_str!("../../../failreg.h");

// The numbers of an enum of the header.
fn numbers_of(name: &str) -> BTreeMap<&str, u32> {
    let begin = format!("enum {name} {{");
    let (_, rest) = HEADER.split_once(&begin).expect("the header has the enum");
    let (body, _) = rest.split_once("};").expect("it has an end");
    let lines = body.lines().filter_map(|line| line.split_once(" = "));
    lines
        .map(|(name, rest)| {
            let digits = rest.split(|c: char| !c.is_ascii_digit()).next().unwrap();
            (name.trim(), digits.parse().unwrap())
        })
        .collect()
}

#[test]
fn numbers_are_those_of_the_header() {
    let wide = |all: &'static [(&str, u8)]| all.iter().map(|&(name, n)| (name, n.into())).collect();
    assert_eq!(
        numbers_of("failreg_status"),
        STATUSES.iter().copied().collect()
    );
    assert_eq!(numbers_of("failreg_outcome"), wide(OUTCOMES));
    assert_eq!(numbers_of("failreg_task"), wide(TASKS));
    assert_eq!(numbers_of("failreg_due_kind"), wide(DUE_KINDS));
    assert_eq!(numbers_of("failreg_http_wants"), wide(HTTP_WANTS));
    assert!(HEADER.contains(&format!("#define FAILREG_NOBODY {FAILREG_NOBODY}\n")));
}

#[test]
fn each_status_has_words() {
    let wordless = STATUSES
        .iter()
        .filter(|(name, _)| !HEADER.contains(&format!("    case {name}: return \"")));
    assert_eq!(wordless.count(), 0);
}

#[test]
fn versions_are_one() {
    let parts = env!("CARGO_PKG_VERSION").split('.');
    let of_crate = parts.fold(0, |all, part| all * 100 + part.parse::<u32>().unwrap());
    assert_eq!(FAILREG_VERSION, of_crate);
    assert_eq!(failreg_version(), of_crate);
    let defined = |name, value: &str| HEADER.contains(&format!("#define {name} {value}\n"));
    assert!(defined("FAILREG_VERSION", &of_crate.to_string()));
    let text = format!("{:?}", env!("CARGO_PKG_VERSION"));
    assert!(defined("FAILREG_VERSION_TEXT", &text));
}

#[test]
fn each_call_of_the_header_is_declared() {
    let declared = include_str!("../src/lib.rs");
    let calls = HEADER.lines().filter_map(|line| {
        let line = line
            .strip_prefix("uint32_t ")
            .or(line.strip_prefix("size_t "))
            .or(line.strip_prefix("void "))?;
        line.split_once('(').map(|(name, _)| name)
    });
    let missing: Vec<_> = calls
        .clone()
        .filter(|name| !declared.contains(&format!("fn {name}(")))
        .collect();
    assert_eq!(missing, [""; 0]);
    assert!(calls.count() >= 20);
}
