//! Recordings that are made here and audited by the program `failreg`, whose path is
//! FAILREG_PROGRAM. `embedding/check` runs them; without the program they are ignored.

use failreg::{Registry, write_drill};
use std::path::{Path, PathBuf};
use std::process::{Command, Stdio};

const SEED: [u8; 32] = [0x5e; 32];

fn program() -> Command {
    Command::new(std::env::var_os("FAILREG_PROGRAM").expect("FAILREG_PROGRAM is a path"))
}

/// Returns the path of a file that doesn't exist.
fn file(name: &str) -> PathBuf {
    let path = Path::new(env!("CARGO_TARGET_TMPDIR")).join(name);
    _ = std::fs::remove_file(&path);
    path
}

// Returns what an audit of this recording prints.
fn audit(name: &str, drill: &str) -> String {
    let path = file(name);
    std::fs::write(&path, drill).unwrap();
    let ran = program().arg("audit").arg(path).output().unwrap();
    let text = String::from_utf8(ran.stdout).unwrap();
    assert_eq!(
        ran.status.success(),
        text.starts_with("audit yes\n"),
        "{text}"
    );
    text
}

fn drill_of(nodes: &[&Registry]) -> String {
    let mut drill = Vec::new();
    write_drill(nodes, &mut drill).unwrap();
    String::from_utf8(drill).unwrap()
}

fn tell(from: &Registry, number: u8, to: &Registry) {
    to.deliver(&from.emit(number).unwrap()).unwrap();
}

fn pass_in_threads(nodes: [&Registry; 2]) {
    std::thread::scope(|scope| {
        for node in nodes.into_iter().cycle().take(6) {
            scope.spawn(move || {
                for _ in 0..50 {
                    node.eval("p");
                    node.eval("q");
                }
            });
        }
    });
}

// A recording of two nodes with threads, and every kind of call.
fn recorded() -> String {
    let open = |number| {
        let builder = Registry::builder().node(number).nodes(2).cap(10_000);
        builder.recording(true).build().unwrap()
    };
    let (a, b) = (open(0), open(1));
    a.load("p=30%20*return(\"x\\\u{e9}\")->off;q=pause")
        .unwrap();
    a.set("q", "4*delay(0)->1*print()->yield").unwrap();
    a.set("gone", "off").unwrap();
    a.remove("gone").unwrap();
    a.shift("p", 0, 1, 8).unwrap();
    a.grant("q", 0, 3).unwrap();
    a.shift("q", 0, 1, 2).unwrap();
    tell(&a, 1, &b);
    a.set("none", "0%off").unwrap();
    a.pass("none").unwrap();
    a.pass("unset").unwrap();
    a.set("refused", "offf").unwrap_err();
    pass_in_threads([&a, &b]);
    tell(&b, 0, &a);
    tell(&b, 0, &a);
    drill_of(&[&a, &b])
}

#[test]
#[ignore = "needs FAILREG_PROGRAM"]
fn a_recorded_drill_is_audited() {
    let told = audit("as_recorded", &recorded());
    assert!(told.starts_with("audit yes\n"), "{told}");
    assert!(told.contains("budget p 1.0 0 count=20 executed="), "{told}");
    assert!(
        told.contains("budget q 3.0 0 count=4 granted=3 executed=7\n"),
        "{told}"
    );
}

#[test]
#[ignore = "needs FAILREG_PROGRAM"]
fn an_altered_drill_is_no_yes() {
    let drill = recorded();
    let last_of = |part: &str| drill.rfind(part).unwrap();
    let altered = |part: &str, by: &str| {
        let at = last_of(part);
        format!("{}{by}{}", &drill[..at], &drill[at + part.len()..])
    };
    for (name, text) in [
        ("another_reply", altered("[\"changed\"]", "[\"same\"]")),
        ("another_task", altered("[\"delay\",0]", "[\"delay\",1]")),
        (
            "another_total",
            altered("[\"granted\",3]", "[\"granted\",2]"),
        ),
        ("another_place", altered("\"index\":0,", "\"index\":1,")),
        (
            "no_last_receipt",
            drill[..drill.trim_end().rfind('\n').unwrap() + 1].to_string(),
        ),
    ] {
        let told = audit(name, &text);
        assert!(told.starts_with("audit no"), "{name}: {told}");
    }
}

// The lines of the call histories.
fn traces(drill: &str) -> &str {
    &drill[..drill.find("{\"list\":").unwrap()]
}

#[test]
#[ignore = "needs FAILREG_PROGRAM"]
fn a_seed_gives_the_drill_of_a_script_of_threads() {
    let builder = Registry::builder().cap(100).seed(SEED);
    let a = builder.recording(true).build().unwrap();
    a.set("p", "50%3*return->30%sleep(1)->off").unwrap();
    (0..40).for_each(|_| assert!(a.pass("p").is_ok()));
    let seed = "5e".repeat(32);
    let start = "start set 0 p 50%3*return->30%sleep(1)->off";
    let script = format!("nodes 1 100\nseed {seed}\n{start}\nworker 0\npass p 40\n");
    let (input, path) = (file("script"), file("of_the_script"));
    std::fs::write(&input, script).unwrap();
    let ran = program()
        .args(["threads", "--record"])
        .arg(&path)
        .stdin(std::fs::File::open(input).unwrap())
        .stdout(Stdio::null())
        .status();
    assert!(ran.unwrap().success());
    let of_script = std::fs::read_to_string(path).unwrap();
    assert_eq!(traces(&drill_of(&[&a])), traces(&of_script));
}

#[test]
fn a_drill_takes_a_whole_cluster_that_records() {
    let open = |number, is_recording| {
        let builder = Registry::builder().node(number).nodes(2).cap(10);
        builder.recording(is_recording).build().unwrap()
    };
    let (a, b, silent) = (open(0, true), open(1, true), open(1, false));
    let is_written = |nodes: &[&Registry]| write_drill(nodes, &mut Vec::new()).is_ok();
    assert!(is_written(&[&a, &b]));
    for nodes in [
        &[&a][..],
        &[&b, &a],
        &[&a, &a],
        &[&a, &silent],
        &[&a, &b, &b],
    ] {
        assert!(!is_written(nodes));
    }
}
