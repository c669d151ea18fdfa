//! Nodes that survive their processes, which end in every way. Tests that audit journals need the
//! program `failreg`, whose path is FAILREG_PROGRAM. `embedding/check` runs them; without it they
//! are ignored.

mod clients;
mod nodes;

use failreg::{ErrorKind, Registry, fail_point, serve, write_drill};
use nodes::{builder, calls_in, message, new_file, open, passed, text_of};
use std::fs;
use std::io::{BufRead, BufReader, Write};
use std::path::{Path, PathBuf};
use std::process::{Command, Stdio};
use std::sync::Arc;
use std::thread;
use std::time::{Duration, Instant};

// The children are processes of this program that run one test each.

const PART: &str = "FAILREG_TEST_PART";
const WAY: &str = "FAILREG_TEST_WAY";

#[test]
fn child() {
    let (Some(path), Some(way)) = (std::env::var_os(PART), std::env::var_os(WAY)) else {
        return;
    };
    let (path, way) = (PathBuf::from(path), way.into_string().unwrap());
    let is_buffered = way.ends_with("buffered");
    match builder().recording(path).buffered(is_buffered).build() {
        Err(error) => print(&format!("{:?}", error.kind())),
        Ok(node) if way == "fills" => fill(&Arc::new(node)),
        Ok(node) => live(Box::leak(Box::new(node)), &way),
    }
}

// A process of the program, started with these words in front, that opens the journal and ends in
// this way.
fn process(front: &[&str], path: &Path, way: &str) -> Command {
    let own = std::env::current_exe().unwrap();
    let mut process = match front {
        [] => Command::new(own),
        [program, words @ ..] => {
            let mut process = Command::new(program);
            process.args(words).arg(own);
            process
        }
    };
    process.args(["--exact", "child", "--nocapture"]);
    process.env(PART, path).env(WAY, way);
    process.env_remove("RUST_BACKTRACE").stdout(Stdio::piped());
    process
}

// In one write, so that a line is whole wherever the process ends.
fn print(line: &str) {
    let mut out = std::io::stdout().lock();
    out.write_all(format!("{line}\n").as_bytes()).unwrap();
    out.flush().unwrap();
}

const SETTINGS: &str = "p=60%200*return->20%100*return->50%off->off;die=0*panic(by the point)";

fn pass_and_print(node: &Registry) {
    if passed(node) {
        print("ran");
    }
    thread::sleep(Duration::from_micros(300));
}

// Evaluates in threads until the end, by the parent, by an abort, or by `die`.
fn live(node: &'static Registry, way: &str) {
    if node.calls().unwrap() == 0 {
        node.load(SETTINGS).unwrap();
    }
    node.pass("unset").unwrap();
    print("living");
    for _ in 0..3 {
        thread::spawn(|| {
            loop {
                pass_and_print(node);
            }
        });
    }
    let (begun, pid) = (Instant::now(), u64::from(std::process::id()));
    let life = Duration::from_millis(2 + pid % 20);
    while way.starts_with("killed") || begun.elapsed() < life {
        pass_and_print(node);
    }
    if way.starts_with("aborts") {
        std::process::abort();
    }
    node.grant("die", 0, 1).unwrap();
    fail_point!(in node, "die");
    unreachable!("the point panics");
}

// Runs a node several times, each time until it ends amid evaluations. Returns how often the point
// ran, and the calls.
fn lives(path: &Path, ways: &[&str], lives: u64) -> (u64, u64) {
    let (mut ran, mut calls) = (0, 0);
    for (life, way) in (1..=lives).zip(ways.iter().cycle()) {
        let mut child = process(&[], path, way).spawn().unwrap();
        let lines = BufReader::new(child.stdout.take().unwrap()).lines();
        let mut lines = lines.map(Result::unwrap);
        assert!(lines.any(|line| line.ends_with("living")), "life {life}");
        if way.starts_with("killed") {
            thread::sleep(Duration::from_micros(500 + 1_237 * (life * 7 % 17)));
            child.kill().unwrap();
        }
        ran += lines.filter(|line| line == "ran").count() as u64;
        let status = child.wait().unwrap();
        assert!(!status.success(), "{way}: {status}");
        // It is as it was, with every result that was visible.
        let left = text_of(path).matches('\n').count() as u64 - 1;
        let node = open(path);
        assert_eq!(
            (node.calls().unwrap(), calls_in(&text_of(path))),
            (left, left)
        );
        assert!(left >= calls, "life {life}");
        calls = left;
        let spent = [0, 1].map(|term| node.spent("p", term).unwrap() as u64);
        assert!(spent[0] <= 200 && spent[1] <= 100, "{spent:?}");
        // Each of four threads may be ended between a call and its line.
        let spent = spent[0] + spent[1];
        assert!((ran..=ran + 4 * life).contains(&spent), "{ran} {spent}");
    }
    (ran, calls)
}

const WAYS: [&str; 3] = ["killed", "panics", "aborts"];

/// Repeats the calls of a journal at a node that never ended. Returns its call history.
fn never_ended(part: &str) -> String {
    let open = |number| builder().node(number).recording(true).build().unwrap();
    let nodes = [0, 1, 2].map(open);
    let node = &nodes[1];
    for line in part.lines().skip(1) {
        let words: Vec<&str> = line.split('"').collect();
        match words[3] {
            "load" => _ = node.load(words[5]).unwrap(),
            "grant" => _ = node.grant(words[5], 0, 1).unwrap(),
            "pass" => drop(node.pass(words[5]).unwrap()),
            other => panic!("no {other} was made"),
        }
    }
    let mut drill = Vec::new();
    write_drill(&nodes.each_ref(), &mut drill).unwrap();
    let drill = String::from_utf8(drill).unwrap();
    let (_, trace) = drill.split_once("{\"trace\":1}\n").unwrap();
    trace.split_once("{\"trace\":2}\n").unwrap().0.to_string()
}

#[test]
fn a_node_outlives_its_processes() {
    let path = new_file("outlives");
    let (ran, calls) = lives(&path, &WAYS, 21);
    let part = text_of(&path);
    let (_, trace) = part.split_once('\n').unwrap();
    // Its draws are those of a node that never ended, and so is everything else.
    assert!(trace == never_ended(&part), "{trace}");
    assert_eq!(trace.matches("[\"panic\",\"by the point\"]").count(), 7);
    assert!(ran > 20 && calls > 200, "{ran} of {calls}");
}

#[test]
fn a_node_that_lets_lines_wait_outlives_its_processes() {
    let path = new_file("outlives_buffered");
    let ways = WAYS.map(|way| format!("{way} buffered"));
    lives(&path, &ways.each_ref().map(String::as_str), 21);
    let part = text_of(&path);
    assert!(
        part.split_once('\n').unwrap().1 == never_ended(&part),
        "{part}"
    );
}

#[test]
fn a_part_is_open_in_one_process() {
    let path = new_file("in_use_elsewhere");
    let node = open(&path);
    let told = process(&[], &path, "aborts").output().unwrap();
    let told = String::from_utf8(told.stdout).unwrap();
    assert!(told.contains("PartInUse\n"), "{told}");
    assert_eq!(node.calls().unwrap(), 0);
}

// Evaluates until the file may not grow any more, and prints each time that the point ran.
fn fill(node: &Arc<Registry>) {
    let serving = serve(node.clone(), "127.0.0.1:0").unwrap();
    print("filling");
    node.set("p", "1000*return").unwrap();
    let refusal = loop {
        match node.pass("p") {
            Ok(_) => print("ran"),
            Err(error) => break error,
        }
    };
    assert_eq!(refusal.kind(), ErrorKind::NotRecorded, "{refusal}");
    let made = node.calls().unwrap();
    let kinds = [
        node.pass("p").map(drop),
        node.set("q", "off").map(drop),
        node.load("q=off").map(drop),
        node.remove("p").map(drop),
        node.grant("p", 0, 1).map(drop),
        node.shift("p", 0, 2, 1).map(drop),
        node.emit(0).map(drop),
        node.deliver(&message("5*off")).map(drop),
        node.answer("PUT", "/fail/q", b"off").map(drop),
    ]
    .map(|refused| refused.unwrap_err().kind());
    assert_eq!(kinds, [ErrorKind::RecordingFailed; 9]);
    assert!(node.eval("p").is_none() && node.calls().unwrap() == made);
    let why = node.set("q", "off").unwrap_err().to_string();
    assert!(
        why.contains("an earlier call could not be recorded (File too large"),
        "{why}"
    );
    // Reads still work, also for clients.
    for path in ["/fail", "/report"] {
        assert_eq!(node.answer("GET", path, b"").unwrap().status, 200);
        assert_eq!(clients::ask(serving.addr(), "GET", path, "").0, 200);
    }
    assert_eq!(clients::ask(serving.addr(), "PUT", "/fail/p", "off").0, 503);
    print("filled");
}

#[test]
fn a_full_disk_tells_no_call_that_is_not_in_the_part() {
    let path = new_file("of_a_full_disk");
    for blocks in 1..4 {
        _ = fs::remove_file(&path);
        // Files of this process end at a size. The last line is cut there, wherever that is.
        let words = format!("trap '' XFSZ; ulimit -f {blocks}; exec \"$@\"");
        let front = ["sh", "-c", &words, "sh"];
        let told = process(&front, &path, "fills").output().unwrap();
        let errors = String::from_utf8(told.stderr).unwrap();
        let told = String::from_utf8(told.stdout).unwrap();
        let ran = told.lines().filter(|line| *line == "ran").count() as u64;
        assert!(told.contains("filled\n") && ran > 0, "{told}{errors}");
        let left = fs::read(&path).unwrap();
        assert!(left.len().is_multiple_of(512) && left.last() != Some(&b'\n'));
        let node = open(&path);
        assert_eq!(node.calls().unwrap(), ran + 1);
        assert_eq!(node.spent("p", 0).unwrap(), u128::from(ran));
        // With room it continues.
        node.pass("p").unwrap();
        assert_eq!(calls_in(&text_of(&path)), ran + 2);
    }
}

/// Returns what an audit of these journals prints.
fn audit(parts: &[&Path]) -> String {
    let program = std::env::var_os("FAILREG_PROGRAM").expect("FAILREG_PROGRAM is a path");
    let ran = Command::new(program).arg("audit").args(parts).output();
    let ran = ran.expect("the program runs");
    String::from_utf8([ran.stdout, ran.stderr].concat()).expect("a text")
}

#[test]
#[ignore = "needs FAILREG_PROGRAM"]
fn what_outlived_its_processes_is_audited() {
    let paths = [0, 1, 2].map(|node| new_file(&format!("audited{node}")));
    for node in [0, 2] {
        let part = builder().node(node).recording(&paths[usize::from(node)]);
        drop(part.build().unwrap());
    }
    lives(&paths[1], &WAYS, 21);
    let node = open(&paths[1]);
    let ran = [0, 1].map(|term| node.spent("p", term).unwrap());
    drop(node);
    let parts = [&*paths[2], &*paths[0], &*paths[1]];
    let told = audit(&parts);
    assert!(told.starts_with("audit yes\n"), "{told}");
    for budget in [
        format!("budget p 1.1 0 count=200 executed={}\n", ran[0]),
        format!("budget p 1.1 1 count=100 executed={}\n", ran[1]),
        "budget die 2.1 0 count=0 granted=7 executed=7\n".to_string(),
    ] {
        assert!(told.contains(&budget), "{told}");
    }
    // A journal with an incomplete last line is named.
    let text = text_of(&paths[1]);
    fs::write(&paths[1], &text[..text.len() - 5]).unwrap();
    let told = audit(&parts);
    assert!(told.ends_with("cut node=1\n"), "{told}");
}
