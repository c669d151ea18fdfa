//! The content of a node's journal, which file is accepted as one, and when its lines are written.

mod clients;
mod nodes;

use failreg::{Builder, ErrorKind, OnRefusal, Peer, Registry, gossip, serve, write_drill};
use nodes::{builder, calls_in, message, new_file, open, passed, text_of};
use std::fs;
use std::path::Path;
use std::sync::{Arc, Mutex};
use std::time::{Duration, Instant};

fn refused(builder: Builder, path: &Path) -> (ErrorKind, String) {
    let error = builder.recording(path).build().unwrap_err();
    (error.kind(), error.to_string())
}

/// What a node knows and counts.
fn told_by(node: &Registry) -> String {
    let report = node.answer("GET", "/report", b"").unwrap();
    let others = [0, 2].map(|n| (node.known(n).unwrap(), node.acked(n).unwrap()));
    format!(
        "{} {} {others:?} {} {}",
        node.calls().unwrap(),
        node.version().unwrap(),
        node.list().unwrap(),
        String::from_utf8(report.body).unwrap()
    )
}

type Step = Box<dyn Fn(&Registry)>;

/// Every kind of call, accepted and rejected.
fn steps() -> Vec<Step> {
    let far = message("5*return(\"far\")->off");
    let mut steps: Vec<Step> = vec![
        Box::new(|node| {
            node.load("p=30%20*return(\"x\\\u{e9}\")->40%off;q=pause")
                .unwrap();
        }),
        Box::new(|node| drop(node.set("q", "2*print(,\"reply\":[)->yield"))),
        Box::new(|node| drop(node.set("gone", "off"))),
        Box::new(|node| drop(node.remove("gone"))),
        Box::new(|node| _ = node.grant("q", 0, 3).unwrap()),
        Box::new(|node| _ = node.shift("q", 0, 2, 1).unwrap()),
        Box::new(|node| _ = node.set_spread("dealt", "7*off->2*yield->off").unwrap()),
        Box::new(|node| drop(node.answer("PUT", "/spread/again", b"5*off").unwrap())),
        Box::new(|node| assert_eq!(node.spread("q"), Ok(2))),
        Box::new(|node| drop(node.answer("POST", "/spread/dealt", b"").unwrap())),
        Box::new(|node| assert_eq!(node.share(), Ok(0))),
        Box::new(|node| drop(node.set_spread("refused", "offf").unwrap_err())),
        Box::new(|node| drop(node.set("refused", "offf").unwrap_err())),
        Box::new(|node| drop(node.emit(0).unwrap())),
        Box::new(move |node| assert!(node.deliver(&far).is_ok())),
        Box::new(|node| drop(node.pass("far").unwrap())),
        Box::new(|node| _ = node.set_callback("called", || {}).unwrap()),
        Box::new(|node| drop(node.answer("PUT", "/fail/asked", b"1*off->off").unwrap())),
        Box::new(|node| drop(node.answer("POST", "/grant/q/0/002", b"").unwrap())),
        Box::new(|node| drop(node.answer("DELETE", "/fail/none", b"").unwrap())),
        Box::new(|node| drop(node.answer("GET", "/report", b"").unwrap())),
        Box::new(|node| drop(node.answer("GET", "/nowhere", b"").unwrap())),
    ];
    for _ in 0..8 {
        steps.push(Box::new(|node| _ = passed(node)));
        steps.push(Box::new(|node| _ = node.eval("q")));
        steps.push(Box::new(|node| drop(node.pass("p").unwrap())));
        steps.push(Box::new(|node| drop(node.pass("asked").unwrap())));
        steps.push(Box::new(|node| drop(node.pass("unset").unwrap())));
        steps.push(Box::new(|node| node.eval("called").map_or((), drop)));
    }
    steps.push(Box::new(|node| drop(node.emit(2).unwrap())));
    steps
}

#[test]
fn a_node_resumes_as_if_it_had_never_ended() {
    let (whole, broken) = (new_file("whole"), new_file("broken"));
    let node = open(&whole);
    let mut again = open(&broken);
    for (number, step) in steps().iter().enumerate() {
        step(&node);
        step(&again);
        // A drop doesn't lose waiting lines either.
        drop(again);
        let buffered = builder().recording(&broken).buffered(number % 2 == 1);
        again = buffered.synced(number % 3 == 1).build().unwrap();
        assert_eq!(told_by(&again), told_by(&node), "after step {number}");
        assert_eq!(again.is_set("p"), node.is_set("p"));
        assert_eq!(text_of(&broken), text_of(&whole), "after step {number}");
    }
    assert_eq!(calls_in(&text_of(&whole)), node.calls().unwrap());
    assert!(again.rights("q", 0, 1) == node.rights("q", 0, 1) && again.hits("p").unwrap() == 16);
}

#[test]
fn a_part_has_the_entries_of_a_drill() {
    let path = new_file("of_a_drill");
    let alone = || builder().node(0).nodes(1).cap(1_000);
    let (kept, written) = (alone().recording(true), alone().recording(&path).run("r"));
    let (kept, written) = (kept.build().unwrap(), written.build().unwrap());
    for node in [&kept, &written] {
        node.load("p=30%20*return(\"x\\\u{e9}\")->off;q=2*print(,\"reply\":[)->yield")
            .unwrap();
        (0..20).for_each(|_| _ = (passed(node), node.eval("q")));
    }
    let mut drill = Vec::new();
    write_drill(&[&kept], &mut drill).unwrap();
    let drill = String::from_utf8(drill).unwrap();
    let trace = drill.split_once("{\"trace\":0}\n").unwrap().1;
    let trace = trace.split_once("{\"list\":0}\n").unwrap().0;
    let head =
        "{\"cap\":1000,\"failreg\":\"part\",\"node\":0,\"nodes\":1,\"run\":\"r\",\"version\":1}\n";
    assert_eq!(text_of(&path), format!("{head}{trace}"));
}

#[test]
fn a_line_without_an_end_is_cut_off() {
    let path = new_file("cut");
    let node = open(&path);
    steps().iter().take(6).for_each(|step| step(&node));
    assert!(node.pass("q").is_ok());
    drop(node);
    let whole = text_of(&path).into_bytes();
    let head = whole.iter().position(|b| *b == b'\n').unwrap() + 1;
    for length in 0..whole.len() {
        fs::write(&path, &whole[..length]).unwrap();
        let node = open(&path);
        let lines = whole[..length].iter().rposition(|b| *b == b'\n');
        let left = lines.map_or(head, |at| at + 1);
        let met = fs::read(&path).unwrap();
        assert!(
            met == whole[..left],
            "of {length} bytes {} are left",
            met.len()
        );
        let calls = whole[head..left].iter().filter(|b| **b == b'\n').count();
        assert_eq!(node.calls().unwrap(), calls as u64);
    }
}

#[test]
fn a_long_part_is_taken_again() {
    let path = new_file("long");
    let node = builder().recording(&path).buffered(true).build().unwrap();
    node.set("p", "50%1000*return->3*off->off").unwrap();
    let ran = (0..20_000).filter(|_| passed(&node)).count();
    let told = told_by(&node);
    drop(node);
    let node = open(&path);
    assert_eq!((told_by(&node), ran), (told, 1000));
    assert!(!passed(&node));
    assert_eq!(node.calls().unwrap(), 20_002);
}

// A journal with these bytes is rejected, with this kind and these words, and stays unchanged.
fn is_refused(builder: Builder, path: &Path, bytes: &[u8], kind: ErrorKind, words: &str) {
    fs::write(path, bytes).unwrap();
    let (met, text) = refused(builder, path);
    let start: String = String::from_utf8_lossy(bytes).chars().take(60).collect();
    assert_eq!(met, kind, "{start}: {text}");
    assert!(
        text.starts_with(&format!("journal {path:?}: {words}")),
        "{text}"
    );
    assert!(fs::read(path).unwrap() == bytes, "{start} stays");
}

#[test]
fn another_file_is_refused_and_stays() {
    let path = new_file("other");
    let node = open(&path);
    node.set("p", "2*off->off").unwrap();
    (0..3).for_each(|_| _ = passed(&node));
    drop(node);
    let part = fs::read(&path).unwrap();
    let is_bad = |builder: Builder, bytes: &[u8], words: &str| {
        is_refused(builder, &path, bytes, ErrorKind::BadPart, words);
    };
    let other = "not this node's: ";
    let node = |number| format!("{other}node is 1 there and {number} here: ");
    is_bad(builder().node(0), &part, &node(0));
    is_bad(builder().node(2), &part, &node(2));
    is_bad(
        builder().nodes(4),
        &part,
        &format!("{other}nodes is 3 there and 4 here"),
    );
    is_bad(
        builder().cap(9),
        &part,
        &format!("{other}cap is 100000 there and 9 here"),
    );
    is_bad(
        builder().run("b"),
        &part,
        &format!("{other}run is \"\" there and \"b\" here"),
    );
    let none = "not a node's journal: ";
    let drill = b"{\"failreg\":\"drill\",\"version\":1}\n{\"trace\":0}\n{\"list\":0}\n";
    is_bad(builder(), drill, none);
    for bytes in ["\n", "{}", "a letter\nof two lines\n", "\u{feff}"] {
        is_bad(builder(), bytes.as_bytes(), none);
    }
    is_bad(builder(), &[0xff; 100_000], none);
    is_bad(builder(), &[&b"\n"[..], &part].concat(), none);
    // The start of another first line isn't overwritten.
    is_bad(
        builder(),
        &part[..20].replace_in("\"cap\":1", "\"cap\":2"),
        "",
    );
}

trait Replaced {
    fn replace_in(&self, from: &str, to: &str) -> Vec<u8>;
}

impl Replaced for [u8] {
    fn replace_in(&self, from: &str, to: &str) -> Vec<u8> {
        let text = std::str::from_utf8(self).unwrap();
        assert!(text.contains(from), "{text} has {from}");
        text.replacen(from, to, 1).into_bytes()
    }
}

#[test]
fn a_line_that_the_node_did_not_write_is_refused_by_its_number() {
    let path = new_file("altered");
    let node = open(&path);
    node.set("p", "2*return(a)->50%off").unwrap();
    (0..6).for_each(|_| _ = passed(&node));
    node.grant("p", 0, 3).unwrap();
    drop(node);
    let part = fs::read(&path).unwrap();
    let text = String::from_utf8(part.clone()).unwrap();
    let lines: Vec<&str> = text.split_inclusive('\n').collect();
    let is_bad = |bytes: &[u8], words: &str| {
        is_refused(builder(), &path, bytes, ErrorKind::BadPart, words);
    };
    let other = "the call does not replay: ";
    is_bad(
        &part.replace_in("return(a)", "return(b)"),
        &format!("line 3: {other}"),
    );
    is_bad(
        &part.replace_in("[\"set\",1,1]", "[\"set\",1,0]"),
        &format!("line 2: {other}"),
    );
    is_bad(
        &part.replace_in("[\"granted\",3]", "[\"granted\",4]"),
        &format!("line 9: {other}"),
    );
    is_bad(
        &part.replace_in("[\"return\",\"a\"]", "[\"off\"]"),
        &format!("line 3: {other}"),
    );
    // A line that is left out, duplicated, or in another place.
    let without = |at: usize| [&lines[..at], &lines[at + 1..]].concat().concat();
    is_bad(without(1).as_bytes(), &format!("line 2: {other}"));
    let doubled = [&lines[..2], &lines[1..]].concat().concat();
    is_bad(doubled.as_bytes(), &format!("line 3: {other}"));
    // A line that isn't one, even if the last one is incomplete.
    let none = "not a line of a call: ";
    for bad in ["\n", "{}\n", "null\n", "pass p\n", lines[0], "\0\0\n"] {
        let with = format!("{}{bad}{}", lines[..3].concat(), lines[3..].concat());
        is_bad(with.as_bytes(), &format!("line 4: {none}"));
        is_bad(with.trim_end().as_bytes(), &format!("line 4: {none}"));
    }
    is_bad(
        &[&part[..], b"\xff\n"].concat(),
        &format!("line {}: {none}", lines.len() + 1),
    );
    // It is the node's again.
    fs::write(&path, &part).unwrap();
    assert_eq!(open(&path).calls().unwrap(), 8);
}

#[test]
fn a_part_with_an_altered_byte_is_refused_or_taken_as_it_is() {
    let path = new_file("any_byte");
    let node = open(&path);
    node.set("p", "2*return(a)->50%off").unwrap();
    (0..4).for_each(|_| _ = passed(&node));
    node.emit(0).unwrap();
    drop(node);
    let part = fs::read(&path).unwrap();
    let head = part.iter().position(|b| *b == b'\n').unwrap() + 1;
    let mut cut = 0;
    for at in 0..part.len() {
        let mut altered = part.clone();
        altered[at] ^= 1;
        fs::write(&path, &altered).unwrap();
        let opened = builder().recording(&path).build();
        let opened = opened.map(drop).map_err(|error| error.kind());
        let kept = match opened {
            Ok(()) => altered.iter().rposition(|b| *b == b'\n').unwrap() + 1,
            Err(kind) => {
                assert_eq!(kind, ErrorKind::BadPart, "byte {at}");
                altered.len()
            }
        };
        assert!(opened.is_err() || at >= head, "byte {at}");
        assert!(fs::read(&path).unwrap() == altered[..kept], "byte {at}");
        cut += u32::from(kept < altered.len());
    }
    // Only the last line may lack its end.
    assert_eq!(cut, 1);
}

#[test]
fn what_is_no_file_is_refused() {
    let folder = Path::new(env!("CARGO_TARGET_TMPDIR"));
    for path in [folder, Path::new("/nowhere/at/all"), Path::new("/dev/null")] {
        let (kind, text) = refused(builder(), path);
        assert_eq!(kind, ErrorKind::BadPart, "{text}");
        assert!(
            text.contains("cannot open") || text.contains("not a regular file"),
            "{text}"
        );
    }
    let path = new_file("not_begun");
    fs::write(&path, "").unwrap();
    let mut permissions = fs::metadata(&path).unwrap().permissions();
    permissions.set_readonly(true);
    fs::set_permissions(&path, permissions).unwrap();
    // Root may write all the same.
    if let Err(error) = builder().recording(&path).build() {
        assert_eq!(error.kind(), ErrorKind::BadPart);
    }
    fs::remove_file(&path).unwrap();
}

#[test]
fn a_part_is_open_once() {
    let path = new_file("in_use");
    let node = open(&path);
    node.set("p", "off").unwrap();
    let (kind, text) = refused(builder(), &path);
    assert_eq!(kind, ErrorKind::PartInUse);
    assert!(
        text.contains("already open in this process or another: end that process"),
        "{text}"
    );
    // A closed registry releases it.
    node.close();
    let again = builder().recording(&path).buffered(true).build().unwrap();
    assert_eq!(again.calls().unwrap(), 1);
    again.close();
    drop((node, again));
    assert_eq!(open(&path).calls().unwrap(), 1);
}

#[test]
fn a_callback_is_not_kept() {
    let path = new_file("callback");
    let node = open(&path);
    let called = Arc::new(Mutex::new(0));
    let count = called.clone();
    node.set_callback("p", move || *count.lock().unwrap() += 1)
        .unwrap();
    assert!(!passed(&node));
    drop(node);
    let node = open(&path);
    assert!(!passed(&node) && node.is_set("p"));
    assert_eq!((*called.lock().unwrap(), node.hits("p").unwrap()), (1, 2));
}

#[test]
fn a_node_that_has_reached_its_cap_stays_there() {
    let path = new_file("full");
    let open = || {
        builder()
            .cap(3)
            .recording(&path)
            .on_refusal(OnRefusal::Ignore)
            .build()
            .unwrap()
    };
    let node = open();
    node.set("p", "return").unwrap();
    assert!(passed(&node) && passed(&node) && !passed(&node));
    drop(node);
    let node = open();
    assert!(node.is_set("p") && !passed(&node) && !node.is_set("p"));
    assert_eq!(
        node.set("p", "off").unwrap_err().kind(),
        ErrorKind::CapReached
    );
    assert_eq!(calls_in(&text_of(&path)), 3);
}

#[test]
fn a_line_is_there_before_its_call_is_told() {
    let path = new_file("served");
    let node = Arc::new(open(&path));
    let serving = serve(node.clone(), "127.0.0.1:0").unwrap();
    let has = |line: &str| text_of(&path).ends_with(&format!("{line}\n"));
    assert_eq!(
        clients::ask(serving.addr(), "PUT", "/fail/p", "9*off->off").0,
        200
    );
    assert!(has(
        "{\"ask\":[\"set\",\"p\",\"9*off->off\"],\"reply\":[\"set\",1,1],\"words\":[]}"
    ));
    assert_eq!(
        clients::ask(serving.addr(), "POST", "/shift/p/0/2/04", "").0,
        200
    );
    assert!(has(
        "{\"ask\":[\"shift\",\"p\",0,2,4],\"reply\":[\"shifted\",4],\"words\":[]}"
    ));
    node.pass("p").unwrap();
    assert!(has(
        "{\"ask\":[\"pass\",\"p\"],\"reply\":[\"act\",1,1,0,[\"off\"]],\"words\":[]}"
    ));
    let bytes = node.emit(0).unwrap();
    assert!(has(&format!(
        "{{\"ask\":[\"emit\",0],\"reply\":[\"message\",\"{}\"],\"words\":[]}}",
        hex(&bytes)
    )));
    // A peer's gossip, and the node's own.
    let other = Arc::new(Registry::open(0, 3, 1_000).unwrap());
    let its = serve(other.clone(), "127.0.0.1:0").unwrap();
    other.set("far", "off").unwrap();
    let every = Duration::from_millis(5);
    let telling = [
        gossip(other.clone(), &[Peer::new(1, serving.addr())], every).unwrap(),
        gossip(node.clone(), &[Peer::new(0, its.addr())], every).unwrap(),
    ];
    assert!(clients::comes(|| node.is_set("far") && other.is_set("p")));
    drop((telling, its, serving));
    let part = text_of(&path);
    assert_eq!(calls_in(&part), node.calls().unwrap());
    assert!(
        part.contains("{\"ask\":[\"deliver\",\"46504731")
            && part.contains("\"reply\":[\"changed\"]")
    );
    let told = told_by(&node);
    drop(node);
    assert_eq!(told_by(&open(&path)), told);
}

fn hex(bytes: &[u8]) -> String {
    bytes.iter().map(|byte| format!("{byte:02x}")).collect()
}

#[test]
fn lines_of_passes_that_took_no_right_may_wait() {
    let path = new_file("buffered");
    let node = builder().recording(&path).buffered(true).build().unwrap();
    let lines = || calls_in(&text_of(&path));
    node.load("p=1*return->off;free=off;chance=50%off").unwrap();
    assert_eq!(lines(), 1);
    // By name, by number, and of a point that isn't set. It is written soon by itself.
    let begun = Instant::now();
    for _ in 0..3 {
        node.pass("free").unwrap();
        node.pass("unset").unwrap();
        node.pass("chance").unwrap();
    }
    let waited = lines();
    assert!(
        waited == 1 || begun.elapsed() > Duration::from_millis(40),
        "{waited} lines"
    );
    assert!(clients::comes(|| lines() == 10));
    // A counted term is written at once, with the waiting lines.
    node.pass("free").unwrap();
    assert!(passed(&node));
    assert_eq!(lines(), 12);
    assert!(!passed(&node) && !passed(&node));
    // So is what others may see: a message, and an operator's read.
    node.emit(0).unwrap();
    assert_eq!(lines(), 15);
    node.pass("free").unwrap();
    node.answer("GET", "/report", b"").unwrap();
    assert_eq!(lines(), 16);
    // A new configuration of the same name counts.
    node.set("free", "3*off->off").unwrap();
    for lines_by_now in 18..21 {
        node.pass("free").unwrap();
        assert_eq!(lines(), lines_by_now);
    }
    node.pass("free").unwrap();
    drop(node);
    assert_eq!(lines(), 21);
    assert_eq!(open(&path).spent("free", 0).unwrap(), 3);
}
