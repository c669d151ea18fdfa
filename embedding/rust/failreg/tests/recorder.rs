//! Recordings that are written while the nodes are called. Tests that audit them need the program
//! `failreg`, whose path is FAILREG_PROGRAM. `embedding/check` runs them; without it they are
//! ignored.

use failreg::{Builder, ErrorKind, OnRefusal, Recorder, Registry, write_drill};
use std::collections::BTreeMap;
use std::io::{self, Write};
use std::path::{Path, PathBuf};
use std::process::Command;
use std::sync::atomic::{AtomicUsize, Ordering};
use std::sync::{Arc, Mutex};

const THREADS: usize = 4;
const PASSES: usize = 2_500;

/// Returns the path of a new file.
fn new_file(name: &str) -> PathBuf {
    let path = Path::new(env!("CARGO_TARGET_TMPDIR")).join(name);
    let _ = std::fs::remove_file(&path);
    path
}

/// Returns what an audit of this recording prints.
fn audit(path: &Path) -> String {
    let program = std::env::var_os("FAILREG_PROGRAM").expect("FAILREG_PROGRAM is a path");
    let ran = Command::new(program).arg("audit").arg(path).output();
    let ran = ran.expect("the program runs");
    String::from_utf8([ran.stdout, ran.stderr].concat()).expect("a text")
}

/// Accepts all bytes, until it is set to fail.
#[derive(Clone, Default)]
struct Shared {
    taken: Arc<Mutex<Vec<u8>>>,
    fails: Arc<Mutex<bool>>,
}

impl Shared {
    fn text(&self) -> String {
        String::from_utf8(self.taken.lock().unwrap().clone()).expect("a text")
    }

    fn fail(&self) {
        *self.fails.lock().unwrap() = true;
    }
}

impl Write for Shared {
    fn write(&mut self, bytes: &[u8]) -> io::Result<usize> {
        if *self.fails.lock().unwrap() {
            return Err(io::Error::from(io::ErrorKind::StorageFull));
        }
        self.taken.lock().unwrap().extend_from_slice(bytes);
        Ok(bytes.len())
    }

    fn flush(&mut self) -> io::Result<()> {
        Ok(())
    }
}

/// Returns a recording in pieces as one in whole.
fn whole(drill: &str) -> String {
    let mut parts: BTreeMap<(bool, u32), String> = BTreeMap::new();
    let mut part = (false, 0);
    for line in drill.lines().skip(1) {
        let head = ["{\"trace\":", "{\"list\":"]
            .iter()
            .position(|head| line.starts_with(head));
        match head {
            Some(kind) => {
                let rest = line.split(':').nth(1).expect("a number");
                let number = rest.split([',', '}']).next().expect("a number");
                part = (kind == 1, number.parse().expect("a number"));
                parts.entry(part).or_default();
            }
            None => *parts.get_mut(&part).expect("a part") += &format!("{line}\n"),
        }
    }
    let head = "{\"failreg\":\"drill\",\"version\":1}\n".to_string();
    parts.iter().fold(head, |told, ((is_list, number), lines)| {
        let name = if *is_list { "list" } else { "trace" };
        format!("{told}{{\"{name}\":{number}}}\n{lines}")
    })
}

fn one_node() -> Builder {
    Registry::builder().cap(20_000).seed([9; 32])
}

/// Every kind of call of one node, by one thread.
fn play(node: &Registry) {
    node.load("p=30%20*return(\"x\\\u{e9}\")->off;q=pause")
        .unwrap();
    node.set("q", "4*delay(0)->1*print()->yield").unwrap();
    node.set("gone", "off").unwrap();
    node.remove("gone").unwrap();
    node.grant("q", 0, 3).unwrap();
    node.set("refused", "offf").unwrap_err();
    for _ in 0..40 {
        node.pass("p").unwrap();
        node.eval("q");
        node.pass("unset").unwrap();
    }
    node.answer("PUT", "/fail/r", b"1*off").unwrap();
    node.answer("GET", "/report", b"").unwrap();
    node.answer("DELETE", "/fail/none", b"").unwrap();
}

#[test]
fn a_drill_in_pieces_is_that_of_kept_receipts() {
    let shared = Shared::default();
    let written = one_node().recording_to(&Recorder::new(shared.clone()));
    let written = written.build().unwrap();
    let kept = one_node().recording(true).build().unwrap();
    play(&written);
    play(&kept);
    let mut drill = Vec::new();
    write_drill(&[&kept], &mut drill).unwrap();
    assert_eq!(whole(&shared.text()), String::from_utf8(drill).unwrap());
    assert!(write_drill(&[&written], &mut Vec::new()).is_err());
}

fn pass_by_threads(node: &Registry, name: &str) -> usize {
    let ran = AtomicUsize::new(0);
    std::thread::scope(|scope| {
        for _ in 0..THREADS {
            scope.spawn(|| {
                for _ in 0..PASSES {
                    let acted = node.eval(name).is_some();
                    ran.fetch_add(acted.into(), Ordering::Relaxed);
                }
            });
        }
    });
    ran.into_inner()
}

#[test]
#[ignore = "needs FAILREG_PROGRAM"]
fn passes_by_four_threads_are_audited() {
    let path = new_file("by_four_threads");
    let recorder = Recorder::create(&path).unwrap();
    let node = one_node().recording_to(&recorder).build().unwrap();
    node.set("p", "50%1000*return(x)->off").unwrap();
    assert_eq!(pass_by_threads(&node, "p"), 1000);
    assert_eq!(node.calls().unwrap() as usize, THREADS * PASSES + 1);
    assert_eq!(
        audit(&path),
        "audit yes\nbudget p 1.0 0 count=1000 executed=1000\n"
    );
    // Nobody overwrites it.
    assert!(Recorder::create(&path).is_err());
}

#[test]
#[ignore = "needs FAILREG_PROGRAM"]
fn a_cluster_writes_one_drill() {
    let path = new_file("of_two_nodes");
    let recorder = Recorder::create(&path).unwrap();
    let open = |number| {
        let builder = Registry::builder().node(number).nodes(2).cap(20_000);
        builder.recording_to(&recorder).build().unwrap()
    };
    let (b, a) = (open(1), open(0));
    a.set("p", "30*return->off").unwrap();
    a.shift("p", 0, 1, 10).unwrap();
    b.deliver(&a.emit(1).unwrap()).unwrap();
    let ran = std::thread::scope(|scope| {
        let nodes = [&a, &b].map(|node| scope.spawn(move || pass_by_threads(node, "p")));
        nodes.map(|ran| ran.join().unwrap())
    });
    a.deliver(&b.emit(0).unwrap()).unwrap();
    assert_eq!(ran, [20, 10]);
    assert_eq!(
        audit(&path),
        "audit yes\nbudget p 1.0 0 count=30 executed=30\n"
    );
}

#[test]
#[ignore = "needs FAILREG_PROGRAM"]
fn a_piece_that_is_lost_is_found() {
    let path = new_file("one_is_lost");
    let recorder = Recorder::create(&path).unwrap();
    let node = one_node().recording_to(&recorder).build().unwrap();
    node.set("p", "3*off").unwrap();
    (0..4).for_each(|_| drop(node.pass("p").unwrap()));
    let drill = std::fs::read_to_string(&path).unwrap();
    let lines: Vec<&str> = drill.split_inclusive('\n').collect();
    // After each whole call the file is a recording of the calls so far.
    for calls in 0..5 {
        std::fs::write(&path, lines[..3 + 4 * calls].concat()).unwrap();
        assert!(audit(&path).starts_with("audit yes\n"), "{calls} calls");
    }
    // A missing call is found at the next line.
    let left_out = [&lines[..7], &lines[11..]].concat().concat();
    std::fs::write(&path, left_out).unwrap();
    assert_eq!(audit(&path), "refused P5 BadLine line=8\n");
}

#[test]
fn a_call_that_cannot_be_written_says_so() {
    let shared = Shared::default();
    let recorder = Recorder::new(shared.clone());
    let told = Arc::new(Mutex::new(Vec::new()));
    let meet = told.clone();
    let node = one_node()
        .recording_to(&recorder)
        .on_refusal(OnRefusal::call(move |error| {
            meet.lock().unwrap().push(error.kind())
        }))
        .build()
        .unwrap();
    node.set("p", "return").unwrap();
    assert!(node.eval("p").is_some());
    let before = (shared.text(), node.calls().unwrap());
    shared.fail();
    // The point does nothing, which is reported once.
    assert!((0..3).all(|_| node.eval("p").is_none()));
    assert_eq!(*told.lock().unwrap(), [ErrorKind::NotRecorded]);
    assert_eq!(node.calls().unwrap(), before.1 + 1);
    // No call is accepted any more, and reads work.
    let kinds = [
        node.pass("p").map(drop),
        node.set("q", "off").map(drop),
        node.load("q=off").map(drop),
        node.remove("p").map(drop),
        node.grant("p", 0, 1).map(drop),
        node.answer("PUT", "/fail/q", b"off").map(drop),
    ]
    .map(|refused| refused.unwrap_err().kind());
    assert_eq!(kinds, [ErrorKind::RecordingFailed; 6]);
    assert_eq!(node.calls().unwrap(), before.1 + 1);
    assert_eq!(node.answer("GET", "/fail", b"").unwrap().status, 200);
    assert_eq!(shared.text(), before.0);
}

#[test]
fn a_request_that_cannot_be_written_says_so() {
    let shared = Shared::default();
    let node = one_node().recording_to(&Recorder::new(shared.clone()));
    let node = node.build().unwrap();
    shared.fail();
    let refused = node.answer("PUT", "/fail/p", b"off").unwrap_err();
    assert_eq!(refused.kind(), ErrorKind::NotRecorded);
    assert!(node.eval("p").is_none());
}

#[test]
fn a_drill_that_cannot_be_begun_opens_no_node() {
    let shared = Shared::default();
    shared.fail();
    let recorder = Recorder::new(shared);
    let refused = one_node().recording_to(&recorder).build().unwrap_err();
    assert_eq!(refused.kind(), ErrorKind::RecordingFailed);
}

#[test]
fn a_recorder_is_of_one_cluster() {
    let recorder = Recorder::new(io::sink());
    let builder = Registry::builder().nodes(2).recording_to(&recorder);
    let _node = builder.clone().build().unwrap();
    for builder in [builder.clone(), builder.nodes(3).node(2)] {
        let refused = builder.build().unwrap_err();
        assert_eq!(refused.kind(), ErrorKind::BadRecorder);
    }
}
