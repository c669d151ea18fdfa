//! A failed allocation doesn't end a program: a request is answered 503 and the node isn't called, or it
//! is carried out and answered, and a message of gossip is sent later. Each allocation of the threads
//! that serve a client and that gossip is refused in turn. The allocator of this program refuses, so
//! one test runs at a time.

#![cfg(all(feature = "failpoints", target_os = "linux"))]

mod clients;

use clients::comes;
use failreg::{Builder, Peer, Recorder, Registry, gossip, serve};
use std::alloc::{GlobalAlloc, Layout, System};
use std::io::{Read, Write};
use std::net::{SocketAddr, TcpListener, TcpStream};
use std::path::PathBuf;
use std::sync::atomic::{AtomicI64, AtomicUsize, Ordering};
use std::sync::{Arc, Mutex, MutexGuard};
use std::time::Duration;

/// How many allocations of the threads that are watched succeed before one is refused, or all are;
/// negative once one was.
static LEFT: AtomicI64 = AtomicI64::new(NEVER);
const NEVER: i64 = i64::MAX;
const ALWAYS: i64 = i64::MIN;

/// The threads that are watched.
const WATCHED: [&[u8]; 3] = [b"failreg-client", b"failreg-gossip", b"failreg-serve"];

/// Allocations of fewer bytes succeed.
static SMALLEST: AtomicUsize = AtomicUsize::new(0);
const SHORT: usize = 256;

/// More bytes than the bodies have of which every allocation is refused.
const GREAT: usize = 150_000;

unsafe extern "C" {
    /// With the option `GET_NAME` it writes the name of the calling thread.
    fn prctl(option: i32, name: *mut u8) -> i32;
}

const GET_NAME: i32 = 16;

struct Refusing;

impl Refusing {
    fn refuses(size: usize) -> bool {
        if LEFT.load(Ordering::SeqCst) == NEVER || size < SMALLEST.load(Ordering::SeqCst) {
            return false;
        }
        let mut name = [0; 16];
        // SAFETY: a name has at most 16 bytes.
        unsafe { prctl(GET_NAME, name.as_mut_ptr()) };
        let is_watched = WATCHED.iter().any(|it| name.starts_with(it));
        let is_always = LEFT.load(Ordering::SeqCst) == ALWAYS;
        is_watched && (is_always || LEFT.fetch_sub(1, Ordering::SeqCst) == 0)
    }
}

// SAFETY: what it gives is what the system gave, or nothing.
unsafe impl GlobalAlloc for Refusing {
    unsafe fn alloc(&self, layout: Layout) -> *mut u8 {
        if Refusing::refuses(layout.size()) {
            return std::ptr::null_mut();
        }
        // SAFETY: the caller's layout.
        unsafe { System.alloc(layout) }
    }

    unsafe fn dealloc(&self, there: *mut u8, layout: Layout) {
        // SAFETY: it is from the system, with this layout.
        unsafe { System.dealloc(there, layout) }
    }
}

#[global_allocator]
static ALLOCATOR: Refusing = Refusing;

fn alone() -> MutexGuard<'static, ()> {
    static ONE: Mutex<()> = Mutex::new(());
    ONE.lock().unwrap_or_else(|poisoned| poisoned.into_inner())
}

/// Calls `run` with the number of the allocation to refuse, until it returns that none was refused.
/// Returns how many were.
fn with_each_refused(mut run: impl FnMut(i64) -> bool) -> i64 {
    (0..).find(|number| !run(*number)).unwrap_or(NEVER)
}

fn file_of(name: &str) -> PathBuf {
    PathBuf::from(env!("CARGO_TARGET_TMPDIR")).join(format!("refused_{name}"))
}

fn file(name: &str) -> PathBuf {
    let path = file_of(name);
    _ = std::fs::remove_file(&path);
    path
}

// Waits until one thread serves a client, and has nothing to do: a thread that starts takes memory
// that it can't do without.
fn wait_for_thread() {
    let is_idle = |stat: String| {
        let (_, state) = stat.rsplit_once(") ")?;
        stat.contains("(failreg-client)")
            .then(|| state.starts_with('S'))
    };
    loop {
        let threads = std::fs::read_dir("/proc/self/task").unwrap();
        // It is gone if its file can't be read.
        let stats = threads.map(|it| std::fs::read_to_string(it.unwrap().path().join("stat")));
        let clients: Vec<bool> = stats.flatten().filter_map(is_idle).collect();
        if clients == [true] {
            return;
        }
        std::thread::sleep(Duration::from_micros(200));
    }
}

/// A node of three, and how it records.
fn builders() -> Vec<(&'static str, Builder)> {
    let builder = || Registry::builder().node(1).nodes(3).seed([7; 32]);
    vec![
        ("nothing", builder()),
        ("part", builder().recording(file("part"))),
        (
            "buffered",
            builder().recording(file("buffered")).buffered(true),
        ),
        ("receipts", builder().recording(true)),
        (
            "recorder",
            builder().recording_to(&Recorder::new(std::io::sink())),
        ),
    ]
}

/// Node 0, which has this many points.
fn other(points: u32) -> Registry {
    let other = Registry::open(0, 3, 100_000).unwrap();
    let actions = format!("return({})", "x".repeat(900));
    for point in 0..points {
        other.set(&format!("far{point}"), &actions).unwrap();
    }
    other
}

/// A message of it with news.
fn message(other: &Registry) -> Vec<u8> {
    other.set("far0", "5*return(far)->off").unwrap();
    other.emit(1).unwrap()
}

/// A request, and whether it calls the node.
struct Asked {
    head: &'static str,
    body: Vec<u8>,
    is_call: bool,
}

fn asked(head: &'static str, body: impl Into<Vec<u8>>, is_call: bool) -> Asked {
    let body = body.into();
    Asked {
        head,
        body,
        is_call,
    }
}

fn requests([few, many]: &[Registry; 2]) -> Vec<Asked> {
    let setting = vec!["q=3*return(some text)->off"; 2_000].join(";");
    let long = "x".repeat(100_000);
    vec![
        asked("PUT /fail/a", "2*return(disk full)->off", true),
        asked("PUT /spread/a", "20*return(\"full\")->30*off", true),
        asked("POST /spread/a", "", true),
        asked("DELETE /fail/a", "", true),
        asked("POST /load", setting, true),
        asked("POST /grant/q/0/5", "", true),
        asked("POST /shift/q/0/0/1", "", true),
        asked("POST /gossip", message(few), true),
        asked("POST /gossip", message(many), true),
        asked("GET /fail", "", false),
        asked("GET /report", "", false),
        asked("GET /status", "", false),
        asked("GET /status", "ignored", false),
        asked("GET /", "", false),
        asked("POST /hello", "2", false),
        asked("PUT /fail/b", long.clone(), false),
        asked("PUT /fail/b", b"\xff".to_vec(), false),
        asked("POST /load", long.clone(), false),
        asked("POST /gossip", long.clone(), false),
        asked("GET /fail", long, false),
        asked("PUT /report", "", false),
        asked("HEAD /nowhere", "", false),
    ]
}

// Sends a request, whose body may be cut off by the response. Returns the status of the response; 0
// if there is none.
fn status(addr: SocketAddr, asked: &Asked, is_chunked: bool, left: i64) -> u16 {
    let (head, length) = (asked.head, asked.body.len());
    let mut stream = TcpStream::connect(addr).unwrap();
    wait_for_thread();
    LEFT.store(left, Ordering::SeqCst);
    let (field, front, end) = match is_chunked {
        true => (
            "Transfer-Encoding: chunked".into(),
            format!("{length:x}\r\n"),
            if length > 0 { "\r\n0\r\n\r\n" } else { "\r\n" },
        ),
        false => (format!("Content-Length: {length}"), String::new(), ""),
    };
    let head = format!("{head} HTTP/1.1\r\nHost: localhost\r\n{field}\r\n\r\n{front}");
    _ = stream.write_all(head.as_bytes());
    _ = stream.write_all(&asked.body);
    _ = stream.write_all(end.as_bytes());
    let mut reply = Vec::new();
    _ = stream.read_to_end(&mut reply);
    let status = reply.get(9..12).and_then(|it| std::str::from_utf8(it).ok());
    status.map_or(0, |status| status.parse().unwrap())
}

#[test]
fn a_request_whose_memory_is_refused_is_503_and_nothing_happened() {
    let _alone = alone();
    for (name, builder) in builders() {
        let node = Arc::new(builder.clone().build().unwrap());
        let serving = serve(node.clone(), "127.0.0.1:0").unwrap();
        let addr = serving.addr();
        // So that each request of a call is accepted, in each round.
        node.set("q", "1000*off").unwrap();
        let others = [other(1), other(200)];
        // In chunks a body is the same for whatever follows.
        let forms = if name == "part" { 2 } else { 1 };
        let all =
            (0..requests(&others).len()).flat_map(|it| (0..forms).map(move |form| (it, form)));
        for (number, form) in all {
            let is_chunked = form == 1;
            // Of a great message each name is copied: without these.
            let is_great = requests(&others)[number].body.len() > GREAT;
            SMALLEST.store(if is_great { SHORT } else { 0 }, Ordering::SeqCst);
            let mut statuses = Vec::new();
            let refused = with_each_refused(|left| {
                let asked = &requests(&others)[number];
                if asked.head.contains("/a") && !asked.head.starts_with("PUT") {
                    node.set("a", "100*off").unwrap();
                }
                let before = node.calls().unwrap();
                let status = status(addr, asked, is_chunked, left);
                let is_refused = LEFT.swap(NEVER, Ordering::SeqCst) < 0;
                let calls = node.calls().unwrap() - before;
                let is_call = asked.is_call && status == 200;
                assert_eq!(is_call, calls > 0, "{name} {} {status}", asked.head);
                statuses.push(status);
                is_refused
            });
            let head = requests(&others)[number].head;
            println!("{name}: {head}: {refused} refused");
            // What is answered where memory is there.
            let wanted = statuses[statuses.len() - 1];
            assert!(wanted != 0 && wanted != 503, "{head}: {wanted}");
            let is_one = |status: &u16| *status == wanted || *status == 503;
            assert!(statuses.iter().all(is_one), "{head}: {statuses:?}");
        }
        drop(serving);
        resumes(name, builder, &node);
    }
}

// The node's journal, if it has one, has each of its calls.
fn resumes(name: &str, builder: Builder, node: &Registry) {
    let (calls, list) = (node.calls().unwrap(), node.list().unwrap());
    node.close();
    if ["part", "buffered"].contains(&name) {
        let again = builder.build().unwrap();
        let told = (again.calls().unwrap(), again.list().unwrap());
        assert_eq!(told, (calls, list), "{name}");
    }
}

/// Node 0, which takes in messages in a thread of its own.
struct OtherNode {
    addr: SocketAddr,
    node: Arc<Registry>,
}

impl OtherNode {
    // It responds with this, and takes a message in if it responds 200.
    fn responding(response: impl Fn() -> &'static str + Send + 'static) -> OtherNode {
        let listener = TcpListener::bind("127.0.0.1:0").unwrap();
        let addr = listener.local_addr().unwrap();
        let node = Arc::new(Registry::open(0, 3, 100_000).unwrap());
        let its = node.clone();
        std::thread::spawn(move || {
            for stream in listener.incoming() {
                let mut stream = stream.unwrap();
                let response = response();
                // A sender without memory for its message hangs up.
                if let Some(message) = body_of(&mut stream)
                    && response.starts_with("HTTP/1.1 200")
                {
                    its.deliver(&message).unwrap();
                }
                _ = stream.write_all(response.as_bytes());
            }
        });
        OtherNode { addr, node }
    }
}

fn body_of(stream: &mut TcpStream) -> Option<Vec<u8>> {
    let (mut bytes, mut piece) = (Vec::new(), [0; 4_096]);
    loop {
        let end = bytes.windows(4).position(|it| it == b"\r\n\r\n");
        if let Some(end) = end {
            let head = std::str::from_utf8(&bytes[..end]).unwrap();
            let (_, length) = head.split_once("content-length: ").unwrap();
            if bytes.len() == end + 4 + length.parse::<usize>().unwrap() {
                return Some(bytes.split_off(end + 4));
            }
        }
        match stream.read(&mut piece) {
            Ok(read @ 1..) => bytes.extend_from_slice(&piece[..read]),
            Ok(_) | Err(_) => return None,
        }
    }
}

const TAKEN: &str = "HTTP/1.1 200 OK\r\n\r\nchanged";

/// Responses of a peer that fails.
const FAILING: [&str; 5] = [
    "HTTP/1.1 400 Bad Request\r\n\r\nN18 OwnAhead",
    "HTTP/1.1 400 Bad Request\r\n\r\nN16 BadMessage",
    "HTTP/1.1 503 Service Unavailable\r\n\r\n",
    "220 hello",
    "",
];

#[test]
fn a_message_whose_memory_is_refused_is_sent_later() {
    let _alone = alone();
    SMALLEST.store(0, Ordering::SeqCst);
    for (name, builder) in builders() {
        let node = Arc::new(builder.clone().build().unwrap());
        let is_failing = Arc::new(AtomicUsize::new(FAILING.len()));
        let its = is_failing.clone();
        let other = OtherNode::responding(move || {
            let failing = its.load(Ordering::SeqCst);
            FAILING.get(failing).copied().unwrap_or(TAKEN)
        });
        let peers = [Peer::new(0, other.addr)];
        let every = Duration::from_millis(1);
        let gossip = gossip(node.clone(), &peers, every).unwrap().share();
        let mut round = 0;
        for failing in 0..=FAILING.len() {
            let refused = with_each_refused(|left| {
                // The thread has started, and sent what there was.
                let before = format!("50*return({round}, {failing})");
                node.set("before", &before).unwrap();
                let is_same = || node.list() == other.node.list();
                assert!(comes(is_same), "{name}: {round}");
                // Node 0 has no right, and is given some in the next round.
                other.node.pass("before").unwrap();
                let passed = other.node.emit(1).unwrap();
                is_failing.store(failing, Ordering::SeqCst);
                // The line of the message is longer than the room that stays from the one before.
                let text = "y".repeat(900);
                let points = (0..40).map(|point| format!("after{point}=return({round}{text})"));
                let setting = points.collect::<Vec<_>>().join(";");
                let failures = || gossip.peers()[0].failures;
                let before = failures();
                LEFT.store(left, Ordering::SeqCst);
                node.load(&setting).unwrap();
                node.deliver(&passed).unwrap();
                if failing < FAILING.len() {
                    assert!(comes(|| failures() > before + 1), "{name}: {failing}");
                    is_failing.store(FAILING.len(), Ordering::SeqCst);
                }
                let has_rights = || other.node.rights("before", 0, 0).is_ok_and(|it| it > 0);
                assert!(comes(|| is_same() && has_rights()), "{name}: {round}");
                round += 1;
                LEFT.swap(NEVER, Ordering::SeqCst) < 0
            });
            println!("{name}, peer {failing}: {refused} refused");
            assert!(refused > 1);
        }
        gossip.stop();
        resumes(name, builder, &node);
    }
}

#[test]
fn a_line_without_memory_is_written_later_and_nothing_before_it() {
    let _alone = alone();
    let (name, builder) = builders().swap_remove(1);
    let node = Arc::new(builder.clone().build().unwrap());
    let other = OtherNode::responding(|| TAKEN);
    let peers = [Peer::new(0, other.addr)];
    let gossip = gossip(node.clone(), &peers, Duration::from_millis(1)).unwrap();
    // There is memory for the message of all these, and not for its line.
    SMALLEST.store(60_000, Ordering::SeqCst);
    LEFT.store(ALWAYS, Ordering::SeqCst);
    let text = "y".repeat(900);
    let points: Vec<_> = (0..40)
        .map(|point| format!("p{point}=return({text})"))
        .collect();
    node.load(&points.join(";")).unwrap();
    assert!(comes(|| gossip.peers()[0].failures > 2));
    let calls = node.calls().unwrap();
    let lines = || {
        std::fs::read_to_string(file_of(name))
            .unwrap()
            .lines()
            .count() as u64
            - 1
    };
    assert_eq!(
        (calls, lines()),
        (2, 1),
        "a load, and a message that nobody has"
    );
    // The history is needed, however often the node is looked at.
    (0..3_000).for_each(|_| assert_eq!(node.calls(), Ok(calls)));
    assert_eq!(other.node.list().unwrap(), "");
    // A call of a thread with memory writes the line first.
    node.set("q", "off").unwrap();
    assert!(lines() >= 3);
    LEFT.store(NEVER, Ordering::SeqCst);
    assert!(comes(|| node.list() == other.node.list()));
    gossip.stop();
    resumes(name, builder, &node);
}

#[test]
fn a_client_without_memory_for_its_thread_is_closed() {
    let _alone = alone();
    let node = Arc::new(Registry::builder().build().unwrap());
    let serving = serve(node, "127.0.0.1:0").unwrap();
    let listed = asked("GET /fail", "", false);
    // As much as a thread may take, and more than one does.
    SMALLEST.store(16_384, Ordering::SeqCst);
    for _ in 0..2 {
        LEFT.store(ALWAYS, Ordering::SeqCst);
        let mut stream = TcpStream::connect(serving.addr()).unwrap();
        let mut reply = Vec::new();
        assert!(stream.read_to_end(&mut reply).is_ok() && reply.is_empty());
        LEFT.store(NEVER, Ordering::SeqCst);
        assert_eq!(status(serving.addr(), &listed, false, NEVER), 200);
    }
}
