//! Requests that set points: the client receives the response, and then the points act.

mod clients;

use clients::{ask, comes};
use failreg::{Registry, serve};
use std::io::{BufRead, BufReader, Write};
use std::net::SocketAddr;
use std::process::{Command, Stdio};
use std::sync::Arc;
use std::sync::mpsc::{self, RecvTimeoutError};
use std::thread;
use std::time::{Duration, Instant};

fn open() -> Arc<Registry> {
    Arc::new(Registry::open(0, 1, 10_000_000).unwrap())
}

const SHORT: Duration = Duration::from_millis(200);

#[test]
fn a_point_acts_once_the_response_is_sent() {
    let node = open();
    node.set("p", "off").unwrap();
    let (act, acted) = mpsc::channel();
    let answered = node.answer_then("PUT", "/fail/p", b"return(now)", |reply| {
        assert_eq!(reply.status, 200);
        let evaluated = node.clone();
        let thread = thread::spawn(move || act.send(evaluated.eval("p")).unwrap());
        assert_eq!(acted.recv_timeout(SHORT), Err(RecvTimeoutError::Timeout));
        thread
    });
    answered.unwrap().join().unwrap();
    assert_eq!(acted.recv().unwrap(), Some(Some("now".to_string())));
    // Nothing waits any more.
    let begun = Instant::now();
    assert_eq!(node.eval("p"), Some(Some("now".to_string())));
    assert!(begun.elapsed() < SHORT);
}

#[test]
fn a_point_acts_after_one_second_at_the_latest() {
    let node = open();
    let begun = Instant::now();
    let took = node.answer_then("POST", "/load", b"p=return;q=off", |_| {
        assert_eq!(node.eval("p"), Some(None));
        let took = begun.elapsed();
        // The second evaluation doesn't wait again.
        assert_eq!(node.eval("p"), Some(None));
        assert!(begun.elapsed() < took + SHORT);
        took
    });
    let took = took.unwrap();
    assert!(took >= Duration::from_millis(900) && took < Duration::from_secs(5));
}

#[test]
fn reads_transfers_and_rejected_requests_hold_no_point_up() {
    let node = open();
    node.set("p", "9*return").unwrap();
    let requests = [
        ("GET", "/fail", ""),
        ("GET", "/status", ""),
        ("POST", "/grant/p/0/1", ""),
        ("PUT", "/fail/p", "fly"),
        ("POST", "/gossip", "none"),
    ];
    for (method, path, body) in requests {
        let begun = Instant::now();
        let evaluated = node.answer_then(method, path, body.as_bytes(), |_| node.eval("p"));
        assert_eq!(evaluated.unwrap(), Some(None), "{method} {path}");
        assert!(begun.elapsed() < SHORT, "{method} {path}");
    }
}

#[test]
fn a_panic_of_the_sender_holds_no_point_up() {
    let node = open();
    let sent = std::panic::catch_unwind(|| {
        let _ = node.answer_then("PUT", "/fail/p", b"return", |_| panic!("the sender's"));
    });
    assert!(sent.is_err());
    let begun = Instant::now();
    assert_eq!(node.eval("p"), Some(None));
    assert!(begun.elapsed() < SHORT);
}

// The child is a process of this program that runs this test alone.

const CHILD: &str = "FAILREG_TEST_SENDING";

#[test]
fn child() {
    if std::env::var_os(CHILD).is_none() {
        return;
    }
    std::panic::set_hook(Box::new(|_| std::process::abort()));
    let node = open();
    // Else a panic that the point causes is the first thing that anybody sees of it.
    node.set("p", "off").unwrap();
    for _ in 0..3 {
        let node = node.clone();
        thread::spawn(move || {
            loop {
                node.eval("p");
            }
        });
    }
    let serving = serve(node, "127.0.0.1:0").unwrap();
    println!("at {}", serving.addr());
    std::io::stdout().flush().unwrap();
    thread::sleep(Duration::from_secs(60));
}

// Starts a child, and returns it with its address.
fn child_at() -> (std::process::Child, SocketAddr) {
    let mut child = Command::new(std::env::current_exe().unwrap())
        .args(["--exact", "child", "--nocapture"])
        .env(CHILD, "1")
        .stdout(Stdio::piped())
        .stderr(Stdio::null())
        .spawn()
        .unwrap();
    let lines = BufReader::new(child.stdout.take().unwrap()).lines();
    let mut words = lines.map_while(Result::ok);
    let line = words.find_map(|line| {
        line.split_once("at 127.")
            .map(|(_, rest)| format!("127.{rest}"))
    });
    (child, line.expect("its address").parse().unwrap())
}

#[test]
fn a_request_that_ends_the_program_is_answered() {
    for _ in 0..50 {
        let (mut child, addr) = child_at();
        let (status, version) = ask(addr, "PUT", "/fail/p", "panic");
        assert_eq!((status, &version[..]), (200, "2.0"));
        assert!(comes(|| child.try_wait().unwrap().is_some()), "it stays");
    }
}
