//! What a served node keeps of a body is bounded by what its route needs, and the response is as if it
//! kept all of it. The memory of this program is measured, so one test runs at a time.

#![cfg(all(feature = "failpoints", target_os = "linux"))]

mod clients;

use clients::rest_of;
use failreg::{Registry, Serving, serve};
use std::io::Write;
use std::net::{SocketAddr, TcpStream};
use std::sync::{Arc, Mutex, MutexGuard};

const MIB: usize = 1 << 20;

/// The longest body.
const LONGEST: usize = 64 * MIB;

fn alone() -> MutexGuard<'static, ()> {
    static ONE: Mutex<()> = Mutex::new(());
    ONE.lock().unwrap_or_else(|poisoned| poisoned.into_inner())
}

fn served() -> (Arc<Registry>, Serving, SocketAddr) {
    let node = Arc::new(Registry::open(0, 3, 1_000_000).unwrap());
    let serving = serve(node.clone(), "127.0.0.1:0").unwrap();
    let addr = serving.addr();
    (node, serving, addr)
}

/// The most memory that this process has had, in bytes.
fn most_memory() -> usize {
    let status = std::fs::read_to_string("/proc/self/status").unwrap();
    let line = status.lines().find(|line| line.starts_with("VmHWM:"));
    let kilobytes = line.and_then(|line| line.split_whitespace().nth(1));
    kilobytes.unwrap().parse::<usize>().unwrap() * 1024
}

// Sends a body of this many of these bytes, and returns the response.
fn send(addr: SocketAddr, line: &str, byte: u8, length: usize, is_chunked: bool) -> String {
    let mut stream = TcpStream::connect(addr).unwrap();
    let field = match is_chunked {
        true => "Transfer-Encoding: chunked".to_string(),
        false => format!("Content-Length: {length}"),
    };
    let head = format!("{line} HTTP/1.1\r\nHost: localhost\r\n{field}\r\n\r\n");
    let mut sent = stream.write_all(head.as_bytes());
    let piece = vec![byte; MIB];
    let mut left = length;
    // It fails if the node has responded and closed.
    while left > 0 && sent.is_ok() {
        let piece = &piece[..left.min(MIB)];
        left -= piece.len();
        if is_chunked {
            sent = stream.write_all(format!("{:x}\r\n", piece.len()).as_bytes());
        }
        sent = sent.and_then(|()| stream.write_all(piece));
        if is_chunked {
            sent = sent.and_then(|()| stream.write_all(b"\r\n"));
        }
    }
    if is_chunked {
        _ = stream.write_all(b"0\r\n\r\n");
    }
    rest_of(&mut stream)
}

#[test]
fn the_longest_bodies_take_no_memory() {
    let _alone = alone();
    let (node, _serving, addr) = served();
    let requests = [
        ("PUT /fail/a", b'x', "400", "A1 TooLong"),
        ("PUT /fail/a", 0xff, "400", "bad text"),
        ("PUT /spread/a", b'x', "400", "A1 TooLong"),
        ("POST /load", b'x', "400", "S1 TooLong"),
        ("POST /load", 0xc3, "400", "bad text"),
        ("POST /hello", b'0', "400", "another node of this cluster"),
        ("POST /hello", b'1', "400", "another node of this cluster"),
        ("POST /grant/a/0/1", b'x', "409", "N6 NotSet"),
        ("DELETE /fail/a", 0xff, "200", "."),
        ("GET /fail", 0xff, "200", ""),
        ("GET /report", b'x', "200", "]"),
        ("GET /nowhere", b'x', "404", "not found"),
        ("POST /fail/a", b'x', "405", "bad method"),
    ];
    // What threads and pieces take.
    send(addr, "PUT /fail/a", b'x', MIB, true);
    let before = most_memory();
    for (line, byte, status, text) in requests {
        for is_chunked in [false, true] {
            // Each of its zeros is looked at, which takes a while without optimization.
            let length = if byte == b'0' { 4 * MIB } else { LONGEST };
            let reply = send(addr, line, byte, length, is_chunked);
            assert_eq!(reply.get(9..12), Some(status), "{line}: {reply}");
            assert!(reply.contains(text), "{line}: {reply}");
        }
    }
    let grown = most_memory() - before;
    assert!(grown < 4 * MIB, "{grown} bytes more");
    let reply = send(addr, "PUT /fail/a", b'x', LONGEST + 1, false);
    assert_eq!(reply.get(9..12), Some("413"), "{reply}");
    assert_eq!(node.list().unwrap(), "");
}

#[test]
fn a_body_that_is_kept_in_part_is_answered_as_the_whole() {
    let _alone = alone();
    let (_node, _serving, addr) = served();
    let other = Registry::open(0, 3, 1_000_000).unwrap();
    let characters = ["x", "\u{e9}", "\u{20ac}", "\u{1f680}"];
    let bad = [&b""[..], b"\xff", b"\xe2\x82", b"\xf0\x9f\x9a", b"\x80"];
    for (method, path, most) in [
        ("PUT", "/fail/a", 1_024_usize),
        ("PUT", "/spread/b", 1_024),
        ("PUT", "/fail/no:name!", 1_024),
        ("POST", "/load", 65_536),
    ] {
        for length in [0, 1, most - 20].into_iter().chain(most - 3..most + 8) {
            for (character, bad) in characters.into_iter().flat_map(|c| bad.map(|b| (c, b))) {
                // An action that is accepted if it is short enough.
                let front = if path == "/load" { "a=" } else { "" };
                let front = format!("{front}return(");
                let room = length.saturating_sub(front.len() + 1);
                let mut body = front.into_bytes();
                body.extend("x".repeat(room % character.len()).bytes());
                body.extend(character.repeat(room / character.len()).bytes());
                body.extend(b")");
                body.extend(bad);
                let wanted = other.answer(method, path, &body).unwrap();
                let line = format!("{method} {path}");
                let mut stream = TcpStream::connect(addr).unwrap();
                let head = format!(
                    "{line} HTTP/1.1\r\nHost: localhost\r\nContent-Length: {}\r\n\r\n",
                    body.len()
                );
                stream.write_all(head.as_bytes()).unwrap();
                let (front, behind) = body.split_at(body.len() / 2);
                stream.write_all(front).unwrap();
                std::thread::yield_now();
                stream.write_all(behind).unwrap();
                let reply = rest_of(&mut stream);
                let (head, text) = reply.split_once("\r\n\r\n").unwrap();
                let told = (head[9..12].parse(), text.as_bytes());
                assert_eq!(
                    told,
                    (Ok(wanted.status), &wanted.body[..]),
                    "{line} {length}"
                );
            }
        }
    }
}
