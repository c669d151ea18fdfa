//! Clients of served nodes. Not every test uses all of them.

#![allow(dead_code)]

use std::io::{Read, Write};
use std::net::{SocketAddr, TcpStream};
use std::time::{Duration, Instant};

/// A node's response: the status and the body.
pub fn ask(addr: SocketAddr, method: &str, path: &str, body: &str) -> (u16, String) {
    let length = body.len();
    let head = format!(
        "{method} {path} HTTP/1.1\r\nHost: {addr}\r\nContent-Length: {length}\r\n\r\n{body}"
    );
    let reply = raw(addr, head.as_bytes());
    let (head, body) = reply.split_once("\r\n\r\n").expect("a reply has a head");
    (head[9..12].parse().expect("a status"), body.to_string())
}

/// Everything that a node sends to a client that sends these bytes and no end; nothing if it just
/// closes.
pub fn raw(addr: SocketAddr, bytes: &[u8]) -> String {
    let mut stream = TcpStream::connect(addr).expect("somebody listens");
    // It fails if the node has responded and closed before everything was sent.
    let _ = stream.write_all(bytes);
    rest_of(&mut stream)
}

/// Everything that a node sends until it closes.
pub fn rest_of(stream: &mut TcpStream) -> String {
    stream
        .set_read_timeout(Some(Duration::from_secs(20)))
        .expect("a timeout");
    let mut reply = Vec::new();
    match stream.read_to_end(&mut reply) {
        Err(error) if error.kind() == std::io::ErrorKind::WouldBlock => panic!("it stays"),
        _ => String::from_utf8(reply).expect("a reply is a text"),
    }
}

/// Whether it happens within ten seconds.
pub fn comes(mut it: impl FnMut() -> bool) -> bool {
    let end = Instant::now() + Duration::from_secs(10);
    while Instant::now() < end {
        if it() {
            return true;
        }
        std::thread::sleep(Duration::from_millis(5));
    }
    false
}
