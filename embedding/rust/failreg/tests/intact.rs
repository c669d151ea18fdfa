//! Messages of which a bit was changed on the way: the receiver rejects them, and continues.

#![cfg(unix)]

mod clients;

use clients::{comes, raw};
use failreg::{Peer, Registry, gossip, serve};
use std::fs;
use std::io::{Read, Write};
use std::net::{Shutdown, SocketAddr, TcpListener, TcpStream};
use std::os::unix::fs::PermissionsExt;
use std::path::{Path, PathBuf};
use std::sync::Arc;
use std::sync::atomic::{AtomicU64, Ordering};
use std::thread;
use std::time::Duration;

const EVERY: Duration = Duration::from_millis(10);

fn node(number: u8, key: Option<&Path>) -> Arc<Registry> {
    let builder = Registry::builder().node(number).nodes(2).cap(1_000_000);
    let builder = match key {
        Some(path) => builder.key_file(path),
        None => builder,
    };
    Arc::new(builder.build().unwrap())
}

// A file with a key, which only its owner may read.
fn key_file(name: &str) -> PathBuf {
    let path = Path::new(env!("CARGO_TARGET_TMPDIR")).join(format!("intact_{name}"));
    fs::write(&path, [0x3c; 40]).unwrap();
    fs::set_permissions(&path, PermissionsExt::from_mode(0o600)).unwrap();
    path
}

// Reads a request: its head, and the body that the head announces.
fn request(stream: &mut TcpStream) -> Option<(String, Vec<u8>)> {
    let mut bytes = Vec::new();
    let end = loop {
        let mut piece = [0; 4_096];
        match stream.read(&mut piece) {
            Ok(0) | Err(_) => return None,
            Ok(read) => bytes.extend_from_slice(&piece[..read]),
        }
        if let Some(end) = bytes.windows(4).position(|it| it == b"\r\n\r\n") {
            break end + 4;
        }
    };
    let head = String::from_utf8(bytes[..end].to_vec()).unwrap();
    let length = head
        .lines()
        .find_map(|it| it.strip_prefix("content-length: "));
    let length: usize = length.unwrap().parse().unwrap();
    while bytes.len() < end + length {
        let mut piece = [0; 4_096];
        match stream.read(&mut piece) {
            Ok(0) | Err(_) => return None,
            Ok(read) => bytes.extend_from_slice(&piece[..read]),
        }
    }
    Some((head, bytes[end..].to_vec()))
}

// The request by which a node sends what it knows to the other one.
fn message_of(node: &Arc<Registry>) -> (String, Vec<u8>) {
    let listener = TcpListener::bind("127.0.0.1:0").unwrap();
    let addr = listener.local_addr().unwrap();
    let telling = gossip(node.clone(), &[Peer::new(1, addr)], EVERY).unwrap();
    let message = request(&mut listener.accept().unwrap().0).unwrap();
    telling.stop();
    message
}

fn answer(addr: SocketAddr, head: &str, body: &[u8]) -> (String, String) {
    let mut bytes = head.as_bytes().to_vec();
    bytes.extend_from_slice(body);
    let reply = raw(addr, &bytes);
    let (head, body) = reply.split_once("\r\n\r\n").expect("a reply has a head");
    (head[9..12].to_string(), body.to_string())
}

fn without(head: &str, name: &str) -> String {
    let lines = head.split_inclusive("\r\n");
    lines.filter(|line| !line.starts_with(name)).collect()
}

// The same head, with another digit at the end of a field.
fn altered(head: &str, name: &str) -> String {
    let lines = head
        .split_inclusive("\r\n")
        .map(|line| match line.starts_with(name) {
            true => {
                let digit = &line[name.len() + 12..name.len() + 13];
                let other = if digit == "0" { "1" } else { "0" };
                let (front, back) = line.split_at(name.len() + 12);
                format!("{front}{other}{}", &back[1..])
            }
            false => line.to_string(),
        });
    lines.collect()
}

fn bad() -> (String, String) {
    ("400".into(), "bad digest".into())
}

#[test]
fn a_changed_bit_is_seen() {
    let sender = node(0, None);
    sender.set("disk", "5*panic->off").unwrap();
    let (head, body) = message_of(&sender);
    assert!(head.contains("content-digest: sha-256=:"), "{head}");
    assert!(!head.contains("failreg-mac"), "{head}");
    let receiver = node(1, None);
    let serving = serve(receiver.clone(), "127.0.0.1:0").unwrap();
    let addr = serving.addr();
    for at in 0..8 * body.len() {
        let mut other = body.clone();
        other[at / 8] ^= 1 << (at % 8);
        assert_eq!(answer(addr, &head, &other), bad(), "bit {at}");
    }
    assert_eq!(
        answer(addr, &altered(&head, "content-digest"), &body),
        bad()
    );
    assert_eq!(receiver.calls(), Ok(0), "the node was asked nothing");
    // Other algorithms say nothing, and a message without a digest is taken.
    let other = head.replace("sha-256=", "sha-512=");
    assert_eq!(answer(addr, &other, &body).1, "changed");
    let none = without(&head, "content-digest");
    assert_eq!(answer(addr, &none, &body), ("200".into(), "same".into()));
    assert_eq!(answer(addr, &head, &body), ("200".into(), "same".into()));
    assert!(receiver.is_set("disk"));
}

#[test]
fn with_a_key_a_message_has_its_code() {
    let path = key_file("code");
    let sender = node(0, Some(&path));
    sender.set("disk", "5*panic->off").unwrap();
    let (head, body) = message_of(&sender);
    let receiver = node(1, Some(&path));
    let serving = serve(receiver.clone(), "127.0.0.1:0").unwrap();
    let addr = serving.addr();
    let code = head
        .split_inclusive("\r\n")
        .find(|it| it.starts_with("failreg-mac"));
    let twice = head.replace(code.unwrap(), &code.unwrap().repeat(2));
    for other in [
        without(&head, "failreg-mac"),
        altered(&head, "failreg-mac"),
        twice,
    ] {
        assert_eq!(answer(addr, &other, &body), bad(), "{other}");
    }
    let mut other = body.clone();
    other[40] ^= 1;
    assert_eq!(
        answer(addr, &without(&head, "content-digest"), &other),
        bad()
    );
    assert_eq!(receiver.calls(), Ok(0), "the node was asked nothing");
    let none = without(&head, "content-digest");
    assert_eq!(answer(addr, &none, &body), ("200".into(), "changed".into()));
    fs::remove_file(path).unwrap();
}

// Forwards each connection to a node, and changes a bit of every tenth body.
fn proxy(to: SocketAddr, changed: Arc<AtomicU64>) -> SocketAddr {
    let listener = TcpListener::bind("127.0.0.1:0").unwrap();
    let addr = listener.local_addr().unwrap();
    thread::spawn(move || {
        let mut bits = 1_u64;
        for (number, stream) in listener.incoming().enumerate() {
            let mut client = stream.unwrap();
            let Some((head, mut body)) = request(&mut client) else {
                continue;
            };
            if number % 10 == 3 && !body.is_empty() {
                bits = bits.wrapping_mul(6_364_136_223_846_793_005).wrapping_add(1);
                let at = (bits >> 33) as usize % (8 * body.len());
                body[at / 8] ^= 1 << (at % 8);
                changed.fetch_add(1, Ordering::SeqCst);
            }
            let Ok(mut server) = TcpStream::connect(to) else {
                continue;
            };
            let sent = server
                .write_all(head.as_bytes())
                .and_then(|()| server.write_all(&body));
            let mut reply = Vec::new();
            if sent.is_ok() && server.read_to_end(&mut reply).is_ok() {
                let _ = client.write_all(&reply);
            }
            let _ = client.shutdown(Shutdown::Write);
        }
    });
    addr
}

// Two nodes whose messages lose a bit now and then use a count up, and no node stops.
fn uses_its_count_up(key: Option<&Path>) {
    let nodes = [node(0, key), node(1, key)];
    let servings = nodes.clone().map(|it| serve(it, "127.0.0.1:0").unwrap());
    let changed = Arc::new(AtomicU64::new(0));
    let tells = [(0, 1_u8), (1, 0)].map(|(from, to): (usize, u8)| {
        let addr = proxy(servings[usize::from(to)].addr(), changed.clone());
        gossip(nodes[from].clone(), &[Peer::new(to, addr)], EVERY).unwrap()
    });
    nodes[0].set("p", "40*return(x)->off").unwrap();
    let mut fired = 0;
    for round in 0..400 {
        nodes[0].spread("p").ok();
        for it in &nodes {
            fired += u32::from(it.eval("p").is_some_and(|text| text.is_some()));
        }
        if fired == 40 && changed.load(Ordering::SeqCst) >= 5 {
            break;
        }
        // Something new to send, so that messages continue.
        nodes[round % 2].set("other", "off").unwrap();
        thread::sleep(EVERY);
    }
    assert_eq!(fired, 40);
    assert!(comes(|| changed.load(Ordering::SeqCst) >= 5));
    assert!(comes(|| nodes.iter().all(|it| it.spent("p", 0) == Ok(40))));
    drop(tells);
    for it in nodes {
        assert_eq!(it.set("last", "off").map(drop), Ok(()), "no node stopped");
    }
}

#[test]
fn a_bit_that_changes_stops_nobody() {
    uses_its_count_up(None);
}

#[test]
fn with_a_key_a_bit_that_changes_stops_nobody() {
    let path = key_file("stops");
    uses_its_count_up(Some(&path));
    fs::remove_file(path).unwrap();
}
