//! Registries whose clients and peers need a key.

#![cfg(unix)]

mod clients;

use clients::{comes, raw};
use failreg::{ErrorKind, Gossip, Peer, Registry, gossip, serve};
use std::fs;
use std::net::{IpAddr, Ipv4Addr, SocketAddr, TcpStream};
use std::os::unix::fs::PermissionsExt;
use std::path::{Path, PathBuf};
use std::sync::Arc;
use std::time::Duration;

const EVERY: Duration = Duration::from_millis(20);

// A file of these bytes, which only its owner may read.
fn key_file(name: &str, bytes: &[u8]) -> PathBuf {
    let path = Path::new(env!("CARGO_TARGET_TMPDIR")).join(format!("key_{name}"));
    fs::write(&path, bytes).unwrap();
    fs::set_permissions(&path, PermissionsExt::from_mode(0o600)).unwrap();
    path
}

fn hex(bytes: &[u8]) -> String {
    bytes.iter().map(|byte| format!("{byte:02x}")).collect()
}

fn with_key(number: u8, nodes: u8, path: &Path) -> Arc<Registry> {
    let builder = Registry::builder().node(number).nodes(nodes).cap(100_000);
    Arc::new(builder.key_file(path).build().unwrap())
}

// Returns a node's response to a request with these fields: the status and the body.
fn ask(addr: SocketAddr, line: &str, fields: &str, body: &str) -> (u16, String) {
    let length = body.len();
    let text = format!(
        "{line} HTTP/1.1\r\nHost: {addr}\r\nContent-Length: {length}\r\n{fields}\r\n{body}"
    );
    let reply = raw(addr, text.as_bytes());
    let (head, body) = reply.split_once("\r\n\r\n").expect("a reply has a head");
    (head[9..12].parse().expect("a status"), body.to_string())
}

const ROUTES: [(&str, &str); 13] = [
    ("PUT /fail/a", "off"),
    ("DELETE /fail/a", ""),
    ("GET /fail", ""),
    ("POST /load", "a=off"),
    ("POST /shift/a/0/1/1", ""),
    ("POST /grant/a/0/1", ""),
    ("PUT /spread/a", "2*off"),
    ("POST /spread/a", ""),
    ("GET /report", ""),
    ("GET /status", ""),
    ("POST /gossip", "none"),
    ("GET /nope", ""),
    ("PATCH /fail", ""),
];

#[test]
fn who_has_no_key_is_not_let_in() {
    let bytes: Vec<u8> = (1..=32).collect();
    let path = key_file("let_in", &bytes);
    let builder = Registry::builder().nodes(2).cap(100_000).key_file(&path);
    let served = builder.listen((Ipv4Addr::UNSPECIFIED, 0)).unwrap();
    let addr = (Ipv4Addr::LOCALHOST, served.serving().addr().port()).into();
    let key = hex(&bytes);
    let has = format!("Authorization: Bearer {key}\r\n");
    let text = "missing or wrong key: send Authorization: Bearer and the key in hex".to_string();
    for (line, body) in ROUTES {
        for fields in [
            String::new(),
            format!("Authorization: Bearer {}\r\n", &key[..63]),
            format!("Authorization: Bearer {}1\r\n", &key[..63]),
            format!("Authorization: Basic {key}\r\n"),
            format!("Authorization: {key}\r\n"),
            format!("X-Authorization: Bearer {key}\r\n"),
            format!("{has}{has}"),
        ] {
            let told = ask(addr, line, &fields, body);
            assert_eq!(told, (401, text.clone()), "{line} {fields}");
        }
    }
    assert_eq!(
        served.registry().calls(),
        Ok(0),
        "the node was asked nothing"
    );
    // The page asks for the key, so it needs none, and doesn't reach the node.
    let (status, page) = ask(addr, "GET /", "", "");
    assert_eq!(status, 200);
    assert!(page.starts_with("<!DOCTYPE html>"), "{page:.40}");
    assert_eq!(ask(addr, "POST /", "", "").0, 401);
    // It doesn't wait for a body.
    let head = format!("POST /load HTTP/1.1\r\nHost: {addr}\r\nContent-Length: 9000000\r\n\r\n");
    assert_eq!(&raw(addr, head.as_bytes())[9..12], "401");
    assert_eq!(ask(addr, "PUT /fail/a", &has, "2*off"), (200, "1.0".into()));
    assert_eq!(served.rights("a", 0, 0), Ok(2));
    fs::remove_file(path).unwrap();
}

fn tells(node: &Arc<Registry>, to: u8, addr: SocketAddr) -> Gossip {
    gossip(node.clone(), &[Peer::new(to, addr)], EVERY).unwrap()
}

#[test]
fn nodes_with_one_key_tell_each_other() {
    let path = key_file("told", &[0xa5; 40]);
    let other = key_file("other", &[0xa6; 40]);
    let node = with_key(1, 3, &path);
    let serving = serve(node.clone(), "127.0.0.1:0").unwrap();
    let addr = serving.addr();
    // With another key, and without one, no request succeeds.
    let foreign = [
        with_key(0, 3, &other),
        Arc::new(Registry::open(0, 3, 100).unwrap()),
    ];
    for foreign in foreign {
        foreign.set("p", "3*off").unwrap();
        let telling = tells(&foreign, 1, addr);
        assert!(comes(|| telling.peers()[0].failures > 0));
        let failure = telling.peers()[0].failure.clone().unwrap();
        assert_eq!(failure.what, "it answered with status 401");
    }
    assert!(!node.is_set("p"));
    let same = with_key(2, 3, &path);
    same.set("q", "2*off").unwrap();
    let telling = tells(&same, 1, addr);
    assert!(comes(|| node.is_set("q")), "{:?}", telling.peers());
    for path in [path, other] {
        fs::remove_file(path).unwrap();
    }
}

#[test]
fn a_key_is_read_from_a_file_of_its_owner() {
    let path = key_file("mode", &[9; 32]);
    let build = || Registry::builder().key_file(&path).build();
    assert!(build().is_ok());
    let shown = format!("{:?} {:?}", Registry::builder().key_file(&path), build());
    assert!(!shown.contains("0909"), "{shown}");
    fs::set_permissions(&path, PermissionsExt::from_mode(0o640)).unwrap();
    let error = build().unwrap_err();
    assert_eq!(error.kind(), ErrorKind::BadKey);
    assert!(error.to_string().contains("its mode is 0640: "), "{error}");
    fs::remove_file(&path).unwrap();
    assert_eq!(build().unwrap_err().kind(), ErrorKind::BadKey);
    // Then nobody listens.
    let listening = Registry::builder().key_file(&path).listen("0.0.0.0:0");
    assert_eq!(listening.unwrap_err().kind(), ErrorKind::BadKey);
    let listening = Registry::builder().listen("0.0.0.0:0");
    assert_eq!(listening.unwrap_err().kind(), ErrorKind::NotLocal);
    let served = Registry::builder().listen("127.0.0.1:0").unwrap();
    let addr = served.serving().addr();
    assert_eq!(addr.ip(), IpAddr::V4(Ipv4Addr::LOCALHOST));
    assert_eq!(ask(addr, "GET /fail", "", "").0, 200);
    drop(served);
    assert!(TcpStream::connect(addr).is_err());
}
