//! Registries that are served over HTTP, with well-behaved clients and adversarial ones.

mod clients;

use clients::{ask, comes, raw, rest_of};
use failreg::{ErrorKind, OnRefusal, Registry, Reply, Serving, serve, write_drill};
use std::io::{Read, Write};
use std::net::{SocketAddr, TcpListener, TcpStream};
use std::path::Path;
use std::process::Command;
use std::sync::Arc;
use std::sync::atomic::{AtomicBool, Ordering};
use std::thread;
use std::time::{Duration, Instant};

fn open(number: u8, nodes: u8) -> Arc<Registry> {
    let builder = Registry::builder().node(number).nodes(nodes).cap(100_000);
    Arc::new(builder.recording(true).build().unwrap())
}

fn served(nodes: u8) -> (Arc<Registry>, Serving, SocketAddr) {
    let node = open(0, nodes);
    let serving = serve(node.clone(), "127.0.0.1:0").unwrap();
    let addr = serving.addr();
    (node, serving, addr)
}

// The status of a response, or 0 without one.
fn status_of(reply: &str) -> u16 {
    reply.get(9..12).map_or(0, |digits| digits.parse().unwrap())
}

const REQUESTS: [(&str, &str, &str, u16, &str); 24] = [
    ("PUT", "/fail/a", "3*return(x)->off", 200, "1.0"),
    ("GET", "/fail", "", 200, "a=3*return(x)->off"),
    ("GET", "/fail/?all", "", 200, "a=3*return(x)->off"),
    ("POST", "/grant/a/0/2", "", 200, "2"),
    ("POST", "/shift/a/00/1/04", "", 200, "4"),
    ("POST", "/shift/a/0/1/4", "", 409, "N11 TooFewRights have=1"),
    ("POST", "/grant/b/0/1", "", 409, "N6 NotSet"),
    ("POST", "/load", "b=off;c=print", 200, "2"),
    ("POST", "/load", "", 200, "0"),
    ("DELETE", "/fail/b", "", 200, "4.0"),
    ("DELETE", "/fail/never", "", 200, "5.0"),
    (
        "PUT",
        "/fail/a",
        "fly",
        400,
        "N3 BadActions A7 UnknownTask term=0",
    ),
    ("PUT", "/fail/a!", "off", 400, "N2 BadName"),
    ("POST", "/shift/a/0/1/x", "", 400, "bad number"),
    ("POST", "/grant/a/256/1", "", 400, "bad number"),
    (
        "POST",
        "/gossip",
        "none",
        400,
        "N16 BadMessage W1 Magic offset=0",
    ),
    ("GET", "/nope", "", 404, "not found"),
    ("GET", "/fail/a/b", "", 404, "not found"),
    ("PUT", "/report", "", 405, "bad method"),
    ("POST", "/status", "", 405, "bad method"),
    ("GET", "/fail/a", "", 405, "bad method"),
    ("POST", "/", "", 405, "bad method"),
    ("put", "/fail/a", "off", 405, "bad method"),
    ("HEAD", "/report", "", 405, ""),
];

fn ask_all(addr: SocketAddr) {
    for (method, path, body, status, told) in REQUESTS {
        let wanted = (status, told.to_string());
        assert_eq!(ask(addr, method, path, body), wanted, "{method} {path}");
    }
}

#[test]
fn each_request_is_answered() {
    let (node, serving, addr) = served(2);
    ask_all(addr);
    let other = open(1, 2);
    other.set("m", "return(told)").unwrap();
    let message = other.emit(0).unwrap();
    for told in ["changed", "same"] {
        let reply = node.answer("POST", "/gossip", &message).unwrap();
        let body = told.as_bytes().to_vec();
        assert_eq!(reply, Reply { status: 200, body });
    }
    // A program's own server may pass a body of any length.
    let reply = node
        .answer("POST", "/gossip", &vec![0; 67_108_865])
        .unwrap();
    assert_eq!(
        (reply.status, reply.body.as_slice()),
        (413, &b"too long"[..])
    );
    let (status, report) = ask(addr, "GET", "/report", "");
    assert!(status == 200 && report.starts_with("[{\"actions\":\"3*return(x)->off\","));
    let (status, told) = ask(addr, "GET", "/status", "");
    assert!(
        status == 200 && told.starts_with("{\"node\":{\"calls\":\"9\",\"cap\":\""),
        "{told}"
    );
    assert!(
        told.contains("\"granted\":[\"2\",\"0\"],\"rights\":[\"1\",\"4\"],\"spent\":[\"0\",\"0\"]"),
        "{told}"
    );
    let (_, peers) = told.split_once(",\"version\":\"0.2.0\"},").expect(&told);
    assert!(peers.starts_with("\"peers\":[{\"heard\":\""), "{told}");
    assert!(
        peers.ends_with("\",\"node\":\"1\",\"refused\":{}}]}"),
        "{told}"
    );
    // Threads see what requests set.
    let told = |name| node.eval(name);
    assert_eq!(told("a"), Some(Some("x".into())));
    assert_eq!(told("m"), Some(Some("told".into())));
    assert_eq!(
        (told("b"), node.is_set("b"), node.is_set("c")),
        (None, false, true)
    );
    serving.stop();
    assert!(TcpStream::connect(addr).is_err(), "nobody listens any more");
}

#[test]
fn an_operator_gets_the_page() {
    let (_node, _serving, addr) = served(1);
    let reply = raw(addr, b"GET / HTTP/1.1\r\nHost: localhost\r\n\r\n");
    let (head, page) = reply.split_once("\r\n\r\n").unwrap();
    for field in [
        "content-type: text/html; charset=utf-8",
        "content-security-policy: default-src 'none'; script-src 'sha256-",
        "x-content-type-options: nosniff",
        "cache-control: no-store",
        "referrer-policy: no-referrer",
    ] {
        assert!(head.contains(&format!("\r\n{field}")), "{field}: {head}");
    }
    assert!(page.starts_with("<!DOCTYPE html>") && page.ends_with("</html>\n"));
}

// Returns the response to a request with these fields after its Host.
fn get(addr: SocketAddr, path: &str, fields: &str) -> String {
    let head = format!("GET {path} HTTP/1.1\r\nHost: localhost\r\n{fields}\r\n");
    raw(addr, head.as_bytes())
}

// The tag of a response, if it has one, and the body.
fn tag_and_body(reply: &str) -> (Option<&str>, &str) {
    let (head, body) = reply.split_once("\r\n\r\n").unwrap();
    let tag = head.lines().find_map(|line| line.strip_prefix("etag: "));
    (tag, body)
}

#[test]
fn the_status_alone_has_a_tag() {
    let (_node, _serving, addr) = served(2);
    let reply = get(addr, "/status", "");
    let (tag, body) = tag_and_body(&reply);
    let quoted = tag.and_then(|tag| tag.strip_prefix('"')?.strip_suffix('"'));
    let digits = quoted.expect("it is between quotes");
    let is_hex = |b: u8| b.is_ascii_digit() || (b'a'..=b'f').contains(&b);
    assert!(digits.len() == 64 && digits.bytes().all(is_hex), "{digits}");
    assert!(reply.starts_with("HTTP/1.1 200 OK\r\n") && body.starts_with("{\"node\":"));
    let any = "If-None-Match: *\r\n";
    for (path, status) in [
        ("/report", 200),
        ("/fail", 200),
        ("/", 200),
        ("/status/", 404),
    ] {
        let other = get(addr, path, any);
        assert_eq!((status_of(&other), tag_and_body(&other).0), (status, None));
    }
    // A client without access gets the reason, whatever its tag.
    let foreign = get(addr, "/status", &format!("Origin: null\r\n{any}"));
    assert_eq!((status_of(&foreign), tag_and_body(&foreign).0), (403, None));
}

#[test]
fn who_has_the_status_is_not_sent_it_again() {
    let (node, _serving, addr) = served(2);
    let first = get(addr, "/status", "");
    let (tag, body) = tag_and_body(&first);
    let has = format!("If-None-Match: {}\r\n", tag.unwrap());
    for fields in [has.as_str(), "If-None-Match: *\r\n"] {
        let reply = get(addr, "/status", fields);
        assert_eq!((status_of(&reply), tag_and_body(&reply)), (304, (tag, "")));
        assert!(!reply.contains("content"), "{reply}");
    }
    let reply = get(addr, "/status", "If-None-Match: \"another\"\r\n");
    assert_eq!(
        (status_of(&reply), tag_and_body(&reply)),
        (200, (tag, body))
    );
    node.set("p", "2*off").unwrap();
    let second = get(addr, "/status", &has);
    let (later, body) = tag_and_body(&second);
    assert!(later != tag && body.contains("\"name\":\"p\""), "{second}");
    let has = format!("If-None-Match: {}\r\n", later.unwrap());
    assert_eq!(status_of(&get(addr, "/status", &has)), 304);
}

// Returns what an audit of a recording with this name prints.
fn audit(name: &str, nodes: &[&Registry]) -> String {
    let path = Path::new(env!("CARGO_TARGET_TMPDIR")).join(name);
    let mut file = std::fs::File::create(&path).unwrap();
    write_drill(nodes, &mut file).unwrap();
    let program = std::env::var_os("FAILREG_PROGRAM").expect("FAILREG_PROGRAM is a path");
    let ran = Command::new(program)
        .arg("audit")
        .arg(path)
        .output()
        .unwrap();
    String::from_utf8(ran.stdout).unwrap()
}

#[test]
#[ignore = "it takes the program failreg, as FAILREG_PROGRAM"]
fn what_requests_ask_for_is_in_the_drill() {
    let (node, serving, addr) = served(2);
    let other = open(1, 2);
    ask_all(addr);
    (0..4).for_each(|_| drop(node.eval("a")));
    let message = node.emit(1).unwrap();
    for told in ["changed", "same"] {
        assert_eq!(
            other.answer("POST", "/gossip", &message).unwrap().body,
            told.as_bytes()
        );
    }
    (0..9).for_each(|_| drop(other.eval("a")));
    ask(addr, "PUT", "/fail/q", "return(\"\\\u{e9}\")");
    ask(addr, "POST", "/load", "r=2*return(\u{1f600});s=off");
    serving.stop();
    assert_eq!(
        audit("requests.drill", &[&node, &other]),
        "audit yes\nbudget a 1.0 0 count=3 granted=2 executed=5\nbudget r 7.0 0 count=2 executed=0\n"
    );
}

// What follows `PUT /fail/p HTTP/1.1` and a Host: fields, the body, and the status.
const BAD_FIELDS: [(&str, &str, u16); 13] = [
    ("X: y\n", "", 400),
    ("X y\r\n", "", 400),
    ("Host: localhost\r\n", "", 400),
    ("Content-Length: 3\r\nContent-Length: 4\r\n", "off", 400),
    ("Content-Length: three\r\n", "off", 400),
    ("", "off", 400),
    ("Content-Length: 18446744073709551616\r\n", "off", 400),
    (
        "Content-Length: 3\r\nTransfer-Encoding: chunked\r\n",
        "3\r\noff\r\n0\r\n\r\n",
        400,
    ),
    ("Content-Length: 67108865\r\n", "", 413),
    (
        "Expect: 100-continue\r\nContent-Length: 67108865\r\n",
        "",
        413,
    ),
    (
        "Transfer-Encoding: gzip, chunked\r\n",
        "3\r\noff\r\n0\r\n\r\n",
        501,
    ),
    (
        "Origin: http://127.0.0.1:1\r\nContent-Length: 3\r\n",
        "off",
        403,
    ),
    ("Origin: null\r\nContent-Length: 3\r\n", "off", 403),
];

// What is sent, and the status.
const BAD_HEADS: [(&str, u16); 8] = [
    ("PUT /fail/p HTTP/1.1\nHost: localhost\n\n", 400),
    ("DELETE /fail/p HTTP/1.1\r\nHost: example.org\r\n\r\n", 403),
    (
        "DELETE /fail/p HTTP/1.1\r\nHost: 127.0.0.1.example.org:7070\r\n\r\n",
        403,
    ),
    ("DELETE /fail/p HTTP/1.1\r\n\r\n", 400),
    (
        "DELETE http://example.org/fail/p HTTP/1.1\r\nHost: localhost\r\n\r\n",
        403,
    ),
    ("DELETE /fail/p HTTP/2\r\nHost: localhost\r\n\r\n", 400),
    ("hello\r\n\r\n", 400),
    ("\x16\x03\x01\x02\0\x01\0\x01\n\x03\x03\r\n\r\n", 400),
];

// A request that sets `p`.
fn put(fields: &str, body: &str) -> String {
    format!("PUT /fail/p HTTP/1.1\r\nHost: localhost\r\n{fields}\r\n{body}")
}

#[test]
fn requests_that_are_none_are_refused() {
    let (node, _serving, addr) = served(1);
    let fields = BAD_FIELDS.map(|(fields, body, status)| (put(fields, body), status));
    let heads = BAD_HEADS.map(|(head, status)| (head.to_string(), status));
    let long = [
        (put(&format!("X: {}\r\n", "a".repeat(70_000)), ""), 431),
        (put(&"X: y\r\n".repeat(100), ""), 431),
        ("a".repeat(70_000), 414),
    ];
    for (sent, status) in fields.into_iter().chain(heads).chain(long) {
        let reply = raw(addr, sent.as_bytes());
        assert_eq!(status_of(&reply), status, "{sent:?}: {reply}");
        let (head, text) = reply.split_once("\r\n\r\n").unwrap();
        let is_last = head.contains("\r\nconnection: close");
        assert!(is_last && !text.is_empty(), "{sent:?}: {reply}");
    }
    assert_eq!((node.calls(), node.list()), (Ok(0), Ok(String::new())));
    // The service itself may be the origin.
    let own = format!("Origin: http://{addr}\r\nContent-Length: 3\r\n");
    assert_eq!(status_of(&raw(addr, put(&own, "off").as_bytes())), 200);
}

#[test]
fn a_head_may_have_64_kib() {
    let (_node, _serving, addr) = served(1);
    let head_of = |length| {
        let rest = length - put("X: \r\n", "").len();
        put(&format!("X: {}\r\n", "a".repeat(rest)), "")
    };
    // An empty text is no action.
    assert!(raw(addr, head_of(65_536).as_bytes()).contains(" 400 Bad Request\r\n"));
    assert!(raw(addr, head_of(65_537).as_bytes()).contains(" 431 "));
    // Even if its end arrives in a piece that began before.
    let mut stream = TcpStream::connect(addr).unwrap();
    let head = head_of(65_550);
    stream.write_all(&head.as_bytes()[..65_530]).unwrap();
    thread::sleep(A_WHILE);
    stream.write_all(&head.as_bytes()[65_530..]).unwrap();
    assert!(rest_of(&mut stream).contains(" 431 "));
}

#[test]
fn what_stands_behind_a_body_is_no_request() {
    let (node, _serving, addr) = served(1);
    let behind = "DELETE /fail/p HTTP/1.1\r\nHost: localhost\r\n\r\n";
    for (fields, body) in [
        ("Content-Length: 3\r\n", "off"),
        (
            "Transfer-Encoding: chunked\r\n",
            "1\r\no\r\n2\r\nff\r\n0\r\n\r\n",
        ),
    ] {
        let reply = raw(addr, put(fields, &format!("{body}{behind}")).as_bytes());
        assert_eq!(status_of(&reply), 200, "{reply}");
        assert_eq!(node.list().unwrap(), "p=off");
    }
    for sent in ["none", "none!"] {
        let mut stream = expecting(addr, 4);
        assert!(is_sent_continue(&mut stream, SOON));
        stream.write_all(sent.as_bytes()).unwrap();
        let reply = rest_of(&mut stream);
        assert!(reply.contains("\r\n\r\nN16 BadMessage"), "{reply}");
    }
}

#[test]
fn who_sends_on_after_a_refusal_reads_it() {
    let (_node, _serving, addr) = served(1);
    let body = "a".repeat(8_000_000);
    let long = ("Content-Length: 67108865\r\n", 413);
    for (fields, status) in [long, ("Content-Length: 3\r\n", 400)] {
        let mut stream = TcpStream::connect(addr).unwrap();
        stream.write_all(put(fields, &body).as_bytes()).unwrap();
        let mut reply = String::new();
        // No reset comes before or after it.
        stream.read_to_string(&mut reply).unwrap();
        assert_eq!(status_of(&reply), status);
    }
}

// A stream of random bytes, the same in each run.
fn noise() -> impl Iterator<Item = u8> {
    let mut state = 0x2545_f491_4f6c_dd1d_u64;
    std::iter::repeat_with(move || {
        state ^= state << 13;
        state ^= state >> 7;
        state ^= state << 17;
        (state >> 32) as u8
    })
}

#[test]
fn garbage_changes_nothing() {
    let (node, _serving, addr) = served(1);
    let mut noise = noise();
    for length in (0..600).step_by(3) {
        let bytes: Vec<u8> = noise.by_ref().take(length).collect();
        // The client leaves at once, mostly before the response.
        let mut stream = TcpStream::connect(addr).unwrap();
        stream.write_all(&bytes).unwrap();
    }
    assert_eq!(ask(addr, "GET", "/fail", ""), (200, String::new()));
    assert_eq!(node.calls(), Ok(0));
}

#[test]
fn a_body_that_ends_too_soon_asks_nothing() {
    let (node, _serving, addr) = served(1);
    let mut stream = TcpStream::connect(addr).unwrap();
    let head = "PUT /fail/p HTTP/1.1\r\nHost: localhost\r\nContent-Length: 30\r\n\r\noff";
    stream.write_all(head.as_bytes()).unwrap();
    stream.shutdown(std::net::Shutdown::Write).unwrap();
    assert_eq!(rest_of(&mut stream), "");
    assert_eq!(node.calls(), Ok(0));
}

#[test]
fn a_request_may_come_in_pieces() {
    let (_node, _serving, addr) = served(1);
    let mut stream = TcpStream::connect(addr).unwrap();
    stream.set_nodelay(true).unwrap();
    let request = "PUT /fail/p HTTP/1.1\r\nHost: localhost\r\nContent-Length: 8\r\n\r\n3*return";
    for byte in request.bytes() {
        stream.write_all(&[byte]).unwrap();
        thread::sleep(Duration::from_millis(1));
    }
    assert!(rest_of(&mut stream).ends_with("\r\n\r\n1.0"));
}

// A client that asks whether to send a body of this length.
fn expecting(addr: SocketAddr, length: usize) -> TcpStream {
    let mut stream = TcpStream::connect(addr).unwrap();
    let head = format!(
        "POST /gossip HTTP/1.1\r\nHost: localhost\r\nExpect: 100-continue\r\n\
         Content-Length: {length}\r\n\r\n"
    );
    stream.write_all(head.as_bytes()).unwrap();
    stream
}

// Whether it may continue, within this time.
fn is_sent_continue(stream: &mut TcpStream, time: Duration) -> bool {
    stream.set_read_timeout(Some(time)).unwrap();
    let mut told = [0; 25];
    match stream.read_exact(&mut told) {
        Ok(()) => {
            assert_eq!(&told, b"HTTP/1.1 100 Continue\r\n\r\n");
            true
        }
        Err(_) => false,
    }
}

const SOON: Duration = Duration::from_secs(5);
const A_WHILE: Duration = Duration::from_millis(300);

#[test]
fn the_longest_body_is_taken_and_four_long_ones_at_once() {
    let (_node, _serving, addr) = served(1);
    let mut long: Vec<TcpStream> = (0..4).map(|_| expecting(addr, 67_108_864)).collect();
    assert!(long.iter_mut().all(|stream| is_sent_continue(stream, SOON)));
    let mut fifth = expecting(addr, 65_537);
    assert!(
        !is_sent_continue(&mut fifth, A_WHILE),
        "it waits for a place"
    );
    // Others don't.
    assert!(is_sent_continue(&mut expecting(addr, 65_536), SOON));
    assert_eq!(ask(addr, "GET", "/fail", ""), (200, String::new()));
    let mut last = long.pop().unwrap();
    last.write_all(&vec![0; 67_108_864]).unwrap();
    assert!(rest_of(&mut last).ends_with("\r\n\r\nN16 BadMessage W1 Magic offset=0"));
    assert!(is_sent_continue(&mut fifth, SOON), "there is a place");
}

#[test]
fn a_silent_client_is_gone_after_two_seconds() {
    let (_node, _serving, addr) = served(1);
    for sent in ["", "GET /fail HTTP/1.1\r\nHost: localhost\r\n"] {
        let begun = Instant::now();
        assert_eq!(raw(addr, sent.as_bytes()), "");
        let took = begun.elapsed();
        assert!((1_900..5_000).contains(&took.as_millis()), "{took:?}");
    }
}

#[test]
#[ignore = "it takes ten seconds"]
fn a_slow_body_is_gone_after_ten_seconds() {
    let (node, _serving, addr) = served(1);
    let begun = Instant::now();
    let mut stream = TcpStream::connect(addr).unwrap();
    let head = "PUT /fail/p HTTP/1.1\r\nHost: localhost\r\nContent-Length: 3000\r\n\r\n";
    stream.write_all(head.as_bytes()).unwrap();
    while begun.elapsed() < Duration::from_secs(20) && stream.write_all(b"o").is_ok() {
        thread::sleep(Duration::from_millis(100));
    }
    let took = begun.elapsed();
    assert!((9_900..14_000).contains(&took.as_millis()), "{took:?}");
    assert_eq!(node.calls(), Ok(0));
}

#[test]
fn sixty_four_clients_are_served_at_once_and_the_next_one_waits() {
    let (_node, serving, addr) = served(1);
    let mut silent: Vec<TcpStream> = (0..64).map(|_| expecting(addr, 9)).collect();
    assert!(
        silent
            .iter_mut()
            .all(|stream| is_sent_continue(stream, SOON))
    );
    let mut next = expecting(addr, 9);
    assert!(!is_sent_continue(&mut next, A_WHILE));
    drop(silent.pop());
    assert!(is_sent_continue(&mut next, SOON));
    // The service can end while all places are taken.
    let begun = Instant::now();
    serving.stop();
    assert!(
        begun.elapsed() < Duration::from_secs(4),
        "{:?}",
        begun.elapsed()
    );
    assert_eq!(rest_of(&mut next), "");
}

#[test]
fn many_clients_wait_for_a_place() {
    let (_node, serving, addr) = served(1);
    let held: Vec<_> = (0..64).map(|_| TcpStream::connect(addr).unwrap()).collect();
    let second = Duration::from_secs(1);
    let waiting: Vec<_> = (0..400)
        .map(|_| TcpStream::connect_timeout(&addr, second).expect("there is room to wait"))
        .collect();
    drop(held);
    drop(waiting);
    assert_eq!(ask(addr, "GET", "/fail", "").0, 200);
    serving.stop();
}

#[test]
fn a_head_is_answered_without_a_body() {
    let (_node, _serving, addr) = served(1);
    for (head, status) in [
        ("HEAD /fail HTTP/1.1\r\n\r\n", 400),
        ("HEAD /fail HTTP/2\r\n\r\n", 400),
        ("HEAD /fail HTTP/1.1\r\nHost: example.org\r\n\r\n", 403),
        ("HEAD /fail HTTP/1.1\r\nHost: localhost\r\n\r\n", 405),
        ("HEAD / HTTP/1.1\r\nHost: localhost\r\n\r\n", 405),
        (
            "HEAD /fail HTTP/1.1\r\nHost: localhost\r\nContent-Length: 67108865\r\n\r\n",
            405,
        ),
        (
            "HEAD /fail HTTP/1.1\r\nHost: localhost\r\nTransfer-Encoding: gzip, chunked\r\n\r\n",
            501,
        ),
        ("\r\nHEAD /fail HTTP/1.1\r\nHost: localhost\r\n\r\n", 405),
    ] {
        let reply = raw(addr, head.as_bytes());
        assert_eq!(status_of(&reply), status, "{head}: {reply}");
        assert!(
            reply.ends_with("\r\n\r\n") && !reply.contains("content-length: 0"),
            "{reply}"
        );
    }
}

#[test]
fn another_method_is_told_which_there_are() {
    let (_node, _serving, addr) = served(1);
    let long = "Content-Length: 67108865\r\n";
    for (line, fields, methods) in [
        ("PUT /fail/", "", "GET"),
        ("DELETE /fail", "", "GET"),
        ("POST /", "", "GET"),
        ("POST /", long, "GET"),
        ("PUT /fail", long, "GET"),
        ("PUT /fail/", long, "GET"),
        ("GET /fail/a", "", "PUT, DELETE"),
        ("GET /fail/a", long, "PUT, DELETE"),
        ("GET /spread/a", "", "PUT, POST"),
        ("GET /hello", "", "POST"),
        ("GET /gossip", long, "POST"),
    ] {
        let head = format!("{line} HTTP/1.1\r\nHost: localhost\r\n{fields}\r\n");
        let reply = raw(addr, head.as_bytes());
        assert_eq!(status_of(&reply), 405, "{line}: {reply}");
        assert!(
            reply.contains(&format!("\r\nallow: {methods}\r\n")),
            "{line}: {reply}"
        );
    }
}

#[test]
fn who_is_being_served_is_answered_when_the_service_ends() {
    let (node, serving, addr) = served(1);
    let (mut slow, mut silent) = (expecting(addr, 4), expecting(addr, 4));
    for stream in [&mut slow, &mut silent] {
        assert!(is_sent_continue(stream, SOON));
    }
    let begun = Instant::now();
    let ending = thread::spawn(move || serving.stop());
    assert!(
        comes(|| TcpStream::connect(addr).is_err()),
        "nobody is let in"
    );
    slow.write_all(b"none").unwrap();
    assert!(rest_of(&mut slow).contains(" 400 Bad Request\r\n"));
    assert_eq!(rest_of(&mut silent), "");
    ending.join().unwrap();
    let took = begun.elapsed();
    assert!((1_900..4_000).contains(&took.as_millis()), "{took:?}");
    // No thread has the registry any more.
    assert_eq!(Arc::strong_count(&node), 1);
}

#[test]
fn a_service_without_clients_ends_at_once_and_its_address_is_free_again() {
    let (node, serving, addr) = served(1);
    let begun = Instant::now();
    drop(serving);
    assert!(
        begun.elapsed() < Duration::from_secs(1),
        "{:?}",
        begun.elapsed()
    );
    assert_eq!(Arc::strong_count(&node), 1);
    serve(node, addr).unwrap().stop();
}

#[test]
fn a_pause_ends_by_a_request() {
    let (node, _serving, addr) = served(1);
    assert_eq!(ask(addr, "PUT", "/fail/p", "pause").0, 200);
    let paused = thread::spawn({
        let node = node.clone();
        move || node.eval("p")
    });
    assert!(comes(|| node.hits("p") == Ok(1)));
    assert!(!paused.is_finished());
    assert_eq!(ask(addr, "DELETE", "/fail/p", "").0, 200);
    assert!(comes(|| paused.is_finished()), "it goes on");
    assert_eq!(paused.join().unwrap(), None);
}

// Panics when it is dropped.
struct Bad;

impl Drop for Bad {
    fn drop(&mut self) {
        panic!("it is dropped");
    }
}

#[test]
fn a_panic_ends_one_client_alone() {
    let (node, serving, addr) = served(1);
    let bad = Bad;
    node.set_callback("p", move || _ = &bad).unwrap();
    let request = put("Content-Length: 6\r\n", "return");
    assert_eq!(raw(addr, request.as_bytes()), "");
    // Its request was carried out, and the others are served.
    assert_eq!(ask(addr, "GET", "/fail", ""), (200, "p=return".into()));
    assert_eq!(node.eval("p"), Some(None));
    serving.stop();
    assert_eq!(Arc::strong_count(&node), 1);
}

// Notes when it is dropped, so that a thread that reads the note sees everything before it.
struct Held(Arc<AtomicBool>);

impl Drop for Held {
    fn drop(&mut self) {
        self.0.store(true, Ordering::Release);
    }
}

#[test]
fn a_callback_that_is_over_is_dropped_by_a_request() {
    let (node, _serving, addr) = served(1);
    let is_dropped = Arc::new(AtomicBool::new(false));
    let held = Held(is_dropped.clone());
    node.set_callback("p", move || _ = &held).unwrap();
    assert_eq!(ask(addr, "PUT", "/fail/q", "off").0, 200);
    assert!(!is_dropped.load(Ordering::Acquire));
    assert_eq!(ask(addr, "PUT", "/fail/p", "return").0, 200);
    assert!(is_dropped.load(Ordering::Acquire));
    assert_eq!(node.eval("p"), Some(None));
}

// Calls the registry when it is dropped.
struct Asks(Arc<Registry>);

impl Drop for Asks {
    fn drop(&mut self) {
        self.0.calls().unwrap();
    }
}

#[test]
fn what_a_callback_holds_may_call_the_registry_when_it_is_dropped() {
    let node = open(0, 1);
    let asks = Asks(node.clone());
    node.set_callback("p", move || _ = &asks).unwrap();
    let answers = thread::spawn({
        let node = node.clone();
        move || node.answer("DELETE", "/fail/p", b"")
    });
    assert!(comes(|| answers.is_finished()), "it waits for itself");
    assert_eq!(answers.join().unwrap().unwrap().status, 200);
    assert_eq!(Arc::strong_count(&node), 1);
}

#[test]
fn a_full_trace_ends_the_points() {
    let builder = Registry::builder().cap(2).on_refusal(OnRefusal::Panic);
    let node = Arc::new(builder.build().unwrap());
    let serving = serve(node.clone(), "127.0.0.1:0").unwrap();
    let ask = |method, path, body| ask(serving.addr(), method, path, body);
    assert_eq!(ask("PUT", "/fail/p", "pause").0, 200);
    let paused = thread::spawn({
        let node = node.clone();
        move || node.eval("p")
    });
    assert!(comes(|| node.calls() == Ok(2)));
    // Reads still work, and nothing changes any more; paused threads continue.
    assert_eq!(ask("GET", "/fail", ""), (200, "p=pause".into()));
    assert_eq!(ask("DELETE", "/fail/p", ""), (503, "N1 TraceFull".into()));
    assert!(comes(|| paused.is_finished()), "it goes on");
    assert_eq!(paused.join().unwrap(), None);
    assert_eq!((node.eval("p"), node.is_set("p")), (None, false));
}

#[test]
fn a_closed_registry_says_so() {
    let (node, serving, addr) = served(1);
    node.close();
    assert_eq!(
        ask(addr, "GET", "/fail", ""),
        (503, "the registry is closed".into())
    );
    assert_eq!(ask(addr, "PUT", "/fail/p", "off").0, 503);
    let error = node.answer("GET", "/fail", b"").unwrap_err();
    assert_eq!((error.kind(), error.code()), (ErrorKind::Closed, Some(31)));
    serving.stop();
}

#[test]
fn an_address_is_one_of_this_machine_and_free() {
    for addr in ["0.0.0.0:0", "[::]:0", "192.0.2.1:7070"] {
        let error = serve(open(0, 1), addr).unwrap_err();
        assert_eq!(error.kind(), ErrorKind::NotLocal);
        let ip = addr.parse::<SocketAddr>().unwrap().ip();
        let text = format!("address \"{addr}\": {ip} can be reached by other machines, and ");
        assert!(error.to_string().starts_with(&text), "{error}");
    }
    let taken = TcpListener::bind("127.0.0.1:0").unwrap();
    let addr = taken.local_addr().unwrap();
    let error = serve(open(0, 1), addr).unwrap_err();
    assert_eq!(error.kind(), ErrorKind::CantListen);
    assert!(
        error
            .to_string()
            .starts_with(&format!("address {addr}: Address already in use"))
    );
    let error = serve(open(0, 1), "nowhere").unwrap_err();
    assert_eq!(error.kind(), ErrorKind::CantListen);
    assert!(error.to_string().starts_with("address \"nowhere\": "));
    // A machine has more than one of these.
    for addr in ["127.0.0.2:0", "[::1]:0"] {
        if TcpListener::bind(addr).is_ok() {
            let serving = serve(open(0, 1), addr).unwrap();
            assert_eq!(
                ask(serving.addr(), "GET", "/fail", ""),
                (200, String::new())
            );
        }
    }
}

// One turn of a thread: it sets, removes or accepts a message, evaluates two points and reads a
// report. Returns whether `counted` ran.
fn take_turn(node: &Registry, addr: SocketAddr, message: &[u8], number: u32, turn: u32) -> bool {
    let name = format!("p{}", turn % 3);
    let path = format!("/fail/{name}");
    match number % 4 {
        0 => drop(node.set(&name, "return").unwrap()),
        1 => assert_eq!(ask(addr, "DELETE", &path, "").0, 200),
        2 => assert!(node.deliver(message).is_ok()),
        _ => assert_eq!(ask(addr, "PUT", &path, "off").0, 200),
    }
    node.eval(&name);
    let has_run = node.eval("counted").is_some();
    assert_eq!(ask(addr, "GET", "/report", "").0, 200);
    has_run
}

#[test]
fn threads_pass_set_remove_and_ask_at_once() {
    let (node, serving, addr) = served(2);
    let other = open(1, 2);
    other.set("told", "off").unwrap();
    let message = other.emit(0).unwrap();
    ask(addr, "PUT", "/fail/counted", "40*return->off");
    let (node, message) = (&*node, &message[..]);
    let ran: usize = thread::scope(|scope| {
        let turns = |number| {
            let has_run = move |turn: &u32| take_turn(node, addr, message, number, *turn);
            scope.spawn(move || (0..30).filter(has_run).count())
        };
        let threads: Vec<_> = (0..16).map(turns).collect();
        threads.into_iter().map(|it| it.join().unwrap()).sum()
    });
    assert_eq!((ran, node.spent("counted", 0)), (40, Ok(40)));
    let list = node.list().unwrap();
    assert_eq!(ask(addr, "GET", "/fail", ""), (200, list.clone()));
    let listed: Vec<_> = list
        .split(';')
        .filter_map(|it| it.split_once('='))
        .collect();
    for name in ["p0", "p1", "p2", "counted", "told"] {
        let is_listed = listed.iter().any(|(known, _)| *known == name);
        assert_eq!(node.is_set(name), is_listed, "{name}: {list}");
    }
    serving.stop();
}
