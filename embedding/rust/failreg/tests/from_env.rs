//! `from_env`, in processes of their own: each has one environment and one registry.

mod clients;

use failreg::{Registry, fail_point};
use std::io::{BufRead, BufReader, Lines, Write};
use std::net::{SocketAddr, TcpStream};
use std::path::{Path, PathBuf};
use std::process::{Child, ChildStdout, Command, Stdio};
use std::sync::Arc;
use std::time::Duration;

fn order() -> bool {
    fail_point!("order", |_| true);
    false
}

const CHILD: &str = "FAILREG_TEST_CHILD";
const VARIABLES: [&str; 12] = [
    "FAILREG_NODE",
    "FAILREG_CAP",
    "FAILREG_RECORD",
    "FAILREG_RUN",
    "FAILREG_SYNC",
    "FAILREG_BUFFER",
    "FAILREG_LISTEN",
    "FAILREG_PEERS",
    "FAILREG_KEY_FILE",
    "FAILREG_SHARE",
    "FAILREG_HEAR_FIRST",
    "FAILPOINTS",
];

// What the other tests run.
#[test]
fn child() {
    if std::env::var_os(CHILD).is_none() {
        return;
    }
    match failreg::from_env() {
        Ok(program) => {
            let lost = (0..4).filter(|_| order()).count();
            println!("lost {lost}, {:?}", program.registry());
            assert_eq!(
                program.hits("order"),
                failreg::program().unwrap().hits("order")
            );
            assert!(failreg::from_env().is_err());
            // Otherwise a drop ends it.
            if std::env::var_os("FAILREG_CAP").is_none() {
                program.finish().unwrap();
            }
        }
        Err(error) => {
            println!("{:?} {error}", error.kind());
            assert!(failreg::program().is_none());
        }
    }
}

// Returns what a process with these variables prints.
fn told(set: &[(&str, &str)]) -> String {
    let mut process = Command::new(std::env::current_exe().unwrap());
    process.args(["--exact", "child", "--nocapture"]);
    VARIABLES
        .iter()
        .for_each(|name| _ = process.env_remove(name));
    let ran = process
        .env(CHILD, "")
        .envs(set.iter().copied())
        .output()
        .unwrap();
    assert!(ran.status.success(), "{ran:?}");
    String::from_utf8(ran.stdout).unwrap()
}

fn file(name: &str) -> PathBuf {
    let path = Path::new(env!("CARGO_TARGET_TMPDIR")).join(name);
    _ = std::fs::remove_file(&path);
    path
}

#[test]
fn variables_make_the_registry() {
    let alone = told(&[]);
    assert!(alone.contains("lost 0, Registry { node: 0, nodes: 1, cap: 72057594037927935, .. }"));
    let second = told(&[
        ("FAILREG_NODE", "1/3"),
        ("FAILREG_CAP", "500"),
        ("FAILPOINTS", "order=2*return->off"),
    ]);
    assert!(second.contains("lost 2, Registry { node: 1, nodes: 3, cap: 500, .. }"));
}

// A variable, a value, and the error.
const BAD_VALUES: [(&str, &str, &str); 10] = [
    (
        "FAILREG_NODE",
        "3/3",
        "BadVariable FAILREG_NODE=\"3/3\": expected ",
    ),
    (
        "FAILREG_CAP",
        "1e6",
        "BadVariable FAILREG_CAP=\"1e6\": expected ",
    ),
    (
        "FAILREG_LISTEN",
        "",
        "BadVariable FAILREG_LISTEN=\"\": expected ",
    ),
    (
        "FAILREG_LISTEN",
        "0.0.0.0:0",
        "NotLocal FAILREG_LISTEN: address 0.0.0.0:0: 0.0.0.0 can be reached by other machines",
    ),
    (
        "FAILREG_PEERS",
        "0:10.0.0.1:7070",
        "NotLocal FAILREG_PEERS: address 10.0.0.1:7070: 10.0.0.1 can be reached by other machines",
    ),
    (
        "FAILREG_KEY_FILE",
        "/nowhere/at/all",
        "BadKey FAILREG_KEY_FILE: key \"/nowhere/at/all\": No such file",
    ),
    (
        "FAILREG_PEERS",
        "a:1",
        "BadVariable FAILREG_PEERS=\"a:1\": expected other nodes",
    ),
    (
        "FAILREG_PEERS",
        "1:7070",
        "BadPeer FAILREG_PEERS: address 127.0.0.1:7070: a cluster of 1 has no ",
    ),
    (
        "FAILPOINTS",
        "order=retrun",
        "BadText FAILPOINTS=\"order=retrun\": N3 ",
    ),
    (
        "FAILREG_RECORD",
        "/nowhere/at/all",
        "BadPart FAILREG_RECORD: journal \"/nowhere/at/all\": cannot open (",
    ),
];

#[test]
fn a_bad_value_is_told_and_makes_no_registry() {
    for (name, value, begin) in BAD_VALUES {
        let told = told(&[(name, value)]);
        assert!(told.contains(begin), "{name}: {told}");
    }
}

#[cfg(unix)]
#[test]
fn a_key_lets_other_machines_in() {
    use std::os::unix::fs::PermissionsExt;
    let path = file("key");
    std::fs::write(&path, [7; 32]).unwrap();
    std::fs::set_permissions(&path, PermissionsExt::from_mode(0o600)).unwrap();
    let set = [
        ("FAILREG_KEY_FILE", path.to_str().unwrap()),
        ("FAILREG_LISTEN", "0.0.0.0:0"),
        ("FAILREG_PEERS", "1:192.0.2.1:7070"),
        ("FAILREG_NODE", "0/2"),
    ];
    let made = told(&set);
    assert!(made.contains("lost 0, Registry { node: 0, "), "{made}");
    std::fs::set_permissions(&path, PermissionsExt::from_mode(0o644)).unwrap();
    let refused = told(&set);
    assert!(
        refused.contains("other users can access it: its mode is 0644: "),
        "{refused}"
    );
}

const SERVED: &str = "FAILREG_TEST_SERVED";

// What the next tests run: it is served, and gossips, until `order` is removed.
#[test]
fn served_child() {
    if std::env::var_os(SERVED).is_none() {
        return;
    }
    let program = failreg::from_env().unwrap();
    let addr = program.serving().unwrap().addr();
    println!("\nserved at {addr}");
    while program.is_set("order") {
        std::thread::sleep(Duration::from_millis(5));
    }
    if let Some(gossip) = program.gossip() {
        assert!(gossip.peers()[0].messages > 0);
    }
    program.finish().unwrap();
    assert!(TcpStream::connect(addr).is_err());
    println!("\nthe end");
}

/// A served process in which `order` is set.
struct Served {
    process: Child,
    lines: Lines<BufReader<ChildStdout>>,
    addr: SocketAddr,
}

impl Served {
    fn start(set: &[(&str, &str)]) -> Served {
        let mut process = Command::new(std::env::current_exe().unwrap());
        process.args(["--exact", "served_child", "--nocapture"]);
        VARIABLES
            .iter()
            .for_each(|name| _ = process.env_remove(name));
        process.env(SERVED, "").env("FAILREG_LISTEN", "127.0.0.1:0");
        process.env("FAILPOINTS", "order=3*return->off");
        process.envs(set.iter().copied()).stdout(Stdio::piped());
        let mut process = process.spawn().unwrap();
        let mut lines = BufReader::new(process.stdout.take().unwrap()).lines();
        let addr = line_of(&mut lines, "served at ").parse().unwrap();
        Served {
            process,
            lines,
            addr,
        }
    }

    fn remove_order(&self) {
        let removed = clients::ask(self.addr, "DELETE", "/fail/order", "");
        assert_eq!(removed.0, 200);
    }

    fn ends(mut self) {
        assert_eq!(line_of(&mut self.lines, "the end"), "");
        assert!(self.process.wait().unwrap().success());
    }
}

// Returns what follows this in the next line that begins with it.
fn line_of(lines: &mut Lines<BufReader<ChildStdout>>, begin: &str) -> String {
    let mut lines = lines.map(Result::unwrap);
    let found = lines.find_map(|line| line.strip_prefix(begin).map(str::to_string));
    found.expect("the process says so")
}

#[test]
fn a_program_is_served_and_tells_its_peers() {
    let node = Arc::new(Registry::open(0, 2, 1_000).unwrap());
    let serving = failreg::serve(node.clone(), "127.0.0.1:0").unwrap();
    let peers = format!("0:{},1:7", serving.addr().port());
    let child = Served::start(&[("FAILREG_NODE", "1/2"), ("FAILREG_PEERS", &peers)]);
    assert!(clients::comes(|| node.is_set("order")), "the child tells");
    let listed = clients::ask(child.addr, "GET", "/fail", "");
    assert_eq!(listed, (200, "order=3*return->off".into()));
    let addr = child.addr.to_string();
    let taken = told(&[("FAILREG_LISTEN", &addr)]);
    let begin = format!("CantListen FAILREG_LISTEN: address {addr}: Address already in use");
    assert!(taken.contains(&begin), "{taken}");
    child.remove_order();
    child.ends();
}

#[test]
fn who_is_being_served_at_the_end_is_in_the_part() {
    let path = file("of_a_served_program");
    let record = ("FAILREG_RECORD", path.to_str().unwrap());
    let child = Served::start(&[record, ("FAILREG_BUFFER", "1")]);
    let mut late = TcpStream::connect(child.addr).unwrap();
    let head = "PUT /fail/late HTTP/1.1\r\nHost: localhost\r\nContent-Length: 3\r\n\r\n";
    late.write_all(head.as_bytes()).unwrap();
    std::thread::sleep(Duration::from_millis(100));
    child.remove_order();
    assert!(clients::comes(|| TcpStream::connect(child.addr).is_err()));
    late.write_all(b"off").unwrap();
    assert!(clients::rest_of(&mut late).ends_with("\r\n\r\n3.0"));
    child.ends();
    let part = std::fs::read_to_string(&path).unwrap();
    let entry = "{\"ask\":[\"set\",\"late\",\"off\"],\"reply\":[\"set\",3,0],\"words\":[]}\n";
    assert!(part.ends_with(entry), "{part}");
}

#[test]
fn a_part_is_written_call_by_call() {
    let path = file("of_the_environment");
    let points = ("FAILPOINTS", "order=6*return->off");
    let record = ("FAILREG_RECORD", path.to_str().unwrap());
    let of = |set: &[_]| told(&[&[points, record, ("FAILREG_NODE", "1/3")], set].concat());
    let (run, sync) = (("FAILREG_RUN", "night 7"), ("FAILREG_SYNC", "1"));
    let buffer = ("FAILREG_BUFFER", "1");
    assert!(of(&[run]).contains("lost 4, "));
    let begun = std::fs::read_to_string(&path).unwrap();
    let head = "{\"cap\":72057594037927935,\"failreg\":\"part\",\"node\":1,\"nodes\":3,\
        \"run\":\"night 7\",\"version\":1}\n";
    assert!(begun.starts_with(head), "{begun}");
    assert_eq!(begun.lines().count(), 6);
    // FAILPOINTS isn't loaded again, and the points stay.
    assert!(of(&[run, sync, buffer]).contains("lost 2, "));
    let gone_on = std::fs::read_to_string(&path).unwrap();
    assert!(gone_on.starts_with(&begun) && gone_on.lines().count() == 10);
    assert!(of(&[run, buffer]).contains("lost 0, "));
    let whole = std::fs::read_to_string(&path).unwrap();
    assert_eq!(whole.lines().count(), 14);
    let other = of(&[]);
    let wanted = "BadPart FAILREG_RECORD: journal ";
    let why = "run is \"night 7\" there and \"\" here";
    assert!(other.contains(wanted) && other.contains(why), "{other}");
    assert_eq!(std::fs::read_to_string(&path).unwrap(), whole);
    // A drop leaves the same.
    std::fs::remove_file(&path).unwrap();
    assert!(of(&[run, ("FAILREG_CAP", "500")]).contains("lost 4, "));
    let head = head.replace("72057594037927935", "500");
    let (_, calls) = begun.split_once('\n').unwrap();
    assert_eq!(std::fs::read_to_string(&path).unwrap(), head + calls);
}
