//! The program's registry, configured by environment variables.

use crate::builder::Builder;
use crate::error::{Error, ErrorKind};
use crate::fail_rs::has_failpoints;
use crate::gossip::{Gossip, gossip, others};
use crate::peer::Peer;
use crate::program::first;
use crate::registry::Registry;
use crate::serving::{Serving, listen, serve_at};
use std::ffi::{OsStr, OsString};
use std::io;
use std::net::{Ipv4Addr, SocketAddr};
use std::ops::Deref;
use std::path::PathBuf;
use std::str::FromStr;
use std::time::Duration;

const NODE: &str = "FAILREG_NODE";
const CAP: &str = "FAILREG_CAP";
const RECORD: &str = "FAILREG_RECORD";
const RUN: &str = "FAILREG_RUN";
const SYNC: &str = "FAILREG_SYNC";
const BUFFER: &str = "FAILREG_BUFFER";
const LISTEN: &str = "FAILREG_LISTEN";
const PEERS: &str = "FAILREG_PEERS";
const SHARE: &str = "FAILREG_SHARE";
const HEAR_FIRST: &str = "FAILREG_HEAR_FIRST";
const KEY_FILE: &str = "FAILREG_KEY_FILE";

/// The interval of gossip.
const EVERY: Duration = Duration::from_millis(100);

/// Configures the program's registry from environment variables, in one line of `main`:
///
/// ```no_run
/// fn main() -> Result<(), failreg::Error> {
///     let _failpoints = failreg::from_env()?;
///     // ..
///     Ok(())
/// }
/// ```
///
/// | Variable | Value | Default |
/// |---|---|---|
/// | `FAILREG_NODE` | the node's number, `/` and the number of nodes, such as `1/3` | `0/1` |
/// | `FAILREG_CAP` | the call limit: how many calls the node accepts in its life | 72057594037927935 |
/// | `FAILPOINTS` | the first configuration, `name=actions;name=actions`. A node that resumes from its journal ignores it | no points |
/// | `FAILREG_RECORD` | the path of the node's journal, to which each call is written and from which the node resumes ([`Builder::recording`]) | no journal |
/// | `FAILREG_RUN` | the run ID, a text that the journals of one run share ([`Builder::run`]) | empty |
/// | `FAILREG_SYNC` | 1: each write of the journal reaches the disk ([`Builder::synced`]) | 0 |
/// | `FAILREG_BUFFER` | 1: lines of evaluations that took no right may share a write ([`Builder::buffered`]) | 0 |
/// | `FAILREG_LISTEN` | the address at which the node is served ([`serve`](crate::serve)), such as `127.0.0.1:7071`, or with a key `10.0.0.2:7071` | not served |
/// | `FAILREG_PEERS` | the other nodes, with which the node gossips every 100 ms ([`gossip`]): each a node and a port of 127.0.0.1, `0:7070,2:7072`, or an address with a port, `0:[::1]:7070` or `0@[::1]:7070`, with a key also `0:10.0.0.2:7070` | no gossip |
/// | `FAILREG_KEY_FILE` | the file of the key that clients and peers must present ([`Builder::key_file`]) | no key: all on this machine |
/// | `FAILREG_SHARE` | 1: before each round of gossip, move spare rights to nodes that ran out ([`Gossip::share`]) | 0 |
/// | `FAILREG_HEAR_FIRST` | 1: reject calls until a message from each other node has arrived ([`Builder::hear_first`]) | 0 |
/// # Errors
/// [`BadVariable`](ErrorKind::BadVariable) for a value that isn't one of these; otherwise those of
/// [`Builder::build`], [`serve`](crate::serve) and [`gossip`], and
/// [`AlreadyOpen`](ErrorKind::AlreadyOpen) if the program has a registry. After an error there is
/// no registry, except after [`NoThread`](ErrorKind::NoThread).
pub fn from_env() -> Result<Program, Error> {
    let wanted = Wanted::of(&|name| std::env::var_os(name))?;
    let mut listener = None;
    let registry = first(|| {
        listener = match wanted.listen {
            Some(addr) => {
                let listening = listen(addr, wanted.key_file.is_some());
                Some(listening.map_err(|error| error.of_variable(LISTEN))?)
            }
            None => None,
        };
        wanted.open()
    })?;
    let mut program = Program {
        registry,
        is_over: false,
        serving: None,
        gossip: None,
    };
    if let Some(listener) = listener {
        program.serving = Some(serve_at(registry, listener)?);
    }
    if !wanted.peers.is_empty() {
        let gossip = gossip(registry, &wanted.peers, EVERY)?;
        program.gossip = Some(match wanted.is_sharing {
            true => gossip.share(),
            false => gossip,
        });
    }
    Ok(program)
}

/// The program's registry, which is served and gossips until this is dropped: keep it as long as
/// `main` runs. The journal of `FAILREG_RECORD` is written call by call, so it is complete however
/// the program ends.
#[derive(Debug)]
#[must_use = "a drop ends the service: keep it as long as the program runs"]
pub struct Program {
    registry: &'static Registry,
    /// Whether `end` was called.
    is_over: bool,
    serving: Option<Serving>,
    gossip: Option<Gossip>,
}

impl Program {
    /// Returns the program's registry.
    pub fn registry(&self) -> &'static Registry {
        self.registry
    }

    /// Returns the service, if `FAILREG_LISTEN` is set.
    pub fn serving(&self) -> Option<&Serving> {
        self.serving.as_ref()
    }

    /// Returns the gossip thread, if `FAILREG_PEERS` names other nodes.
    pub fn gossip(&self) -> Option<&Gossip> {
        self.gossip.as_ref()
    }

    /// Ends the service and gossip. A drop does so as well, and prints an error on standard error.
    ///
    /// # Errors
    /// The journal lacks a call: [`NotRecorded`](ErrorKind::NotRecorded) or
    /// [`RecordingFailed`](ErrorKind::RecordingFailed).
    pub fn finish(mut self) -> io::Result<()> {
        self.end()
    }

    fn end(&mut self) -> io::Result<()> {
        // First, so that the journal has everything that was returned to a client.
        self.serving = None;
        self.gossip = None;
        match std::mem::replace(&mut self.is_over, true) {
            true => Ok(()),
            false => self.registry.recorded().map_err(io::Error::other),
        }
    }
}

impl Deref for Program {
    type Target = Registry;

    fn deref(&self) -> &Registry {
        self.registry
    }
}

impl Drop for Program {
    fn drop(&mut self) {
        if let Err(error) = self.end() {
            eprintln!("failreg: the journal of {RECORD} lacks a call: {error}");
        }
    }
}

/// The values of the variables.
#[derive(Debug, PartialEq)]
struct Wanted {
    number: u8,
    nodes: u8,
    cap: u64,
    record: Option<PathBuf>,
    run: String,
    is_synced: bool,
    is_buffered: bool,
    listen: Option<SocketAddr>,
    peers: Vec<Peer>,
    key_file: Option<PathBuf>,
    is_sharing: bool,
    hears_first: bool,
}

fn bad(kind: ErrorKind, name: &str, value: &OsStr, fault: &'static str) -> Error {
    Error::new(kind, fault).at_variable(name, value)
}

impl Wanted {
    // Opens the registry, and loads FAILPOINTS if the node is new.
    fn open(&self) -> Result<Registry, Error> {
        let builder = Registry::builder().node(self.number).nodes(self.nodes);
        let builder = builder.cap(self.cap).run(self.run.as_str());
        let builder = builder.synced(self.is_synced).buffered(self.is_buffered);
        let builder = builder.hear_first(self.hears_first);
        let builder = match &self.record {
            Some(path) => builder.recording(path),
            None => builder,
        };
        let builder = match &self.key_file {
            Some(path) => builder.key_file(path),
            None => builder,
        };
        let registry = builder.build().map_err(|error| match error.kind() {
            ErrorKind::BadKey => error.of_variable(KEY_FILE),
            _ if error.has_place() => error.of_variable(RECORD),
            _ => error,
        })?;
        registry.begin_with_env()?;
        Ok(registry)
    }

    fn of(var: &dyn Fn(&str) -> Option<OsString>) -> Result<Wanted, Error> {
        let node = read(var, NODE, NODE_WANTED, node_of)?;
        let cap = read(var, CAP, CAP_WANTED, cap_of)?;
        let (number, nodes) = node.unwrap_or((0, 1));
        for name in [RECORD, LISTEN, PEERS, KEY_FILE] {
            if let Some(value) = var(name).filter(|_| !has_failpoints()) {
                let fault = "the program was built without failpoints";
                return Err(bad(ErrorKind::Disabled, name, &value, fault));
            }
        }
        let peers = read(var, PEERS, PEERS_WANTED, peers_of)?.unwrap_or_default();
        let key_file = var(KEY_FILE).map(PathBuf::from);
        let others = others(&peers, number, nodes, key_file.is_some());
        Ok(Wanted {
            number,
            nodes,
            cap: cap.unwrap_or(Builder::MOST_CALLS),
            record: var(RECORD).map(PathBuf::from),
            run: read(var, RUN, RUN_WANTED, |text| Some(text.to_string()))?.unwrap_or_default(),
            is_synced: read(var, SYNC, SWITCH_WANTED, switch_of)?.unwrap_or(false),
            is_buffered: read(var, BUFFER, SWITCH_WANTED, switch_of)?.unwrap_or(false),
            listen: read(var, LISTEN, LISTEN_WANTED, listen_of)?,
            peers: others.map_err(|error| error.of_variable(PEERS))?,
            key_file,
            is_sharing: read(var, SHARE, SWITCH_WANTED, switch_of)?.unwrap_or(false),
            hears_first: read(var, HEAR_FIRST, SWITCH_WANTED, switch_of)?.unwrap_or(false),
        })
    }
}

const NODE_WANTED: &str = "expected NODE/NODES: the node's number, from 0, and the number of nodes, \
                           1 to 32, for example 0/3, 1/3 or 2/3";
const CAP_WANTED: &str = "expected a number of calls, 0 to 72057594037927935";

fn cap_of(text: &str) -> Option<u64> {
    text.parse().ok().filter(|cap| *cap <= Builder::MOST_CALLS)
}

const RUN_WANTED: &str = "expected UTF-8 text";
const SWITCH_WANTED: &str = "expected 0 or 1";

fn switch_of(text: &str) -> Option<bool> {
    match text {
        "0" => Some(false),
        "1" => Some(true),
        _ => None,
    }
}

const LISTEN_WANTED: &str = "expected an IP address and a port, for example 127.0.0.1:7071 or \
                             [::1]:7071; host names are not resolved";
const PEERS_WANTED: &str = "expected other nodes, each NODE:PORT for 127.0.0.1 or \
                            NODE:ADDRESS:PORT, for example 0:7070,2:[::1]:7072; host names \
                            are not resolved";

fn listen_of(text: &str) -> Option<SocketAddr> {
    text.parse().ok()
}

fn peers_of(text: &str) -> Option<Vec<Peer>> {
    text.split(',').map(peer_of).collect()
}

/// Returns the peer of a text such as `0:7070` or `0:[::1]:7070`, the forms of `failreg serve`, or
/// `0@[::1]:7070`.
fn peer_of(text: &str) -> Option<Peer> {
    let (node, addr) = match text.split_once('@') {
        Some((node, addr)) => (node, listen_of(addr)?),
        None => {
            let (node, place) = text.split_once(':')?;
            let addr = match number_of(place) {
                Some(port) => (Ipv4Addr::LOCALHOST, port).into(),
                None => listen_of(place)?,
            };
            (node, addr)
        }
    };
    Some(Peer::new(number_of(node)?, addr))
}

/// Returns a number that is written in digits only.
fn number_of<T: FromStr>(text: &str) -> Option<T> {
    let is_number = text.bytes().all(|b| b.is_ascii_digit());
    text.parse().ok().filter(|_| is_number)
}

/// Returns the node and the number of nodes of a text such as `1/3`.
fn node_of(text: &str) -> Option<(u8, u8)> {
    let (number, nodes) = text.split_once('/')?;
    let (number, nodes) = (number.parse().ok()?, nodes.parse().ok()?);
    (number < nodes && nodes <= 32).then_some((number, nodes))
}

/// Returns the value of a variable, if it is set.
fn read<T>(
    var: &dyn Fn(&str) -> Option<OsString>,
    name: &str,
    wanted: &'static str,
    parse: impl Fn(&str) -> Option<T>,
) -> Result<Option<T>, Error> {
    let Some(value) = var(name) else {
        return Ok(None);
    };
    match value.to_str().and_then(parse) {
        Some(read) => Ok(Some(read)),
        None => Err(bad(ErrorKind::BadVariable, name, &value, wanted)),
    }
}

#[cfg(test)]
mod tests {
    use super::*;

    fn wanted(set: &[(&str, &str)]) -> Result<Wanted, Error> {
        Wanted::of(&|name| {
            let found = set.iter().find(|(known, _)| *known == name);
            found.map(|(_, value)| OsString::from(value))
        })
    }

    #[test]
    fn variables_that_are_not_set_have_values() {
        let all = wanted(&[]).unwrap();
        assert_eq!(
            (all.number, all.nodes, all.cap),
            (0, 1, Builder::MOST_CALLS)
        );
        assert_eq!(all.record, None);
    }

    #[test]
    fn a_node_and_a_cap_are_read() {
        let read = |node, cap| {
            let all = wanted(&[(NODE, node), (CAP, cap)]).unwrap();
            (all.number, all.nodes, all.cap)
        };
        assert_eq!(read("1/3", "500"), (1, 3, 500));
        assert_eq!(read("31/32", "0"), (31, 32, 0));
        assert_eq!(
            read("0/1", "72057594037927935"),
            (0, 1, Builder::MOST_CALLS)
        );
    }

    #[test]
    fn a_bad_value_is_named() {
        let nodes = [
            "", "1", "1/", "/3", "3/3", "0/0", "0/33", "-1/3", "1/3/3", "1 / 3", "a/b",
        ];
        let caps = ["", "-1", "72057594037927936", "1e6", "1_000", "many"];
        let nodes = nodes.map(|value| (NODE, value, NODE_WANTED));
        let caps = caps.map(|value| (CAP, value, CAP_WANTED));
        let switches = ["", "2", "yes", "01"].map(|value| (SYNC, value, SWITCH_WANTED));
        let all = nodes.into_iter().chain(caps).chain(switches);
        let more = [
            (BUFFER, "true", SWITCH_WANTED),
            (SHARE, "on", SWITCH_WANTED),
            (HEAR_FIRST, "first", SWITCH_WANTED),
        ];
        for (name, value, fault) in all.chain(more) {
            let error = wanted(&[(name, value)]).unwrap_err();
            assert_eq!(error.kind(), ErrorKind::BadVariable, "{name}={value}");
            let text =
                format!("{name}={value:?}: {fault}: correct the value, or unset the variable");
            assert_eq!(error.to_string(), text);
        }
    }

    #[test]
    fn a_part_and_how_it_is_written_are_read() {
        let set = [(RUN, "night 7"), (SYNC, "1"), (BUFFER, "0"), (NODE, "1/2")];
        let all = wanted(&set).unwrap();
        assert_eq!((all.run.as_str(), all.is_synced), ("night 7", true));
        assert!(!all.is_buffered && all.record.is_none());
        assert!(wanted(&[(BUFFER, "1")]).unwrap().is_buffered);
        assert!(!all.is_sharing && wanted(&[(SHARE, "1")]).unwrap().is_sharing);
        assert!(!all.hears_first && wanted(&[(HEAR_FIRST, "1")]).unwrap().hears_first);
        let with_part = wanted(&[(RECORD, "part1"), (NODE, "1/2")]);
        match has_failpoints() {
            true => assert_eq!(with_part.unwrap().record, Some(PathBuf::from("part1"))),
            false => assert_eq!(with_part.unwrap_err().kind(), ErrorKind::Disabled),
        }
    }

    #[cfg(not(feature = "failpoints"))]
    #[test]
    fn nothing_is_served_without_failpoints() {
        for (name, value) in [(LISTEN, "127.0.0.1:0"), (PEERS, "0:7070"), (PEERS, "?")] {
            let error = wanted(&[(name, value)]).unwrap_err();
            assert_eq!(error.kind(), ErrorKind::Disabled);
            assert!(
                error
                    .to_string()
                    .starts_with(&format!("{name}={value:?}: "))
            );
        }
    }

    #[cfg(feature = "failpoints")]
    #[test]
    fn an_address_and_peers_are_read() {
        let at = |text: &str| text.parse::<SocketAddr>().unwrap();
        for text in ["127.0.0.1:7071", "127.9.9.9:0", "[::1]:65535"] {
            let all = wanted(&[(LISTEN, text)]).unwrap();
            assert_eq!((all.listen, all.peers), (Some(at(text)), vec![]));
        }
        // The node itself is skipped.
        let peers = "0:7070,1:7071,2@127.0.0.2:7072,3:127.0.0.2:7074,30:[::1]:7075,31@[::1]:7073";
        let all = wanted(&[(NODE, "1/32"), (PEERS, peers)]).unwrap();
        let others = [
            Peer::new(0, at("127.0.0.1:7070")),
            Peer::new(2, at("127.0.0.2:7072")),
            Peer::new(3, at("127.0.0.2:7074")),
            Peer::new(30, at("[::1]:7075")),
            Peer::new(31, at("[::1]:7073")),
        ];
        assert_eq!((all.listen, all.peers.as_slice()), (None, &others[..]));
        assert_eq!(wanted(&[(PEERS, "0:7070")]).unwrap().peers, []);
    }

    #[cfg(feature = "failpoints")]
    const BAD_ADDRESSES: &str = "|7071|127.0.0.1|localhost:7071|127.0.0.1:65536|\
        127.0.0.1:7071,127.0.0.1:7072| 127.0.0.1:7071|[fe80::1%eth0]:7071";

    #[cfg(feature = "failpoints")]
    const BAD_PEERS: &str = "|7070|0|0:|:7070|0:65536|256:1|+0:7070|0:+7070|0:7070,|0:7070 2:7072|\
        0:7070, 2:7072|0@7070|@127.0.0.1:7070|0@localhost:7070|a@127.0.0.1:7070|\
        0:127.0.0.1|0:localhost:7070|0:[fe80::1%eth0]:7070|0:::1:7070";

    #[cfg(feature = "failpoints")]
    #[test]
    fn addresses_of_other_machines_take_a_key() {
        let at = |text: &str| text.parse::<SocketAddr>().unwrap();
        let far = "0:10.0.0.1:7070,2@[fe80::1%3]:7072";
        let error = wanted(&[(PEERS, far), (NODE, "1/3")]).unwrap_err();
        assert_eq!(error.kind(), ErrorKind::NotLocal);
        let text =
            "FAILREG_PEERS: address 10.0.0.1:7070: 10.0.0.1 can be reached by other machines";
        assert!(error.to_string().starts_with(text), "{error}");
        let set = [(PEERS, far), (NODE, "1/3"), (KEY_FILE, "key")];
        let all = wanted(&set).unwrap();
        assert_eq!(all.key_file, Some(PathBuf::from("key")));
        let others = [
            Peer::new(0, at("10.0.0.1:7070")),
            Peer::new(2, at("[fe80::1%3]:7072")),
        ];
        assert_eq!(all.peers, others);
        // A loopback address needs no key.
        for text in ["10.0.0.1:7071", "0.0.0.0:7071", "[::]:7071"] {
            assert_eq!(wanted(&[(LISTEN, text)]).unwrap().listen, Some(at(text)));
            let error = listen(at(text), false).unwrap_err();
            assert_eq!(error.kind(), ErrorKind::NotLocal, "{text}");
        }
    }

    #[cfg(feature = "failpoints")]
    #[test]
    fn a_bad_address_or_peer_is_named() {
        let addresses = BAD_ADDRESSES
            .split('|')
            .map(|it| (LISTEN, it, LISTEN_WANTED));
        let peers = BAD_PEERS.split('|').map(|it| (PEERS, it, PEERS_WANTED));
        for (name, value, fault) in addresses.chain(peers) {
            let error = wanted(&[(name, value), (NODE, "1/3")]).unwrap_err();
            assert_eq!(error.kind(), ErrorKind::BadVariable, "{name}={value}");
            let text =
                format!("{name}={value:?}: {fault}: correct the value, or unset the variable");
            assert_eq!(error.to_string(), text);
        }
        for value in ["3:7070", "0:7070,0:7071"] {
            let error = wanted(&[(PEERS, value), (NODE, "1/3")]).unwrap_err();
            assert_eq!(error.kind(), ErrorKind::BadPeer);
            assert!(
                error
                    .to_string()
                    .starts_with("FAILREG_PEERS: address 127.0.0.1:707")
            );
        }
    }
}
