//! A registry that gossips with its peers in a thread of its own.

use crate::error::{Error, ErrorKind};
use crate::memory::{Fixed, copied, short_text};
use crate::node::Due;
use crate::peer::{Failure, Peer, PeerNews};
use crate::posting::{self, PeerReply};
use crate::registry::Registry;
use crate::serving::not_local;
use std::borrow::Cow;
use std::fmt::{self, Write};
use std::io;
use std::net::TcpStream;
use std::ops::Deref;
use std::sync::atomic::{AtomicBool, Ordering};
use std::sync::{Arc, Condvar, Mutex, MutexGuard};
use std::thread::{self, JoinHandle};
use std::time::{Duration, Instant, SystemTime};

/// How long a peer may take for a message and its response.
const POST_TIME: Duration = Duration::from_secs(2);

/// The shortest time between two reports that a peer lost its state.
const SAID_EVERY: Duration = Duration::from_secs(60);

/// The shortest interval of rounds.
const SHORTEST_REST: Duration = Duration::from_millis(1);

/// When the loss of a peer's state was last reported.
#[derive(Default)]
struct Said(Option<Instant>);

impl Said {
    // Reports that the peer lost its state, unless that was reported a moment ago.
    fn say_forgotten(&mut self, node: u8, fault: &str) {
        if self.0.is_some_and(|said| said.elapsed() < SAID_EVERY) {
            return;
        }
        self.0 = Some(Instant::now());
        eprintln!(
            "failreg: node {node} lost its state (it returned {fault}): it restarted without its journal, or \
             a second process runs under its number. End it, and restart it with its journal, or under a \
             number that was never used."
        );
    }
}

/// What was sent to each peer, in their order. The lock guards it, and is held only while it is
/// read or written.
type Known = Mutex<Vec<PeerNews>>;

fn shown(known: &Known) -> MutexGuard<'_, Vec<PeerNews>> {
    known
        .lock()
        .unwrap_or_else(|poisoned| poisoned.into_inner())
}

/// The result of one peer in one round.
enum Outcome {
    NoNews,
    Told,
    Failed(String),
    /// The peer responded that others know more about it than it knows itself.
    Forgotten(String),
}

impl PeerNews {
    fn new(peer: Peer) -> PeerNews {
        PeerNews {
            peer,
            told: None,
            messages: 0,
            failure: None,
            failures: 0,
        }
    }

    fn fail(&mut self, at: SystemTime, what: String) {
        self.failure = Some(Failure { at, what });
        self.failures += 1;
    }

    fn take(&mut self, outcome: Outcome) {
        let at = SystemTime::now();
        match outcome {
            Outcome::NoNews => {}
            Outcome::Told => {
                self.told = Some(at);
                self.messages += 1;
            }
            Outcome::Failed(what) => self.fail(at, what),
            Outcome::Forgotten(_) => {
                self.fail(at, short_text(format_args!("it answered with status 400")));
            }
        }
    }
}

// Sends a peer a message, which is made once the peer is reached, because each is an accepted call.
// An error is the node's own.
fn post(registry: &Registry, peer: Peer) -> Result<Outcome, Error> {
    let failed = |error: io::Error| Ok(Outcome::Failed(short_text(format_args!("{error}"))));
    let end = Instant::now() + POST_TIME;
    let stream = match TcpStream::connect_timeout(&peer.addr, POST_TIME) {
        Ok(stream) => stream,
        Err(error) => return failed(error),
    };
    let message = registry.emit(peer.node)?;
    let place = (peer.addr, posting::MESSAGES);
    match posting::post(&stream, place, registry.key.as_ref(), &message, end) {
        Ok(reply) => Ok(outcome_of(&reply)),
        Err(error) => failed(error),
    }
}

// Returns the error of a response that rejects a message because others know more about its
// receiver than it knows itself.
fn forgotten_in(status: u16, body: &[u8]) -> Option<Error> {
    let text = std::str::from_utf8(body).ok()?;
    let code = ["N18", "N19"]
        .into_iter()
        .find(|code| text.starts_with(code) && text[code.len()..].starts_with(' '))?;
    let error = |fault| Error::new(ErrorKind::Forgotten, fault);
    (status == 400).then(|| match copied(text) {
        Ok(text) => error(Cow::Owned(text)),
        Err(_) => error(Cow::Borrowed(code)),
    })
}

// Returns what a peer's response to a message says.
fn outcome_of(reply: &PeerReply) -> Outcome {
    let forgotten = |status| forgotten_in(status, reply.body());
    match reply.status {
        Some(200) => Outcome::Told,
        Some(status) => match forgotten(status) {
            Some(error) => Outcome::Forgotten(short_text(format_args!("{}", error.fault()))),
            None => Outcome::Failed(short_text(format_args!("it answered with status {status}"))),
        },
        None => Outcome::Failed(short_text(format_args!("no reply of HTTP"))),
    }
}

// Requests a message that calls wait for: peers send only changes, and may assume that this node
// has everything. If the peer isn't reached, or doesn't know the request, it is repeated.
fn ask(registry: &Registry, peer: Peer) {
    let end = Instant::now() + POST_TIME;
    if let Ok(stream) = TcpStream::connect_timeout(&peer.addr, POST_TIME) {
        let mut number = Fixed::<3>::new();
        // It has the room.
        let _ = write!(number, "{}", registry.made.number);
        let place = (peer.addr, "/hello");
        let key = registry.key.as_ref();
        _ = posting::post(&stream, place, key, number.bytes(), end);
    }
}

// Sends a peer a message, and notes what came of it. An error is the node's own, and ends gossip if
// the node can't make messages any more.
fn tell(registry: &Registry, peer: Peer, said: &mut Said) -> Result<Outcome, Error> {
    let outcome = post(registry, peer);
    let is_accepted = matches!(outcome, Ok(Outcome::Told));
    registry.lock().node.note_sent(peer.node, is_accepted);
    if let Ok(Outcome::Forgotten(fault)) = &outcome {
        said.say_forgotten(peer.node, fault);
    }
    outcome
}

// Does what is due for a peer.
fn visit(registry: &Registry, peer: Peer, said: &mut Said) -> Result<Outcome, Error> {
    let due = registry.lock().node.due(peer.node)?;
    match due {
        Due::Nothing => Ok(Outcome::NoNews),
        Due::Ask => {
            ask(registry, peer);
            Ok(Outcome::NoNews)
        }
        Due::Tell => tell(registry, peer, said),
    }
}

// Returns whether a node with this error makes no message any more.
fn is_end(error: &Error) -> bool {
    matches!(
        error.kind(),
        ErrorKind::CapReached
            | ErrorKind::Closed
            | ErrorKind::NotRecorded
            | ErrorKind::RecordingFailed
    )
}

// Visits each peer. Returns whether to continue.
fn round(registry: &Registry, said: &mut [Said], known: &Known) -> bool {
    for (index, said) in said.iter_mut().enumerate() {
        let peer = shown(known)[index].peer;
        let outcome = visit(registry, peer, said);
        let is_over = outcome.as_ref().is_err_and(is_end);
        let failed = |error: Error| Outcome::Failed(short_text(format_args!("{error}")));
        let outcome = outcome.unwrap_or_else(failed);
        shown(known)[index].take(outcome);
        if is_over {
            return false;
        }
    }
    true
}

// Moves spare rights, if sharing is on. Returns whether to continue.
fn share(registry: &Registry, is_sharing: &AtomicBool) -> bool {
    !is_sharing.load(Ordering::Relaxed) || !registry.share().as_ref().is_err_and(is_end)
}

/// The end of gossip. Unlike a channel, it takes no memory.
#[derive(Default)]
struct End {
    is_over: Mutex<bool>,
    changed: Condvar,
}

impl End {
    fn tell(&self) {
        *self
            .is_over
            .lock()
            .unwrap_or_else(|poisoned| poisoned.into_inner()) = true;
        self.changed.notify_all();
    }

    // Waits for it this long, and returns whether it has come.
    fn comes_in(&self, time: Duration) -> bool {
        let is_over = self.is_over.lock();
        let is_over = is_over.unwrap_or_else(|poisoned| poisoned.into_inner());
        let waited = self
            .changed
            .wait_timeout_while(is_over, time, |is_over| !*is_over);
        *waited.unwrap_or_else(|poisoned| poisoned.into_inner()).0
    }
}

// Runs rounds until gossip is stopped, or the node makes no message any more.
fn rounds(registry: &Registry, every: Duration, known: &Known, is_sharing: &AtomicBool, end: &End) {
    let mut said: Vec<Said> = shown(known).iter().map(|_| Said::default()).collect();
    // A round's transfers are part of its messages.
    while share(registry, is_sharing) && round(registry, &mut said, known) && !end.comes_in(every)
    {
    }
}

/// The gossip thread of a registry. A drop ends it.
#[must_use = "a drop ends gossip: keep it as long as the node lives"]
pub struct Gossip {
    known: Arc<Known>,
    /// Whether each round first moves spare rights. It orders no memory access.
    is_sharing: Arc<AtomicBool>,
    /// The thread sleeps by waiting for its end.
    thread: Option<(Arc<End>, JoinHandle<()>)>,
}

impl Gossip {
    /// Returns for each peer when it was last sent a message, and its last failure.
    pub fn peers(&self) -> Vec<PeerNews> {
        shown(&self.known).clone()
    }

    /// From now on, moves spare rights to nodes that ran out before each round
    /// ([`Registry::share`]). Otherwise rights stay where an operator or the program put them.
    ///
    /// ```
    /// # if failreg::has_failpoints() {
    /// use failreg::{Registry, gossip};
    /// use std::{sync::Arc, time::Duration};
    ///
    /// let node = Arc::new(Registry::open(0, 2, 1_000_000)?);
    /// let gossip = gossip(node, &[], Duration::from_millis(100))?.share();
    /// # drop(gossip);
    /// # }
    /// # Ok::<(), failreg::Error>(())
    /// ```
    pub fn share(self) -> Gossip {
        self.is_sharing.store(true, Ordering::Relaxed);
        self
    }

    /// Ends gossip, as a drop does. It waits for a message on its way, for 2 seconds at most.
    pub fn stop(mut self) {
        self.end();
    }

    fn end(&mut self) {
        if let Some((end, thread)) = self.thread.take() {
            end.tell();
            drop(thread.join());
        }
    }
}

impl Drop for Gossip {
    fn drop(&mut self) {
        self.end();
    }
}

impl fmt::Debug for Gossip {
    fn fmt(&self, f: &mut fmt::Formatter<'_>) -> fmt::Result {
        f.debug_struct("Gossip")
            .field("peers", &self.peers())
            .finish_non_exhaustive()
    }
}

// Returns the peers except the node itself, each another node of the cluster. Without a key they
// are on this machine.
pub(crate) fn others(
    peers: &[Peer],
    own: u8,
    nodes: u8,
    has_key: bool,
) -> Result<Vec<Peer>, Error> {
    let mut others: Vec<Peer> = Vec::new();
    for peer in peers {
        let Peer { node, addr } = peer;
        if !has_key && !addr.ip().is_loopback() {
            return Err(not_local(addr).at_address(addr));
        }
        if *node >= nodes {
            let fault = format!("a cluster of {nodes} has no node {node}");
            return Err(Error::new(ErrorKind::BadPeer, fault).at_address(addr));
        }
        if others.iter().any(|other| other.node == *node) {
            let fault = format!("node {node} is listed twice");
            return Err(Error::new(ErrorKind::BadPeer, fault).at_address(addr));
        }
        if *node != own {
            others.push(*peer);
        }
    }
    Ok(others)
}

/// Gossips with each peer, in a thread of its own, until the result is dropped:
///
/// ```
/// # if failreg::has_failpoints() {
/// use failreg::{Peer, Registry, gossip, serve};
/// use std::{net::Ipv4Addr, sync::Arc, time::Duration};
///
/// let node = Arc::new(Registry::open(0, 2, 1_000_000)?);
/// let serving = serve(node.clone(), (Ipv4Addr::LOCALHOST, 0))?;
/// let peers = [Peer::new(1, (Ipv4Addr::LOCALHOST, 7071))];
/// let gossip = gossip(node, &peers, Duration::from_millis(100))?;
/// println!("{:?}", gossip.peers());
/// # }
/// # Ok::<(), failreg::Error>(())
/// ```
///
/// Each round visits each peer and sends it a message if it lacks something: the peer hasn't
/// acknowledged the node's version, or the node has learned about the peer since its last message.
/// Then the thread sleeps for `every`, at least a millisecond. An idle cluster sends nothing, and
/// no message is made for an unreachable peer. A peer that is unreachable, returns a status other
/// than 200, or accepts a message without acknowledging it, is retried after 2, 4, ... 64 rounds, and
/// at once if there are changes and it accepted the last message. A peer that hangs delays a round by 2 seconds. Gossip ends with the node: when
/// it is closed, or has reached its call limit. A peer that requests a message, because it [waits
/// for one](crate::Builder::hear_first), gets one without changes, too.
///
/// A peer that is the node itself is skipped, so all processes can have the same list.
///
/// # Errors
/// [`NotLocal`](ErrorKind::NotLocal), [`BadPeer`](ErrorKind::BadPeer),
/// [`NoThread`](ErrorKind::NoThread), or [`Disabled`](ErrorKind::Disabled).
pub fn gossip(
    registry: impl Deref<Target = Registry> + Send + 'static,
    peers: &[Peer],
    every: Duration,
) -> Result<Gossip, Error> {
    let (made, has_key) = (&registry.made, registry.key.is_some());
    let others = others(peers, made.number, made.nodes, has_key)?;
    let known: Known = Mutex::new(others.into_iter().map(PeerNews::new).collect());
    let (known, every) = (Arc::new(known), every.max(SHORTEST_REST));
    let end = Arc::new(End::default());
    let told = end.clone();
    let is_sharing = Arc::new(AtomicBool::new(false));
    let (its, shares) = (known.clone(), is_sharing.clone());
    let thread = thread::Builder::new()
        .name("failreg-gossip".into())
        .spawn(move || rounds(&registry, every, &its, &shares, &end))
        .map_err(|error| Error::new(ErrorKind::NoThread, error.to_string()))?;
    Ok(Gossip {
        known,
        is_sharing,
        thread: Some((told, thread)),
    })
}

#[cfg(test)]
mod tests {
    use super::*;
    use crate::node::Node;
    use std::net::SocketAddr;

    // Returns after how many rounds something is due again for node 1.
    fn rounds_until_due(node: &mut Node) -> u32 {
        let idle = (1..).find(|_| node.due(1).unwrap() != Due::Nothing);
        idle.unwrap()
    }

    #[test]
    fn a_peer_that_fails_is_left_alone_for_longer_each_time() {
        let mut node = Node::open(0, 2, 1000, &[0; 32]).unwrap();
        assert_eq!(node.due(1), Ok(Due::Nothing));
        node.set("p", "off").unwrap();
        assert_eq!(node.due(1), Ok(Due::Tell));
        let mut rests = Vec::new();
        for _ in 0..7 {
            node.note_sent(1, false);
            node.set("p", "off").unwrap();
            rests.push(rounds_until_due(&mut node) - 1);
        }
        assert_eq!(rests, [2, 4, 8, 16, 32, 64, 64], "news don't shorten it");
        node.note_sent(1, true);
        // Changes are sent at once then; a repetition waits for the back-off.
        assert_eq!(rounds_until_due(&mut node), 3);
        node.note_sent(1, true);
        node.set("p", "off").unwrap();
        assert_eq!(node.due(1), Ok(Due::Tell));
    }

    #[test]
    fn peers_are_other_nodes_on_this_machine_or_there_is_a_key() {
        let at = |node, text: &str| Peer::new(node, text.parse::<SocketAddr>().unwrap());
        let (zero, one) = (at(0, "127.0.0.1:7070"), at(1, "[::1]:7071"));
        assert_eq!(others(&[zero, one], 0, 2, false), Ok(vec![one]));
        assert_eq!(others(&[], 0, 1, false), Ok(vec![]));
        let far = at(1, "10.0.0.1:7070");
        assert_eq!(others(&[far], 0, 2, true), Ok(vec![far]));
        for (peers, kind, text) in [
            (
                vec![far],
                ErrorKind::NotLocal,
                "address 10.0.0.1:7070: 10.0.0.1 can be reached by other machines, and there is no key: ",
            ),
            (
                vec![at(2, "127.0.0.1:1")],
                ErrorKind::BadPeer,
                "address 127.0.0.1:1: a cluster of 2 has no node 2: ",
            ),
            (
                vec![one, one],
                ErrorKind::BadPeer,
                "address [::1]:7071: node 1 is listed twice: ",
            ),
        ] {
            let error = others(&peers, 0, 2, false).unwrap_err();
            assert_eq!(error.kind(), kind);
            assert!(error.to_string().starts_with(text), "{error}");
        }
    }
}
