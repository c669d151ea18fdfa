//! Registries that gossip over HTTP.

mod clients;

use clients::{ask, comes, raw};
use failreg::{ErrorKind, Gossip, Peer, PeerNews, Registry, Serving, gossip, serve};
use std::io::{Read, Write};
use std::net::{Ipv4Addr, SocketAddr, TcpListener};
use std::sync::Arc;
use std::thread;
use std::time::{Duration, Instant};

const EVERY: Duration = Duration::from_millis(20);

fn open(number: u8, nodes: u8) -> Arc<Registry> {
    Arc::new(Registry::open(number, nodes, 100_000).unwrap())
}

fn serve_free(node: &Arc<Registry>) -> Serving {
    serve(node.clone(), (Ipv4Addr::LOCALHOST, 0)).unwrap()
}

// Returns an address at which nobody listens.
fn nobody() -> SocketAddr {
    let listener = TcpListener::bind("127.0.0.1:0").unwrap();
    listener.local_addr().unwrap()
}

// Returns what was sent to the only peer.
fn news(gossip: &Gossip) -> PeerNews {
    let mut peers = gossip.peers();
    assert_eq!(peers.len(), 1);
    peers.remove(0)
}

/// Served nodes that gossip until this is dropped.
struct Cluster {
    nodes: Vec<Arc<Registry>>,
    gossips: Vec<Gossip>,
    served: Vec<Serving>,
}

impl Cluster {
    fn of(count: u8) -> Cluster {
        let nodes: Vec<_> = (0..count).map(|number| open(number, count)).collect();
        let served: Vec<_> = nodes.iter().map(serve_free).collect();
        let peer = |(node, serving): (u8, &Serving)| Peer::new(node, serving.addr());
        let peers: Vec<_> = (0..).zip(&served).map(peer).collect();
        let tell = |node: &Arc<Registry>| gossip(node.clone(), &peers, EVERY).unwrap();
        let gossips = nodes.iter().map(tell).collect();
        Cluster {
            nodes,
            gossips,
            served,
        }
    }

    fn calls(&self) -> u64 {
        self.nodes.iter().map(|node| node.calls().unwrap()).sum()
    }

    // Returns whether no node makes a call for ten intervals.
    fn is_silent(&self) -> bool {
        let before = self.calls();
        thread::sleep(10 * EVERY);
        self.calls() == before
    }
}

#[test]
fn nodes_share_a_count_and_fall_silent() {
    let cluster = Cluster::of(3);
    let (nodes, first) = (&cluster.nodes, cluster.served[0].addr());
    assert_eq!(ask(first, "PUT", "/fail/p", "5*return->off").0, 200);
    assert_eq!(ask(first, "POST", "/shift/p/0/1/2", "").0, 200);
    assert_eq!(ask(first, "POST", "/shift/p/0/2/1", "").0, 200);
    let rights = |of: u8| nodes[usize::from(of)].rights("p", 0, of);
    assert!(comes(|| rights(1) == Ok(2) && rights(2) == Ok(1)));
    let ran = |node: &Arc<Registry>| (0..9).filter(|_| node.eval("p").is_some()).count();
    assert_eq!(nodes.iter().map(ran).collect::<Vec<_>>(), [2, 2, 1]);
    assert!(comes(|| nodes
        .iter()
        .all(|node| node.spent("p", 0) == Ok(5))));
    assert!(comes(|| nodes.iter().all(|node| node.hits("p") == Ok(27))));
    // Then there is nothing to send, and no entry is made.
    assert!(comes(|| cluster.is_silent()));
    let before = cluster.calls();
    thread::sleep(50 * EVERY);
    assert_eq!(cluster.calls(), before);
    let report = |serving: &Serving| ask(serving.addr(), "GET", "/report", "");
    let reports: Vec<_> = cluster.served.iter().map(report).collect();
    assert!(reports.iter().all(|it| *it == reports[0] && it.0 == 200));
    // The node itself is no peer of its own.
    assert!(cluster.gossips.iter().all(|it| it.peers().len() == 2));
}

#[test]
fn rights_that_are_spread_are_at_each_node() {
    let cluster = Cluster::of(3);
    let (nodes, first) = (&cluster.nodes, cluster.served[0].addr());
    let asked = |method, path, body| ask(first, method, path, body);
    let told = |status, text: &str| (status, text.to_string());
    assert_eq!(asked("PUT", "/spread/p", "5*return->off"), told(200, "1.0"));
    let rights = |of: u8| nodes[usize::from(of)].rights("p", 0, of);
    let all = || [rights(0), rights(1), rights(2)];
    assert!(comes(|| all() == [Ok(2), Ok(2), Ok(1)]));
    let ran = |node: &Arc<Registry>| (0..9).filter(|_| node.eval("p").is_some()).count();
    assert_eq!(nodes.iter().map(ran).collect::<Vec<_>>(), [2, 2, 1]);
    // What was spread is spread again, as far as the node has rights.
    assert_eq!(asked("POST", "/spread/p", ""), told(200, "0"));
    assert_eq!(
        nodes[1].set_spread("p", "1*return->2*panic").unwrap().clock,
        2
    );
    assert_eq!(nodes[1].spread("p"), Ok(2));
    assert_eq!(asked("POST", "/spread/q", ""), told(409, "N6 NotSet"));
    assert_eq!(asked("POST", "/spread/p!", ""), told(400, "N2 BadName"));
    assert_eq!(
        asked("PUT", "/spread/p", "x"),
        ask(first, "PUT", "/fail/p", "x")
    );
    assert_eq!(asked("DELETE", "/spread/p", ""), told(405, "bad method"));
    let head = format!("DELETE /spread/p HTTP/1.1\r\nHost: {first}\r\n\r\n");
    assert!(raw(first, head.as_bytes()).contains("\r\nallow: PUT, POST\r\n"));
}

#[test]
fn rights_go_to_who_passes_where_that_is_asked_for() {
    let mut cluster = Cluster::of(3);
    cluster.nodes[0].set("p", "5*return->off").unwrap();
    let last = cluster.nodes[2].clone();
    assert!(comes(|| last.is_set("p")));
    let mut ran = 0;
    let mut passes = |count: usize| {
        for _ in 0..count {
            ran += usize::from(last.eval("p").is_some());
            thread::sleep(EVERY / 2);
        }
        ran
    };
    assert_eq!(passes(40), 0, "an operator's rights stay where they are");
    let gossips = cluster.gossips.drain(..).map(Gossip::share);
    cluster.gossips = gossips.collect();
    assert!(comes(|| passes(1) == 5));
    assert_eq!(passes(9), 5);
    // Nobody evaluates, and nobody makes a call.
    assert!(comes(|| cluster.is_silent()));
}

#[test]
fn a_peer_that_is_gone_costs_no_entry_and_is_told_when_it_comes() {
    let node = open(0, 2);
    let peer = Peer::new(1, nobody());
    let tells = gossip(node.clone(), &[peer], EVERY).unwrap();
    assert_eq!(
        (news(&tells).told, news(&tells).failure),
        (None, None),
        "there is no news"
    );
    node.set("p", "off").unwrap();
    assert!(comes(|| news(&tells).failures >= 3));
    assert_eq!(node.calls(), Ok(1));
    let failure = news(&tells).failure.unwrap();
    assert!(failure.what.contains("refused"), "{failure:?}");
    let other = open(1, 2);
    let serving = serve(other.clone(), peer.addr).unwrap();
    assert!(comes(|| other.is_set("p")));
    assert!(comes(|| news(&tells).messages == 1));
    assert!(news(&tells).told.unwrap() >= failure.at);
    drop(serving);
}

#[test]
fn a_peer_that_answers_nothing_back_is_told_seldom() {
    let (node, other) = (open(0, 2), open(1, 2));
    let serving = serve_free(&other);
    let tells = gossip(node.clone(), &[Peer::new(1, serving.addr())], EVERY).unwrap();
    node.set("p", "off").unwrap();
    thread::sleep(Duration::from_secs(2));
    // At 0, and after 40, 80, 160, 320, 640 ms and so on, instead of every 20 ms.
    let messages = news(&tells).messages;
    assert!((2..=7).contains(&messages), "{messages}");
    assert_eq!(node.calls(), Ok(1 + messages));
    // Changes are sent at once.
    node.set("q", "off").unwrap();
    assert!(comes(|| other.is_set("q")));
}

// A server that sends each client this response, once it has the head.
fn answering(reply: &'static str) -> SocketAddr {
    let listener = TcpListener::bind("127.0.0.1:0").unwrap();
    let addr = listener.local_addr().unwrap();
    thread::spawn(move || {
        for mut stream in listener.incoming().flatten() {
            let mut head = [0; 16];
            _ = stream.read_exact(&mut head);
            _ = stream.write_all(reply.as_bytes());
        }
    });
    addr
}

#[test]
fn an_answer_other_than_200_is_a_failure() {
    for (reply, what) in [
        (
            "HTTP/1.1 409 Conflict\r\n\r\n",
            "it answered with status 409",
        ),
        ("SSH-2.0-OpenSSH_9.2\r\n", "no reply of HTTP"),
        ("", "no reply of HTTP"),
    ] {
        let node = open(0, 2);
        let tells = gossip(node.clone(), &[Peer::new(1, answering(reply))], EVERY).unwrap();
        node.set("p", "off").unwrap();
        assert!(comes(|| news(&tells).failures >= 2));
        let known = news(&tells);
        // A connection that is closed with unread bytes is reported like this.
        let met = known.failure.unwrap().what;
        assert!(
            met == what || (reply.len() < 26 && met.contains("reset")),
            "{met}"
        );
        assert_eq!((known.told, known.messages), (None, 0));
    }
}

#[test]
fn what_a_peer_refuses_is_a_failure() {
    // A node that restarted under its number knows less about itself than its peer.
    let (node, before) = (open(0, 2), open(1, 2));
    before.set("p", "off").unwrap();
    node.deliver(&before.emit(0).unwrap()).unwrap();
    let again = open(1, 2);
    let serving = serve_free(&again);
    let tells = gossip(node, &[Peer::new(1, serving.addr())], EVERY).unwrap();
    assert!(comes(|| news(&tells).failures > 0));
    assert_eq!(
        news(&tells).failure.unwrap().what,
        "it answered with status 400"
    );
}

#[test]
fn it_ends_with_the_node() {
    let other = open(1, 2);
    let serving = serve_free(&other);
    let peers = [Peer::new(1, serving.addr())];
    let full = Arc::new(Registry::open(0, 2, 1).unwrap());
    let tells = gossip(full.clone(), &peers, EVERY).unwrap();
    full.set("p", "return").unwrap();
    assert!(comes(|| news(&tells).failures == 1));
    assert!(
        news(&tells)
            .failure
            .unwrap()
            .what
            .starts_with("N1 TraceFull")
    );
    assert!(
        comes(|| Arc::strong_count(&full) == 1),
        "the thread is gone"
    );
    assert_eq!(full.eval("p"), None);
    let closed = open(0, 2);
    let tells = gossip(closed.clone(), &peers, EVERY).unwrap();
    closed.close();
    assert!(
        comes(|| Arc::strong_count(&closed) == 1),
        "the thread is gone"
    );
    assert!(
        news(&tells)
            .failure
            .unwrap()
            .what
            .starts_with("the registry is closed")
    );
}

#[test]
fn it_ends_when_it_is_dropped() {
    let node = open(0, 2);
    let tells = gossip(
        node.clone(),
        &[Peer::new(1, nobody())],
        Duration::from_secs(60),
    )
    .unwrap();
    let begun = Instant::now();
    tells.stop();
    assert!(
        begun.elapsed() < Duration::from_secs(2),
        "{:?}",
        begun.elapsed()
    );
    assert_eq!(Arc::strong_count(&node), 1);
}

#[test]
fn a_peer_is_another_node_of_the_cluster() {
    let kind = |node, addr: &str| {
        let peer = Peer::new(node, addr.parse::<SocketAddr>().unwrap());
        gossip(open(0, 2), &[peer], EVERY).unwrap_err().kind()
    };
    assert_eq!(kind(2, "127.0.0.1:7070"), ErrorKind::BadPeer);
    assert_eq!(kind(1, "192.0.2.1:7070"), ErrorKind::NotLocal);
}
