//! Nodes that wait for messages from the others before they accept calls.
#![cfg(feature = "failpoints")]

mod clients;
mod nodes;

use clients::{ask, comes};
use failreg::{ErrorKind, Gossip, OnForgotten, Peer, Registry, Serving, gossip, serve};
use std::net::{Ipv4Addr, SocketAddr};
use std::sync::atomic::{AtomicU32, Ordering};
use std::sync::{Arc, Mutex};
use std::time::Duration;

const WAITING: &str = "not heard yet: node 2: calls are accepted once all nodes sent a message: start it, \
                       with this node as a peer";

fn open(number: u8) -> Registry {
    Registry::open(number, 3, 1000).unwrap()
}

// Node 1 of three, which waits for the others.
fn hearing() -> Registry {
    let builder = Registry::builder().node(1).nodes(3);
    builder.hear_first(true).build().unwrap()
}

fn refusals(node: &Registry) -> Vec<ErrorKind> {
    let refused = [
        node.set("q", "off").map(drop),
        node.set_callback("q", || {}).map(drop),
        node.remove("p").map(drop),
        node.load("q=off").map(drop),
        node.pass("p").map(drop),
        node.shift("p", 0, 2, 1).map(drop),
        node.grant("p", 0, 1).map(drop),
        node.spread("p").map(drop),
        node.set_spread("q", "2*off").map(drop),
        node.share().map(drop),
    ];
    let kinds = refused.into_iter().map(|it| it.unwrap_err().kind());
    kinds.collect()
}

#[test]
fn nothing_is_done_before_each_other_node_was_heard() {
    let (first, last, node) = (open(0), open(2), hearing());
    first.set("p", "2*return->off").unwrap();
    first.shift("p", 0, 1, 1).unwrap();
    assert_eq!(refusals(&node), [ErrorKind::NotHeard; 10]);
    let error = node.set("p", "off").unwrap_err();
    assert!(
        error
            .to_string()
            .starts_with("point \"p\": not heard yet: node 0: calls ")
    );
    // A message from one of the two arrived; its point does nothing yet.
    assert!(node.deliver(&first.emit(1).unwrap()).unwrap());
    assert!(!node.is_set("p") && node.eval("p").is_none());
    assert_eq!(refusals(&node), [ErrorKind::NotHeard; 10]);
    // Reads and messages work.
    assert_eq!(node.list().unwrap(), "p=2*return->off");
    node.emit(2).unwrap();
    for (method, path) in [("PUT", "/fail/p"), ("POST", "/load"), ("PUT", "/spread/p")] {
        let reply = node.answer(method, path, b"off").unwrap();
        assert_eq!(
            (reply.status, reply.body.as_slice()),
            (503, WAITING.as_bytes())
        );
    }
    // What can't succeed later doesn't wait.
    for (method, path, status) in [("POST", "/nowhere", 404), ("DELETE", "/load", 405)] {
        assert_eq!(node.answer(method, path, b"off").unwrap().status, status);
    }
    for (path, status) in [("/fail", 200), ("/report", 200), ("/nowhere", 404)] {
        assert_eq!(node.answer("GET", path, b"").unwrap().status, status);
    }
    assert_eq!(node.calls().unwrap(), 2);
    // The last node sends an empty message, which counts as well.
    let reply = node
        .answer("POST", "/gossip", &last.emit(1).unwrap())
        .unwrap();
    assert_eq!((reply.status, reply.body.as_slice()), (200, &b"same"[..]));
    assert!(node.is_set("p") && node.eval("p").is_some() && node.eval("p").is_none());
    node.set("q", "off").unwrap();
    let status = node.answer("GET", "/status", b"").unwrap().body;
    let status = String::from_utf8(status).unwrap();
    let (_, peers) = status.split_once(",\"peers\":[").unwrap();
    assert_eq!(peers.matches("\"heard\":\"").count(), 2, "{peers}");
    assert!(
        peers.ends_with("\"node\":\"2\",\"refused\":{}}]}"),
        "{peers}"
    );
}

#[test]
fn a_node_that_has_forgotten_does_nothing() {
    let told = Arc::new(Mutex::new(Vec::new()));
    let its = told.clone();
    let call = OnForgotten::call(move |error| its.lock().unwrap().push(error.kind()));
    for how in [OnForgotten::Stop, OnForgotten::Ignore, call] {
        let (first, last, was) = (open(0), open(2), open(1));
        was.set("p", "3*return->off").unwrap();
        was.pass("p").unwrap();
        first.deliver(&was.emit(0).unwrap()).unwrap();
        drop(was);
        let builder = Registry::builder().node(1).nodes(3).on_forgotten(how);
        let node = builder.hear_first(true).build().unwrap();
        node.deliver(&last.emit(1).unwrap()).unwrap();
        let message = first.emit(1).unwrap();
        let refused = node.deliver(&message).unwrap_err();
        assert_eq!(refused.kind(), ErrorKind::Forgotten);
        // A node that knows more about it stays missing, whatever `on_forgotten` does.
        let error = node.set("p", "3*return->off").unwrap_err();
        assert_eq!(error.kind(), ErrorKind::NotHeard);
        assert_eq!(node.eval("p"), None);
        let status = node.answer("GET", "/status", b"").unwrap().body;
        let status = String::from_utf8(status).unwrap();
        let row = "{\"heard\":null,\"node\":\"0\",\"refused\":{\"N18\":\"1\"}}";
        assert!(status.contains(row), "{status}");
    }
    assert_eq!(*told.lock().unwrap(), [ErrorKind::Forgotten]);
}

// One of two served nodes, which waits for the other.
fn served(number: u8, addr: SocketAddr, on_forgotten: OnForgotten) -> (Arc<Registry>, Serving) {
    let builder = Registry::builder().node(number).nodes(2);
    let builder = builder.hear_first(true).on_forgotten(on_forgotten);
    let node = Arc::new(builder.build().unwrap());
    let serving = serve(node.clone(), addr).unwrap();
    (node, serving)
}

fn telling(node: &Arc<Registry>, to: u8, addr: SocketAddr) -> Gossip {
    let peers = [Peer::new(to, addr)];
    gossip(node.clone(), &peers, Duration::from_millis(5)).unwrap()
}

#[test]
fn nodes_without_news_hear_each_other() {
    let any = SocketAddr::from((Ipv4Addr::LOCALHOST, 0));
    let (first, at_first) = served(0, any, OnForgotten::Stop);
    let (second, at_second) = served(1, any, OnForgotten::Stop);
    let (to_first, to_second) = (at_first.addr(), at_second.addr());
    assert_eq!(ask(to_first, "PUT", "/fail/p", "off").0, 503);
    let _forth = telling(&first, 1, to_second);
    let back = telling(&second, 0, to_first);
    assert!(comes(
        || ask(to_second, "PUT", "/fail/p", "return->off").0 == 200
    ));
    let is_told =
        || first.known(1) == Ok(1) && second.acked(0) == Ok(1) && first.acked(1) == first.version();
    assert!(comes(is_told));
    // It restarts, and nobody has changes for it: it requests a message.
    drop((back, second, at_second));
    let calls = Arc::new(AtomicU32::new(0));
    let its = calls.clone();
    let count = OnForgotten::call(move |_| _ = its.fetch_add(1, Ordering::SeqCst));
    let (again, _at_second) = served(1, to_second, count);
    let _asking = telling(&again, 0, to_first);
    assert!(comes(|| calls.load(Ordering::SeqCst) > 0));
    let error = again.set("p", "off").unwrap_err();
    assert_eq!(error.kind(), ErrorKind::NotHeard);
}

#[test]
fn one_that_hears_first_asks_those_that_do_not() {
    let any = SocketAddr::from((Ipv4Addr::LOCALHOST, 0));
    let first = Arc::new(Registry::open(0, 2, 1000).unwrap());
    let at_first = serve(first.clone(), any).unwrap();
    let (second, at_second) = served(1, any, OnForgotten::Stop);
    let _forth = telling(&first, 1, at_second.addr());
    let _back = telling(&second, 0, at_first.addr());
    assert!(comes(|| second.set("p", "return").is_ok()));
    // A node that requests a message gets one, even while calls wait.
    let (waiting, at_waiting) = served(0, any, OnForgotten::Stop);
    for (method, body, status) in [("POST", "1", 200), ("POST", "0", 400), ("GET", "", 405)] {
        assert_eq!(ask(at_waiting.addr(), method, "/hello", body).0, status);
    }
    assert_eq!(waiting.calls().unwrap(), 0);
}

#[test]
fn one_that_keeps_its_part_hears_them_too() {
    let path = nodes::new_file("hears_first");
    let messages = [open(0), open(2)].map(|other| other.emit(1).unwrap());
    for life in 0..2 {
        let builder = nodes::builder().hear_first(true).recording(&path);
        let node = builder.build().unwrap();
        assert_eq!(
            node.set("p", "off").unwrap_err().kind(),
            ErrorKind::NotHeard
        );
        assert_eq!(node.eval("p"), None);
        for message in &messages {
            node.deliver(message).unwrap();
        }
        if life == 0 {
            node.set("p", "return").unwrap();
        }
        assert!(node.eval("p").is_some());
    }
}
