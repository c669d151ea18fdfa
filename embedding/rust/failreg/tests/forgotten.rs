//! Nodes that restarted under their number without their journal.
#![cfg(feature = "failpoints")]

use failreg::{ErrorKind, OnForgotten, Peer, Registry, gossip, serve};
use std::net::Ipv4Addr;
use std::sync::atomic::{AtomicU32, Ordering};
use std::sync::{Arc, Mutex};
use std::thread;
use std::time::{Duration, Instant};

const SETTING: &str = "3*return->off";

// Node 0 of two, which knows what node 1 did, and node 1, restarted.
fn nodes(how: OnForgotten) -> (Registry, Registry) {
    let other = Registry::open(0, 2, 1000).unwrap();
    let was = Registry::open(1, 2, 1000).unwrap();
    was.set("p", SETTING).unwrap();
    for _ in 0..2 {
        was.pass("p").unwrap();
    }
    other.deliver(&was.emit(0).unwrap()).unwrap();
    drop(was);
    let builder = Registry::builder().node(1).nodes(2).on_forgotten(how);
    let node = builder.build().unwrap();
    node.set("p", SETTING).unwrap();
    (other, node)
}

#[test]
fn its_points_do_nothing() {
    let (other, node) = nodes(OnForgotten::Stop);
    assert!(node.is_set("p") && node.eval("p").is_some());
    let message = other.emit(1).unwrap();
    for _ in 0..2 {
        let refused = node.deliver(&message).unwrap_err();
        assert_eq!(refused.kind(), ErrorKind::Forgotten);
        assert!(!node.is_set("p") && node.eval("p").is_none());
    }
    // Whatever it learns.
    node.set("q", "return").unwrap();
    assert!(!node.is_set("q") && node.eval("q").is_none());
    assert_eq!(node.list().unwrap(), format!("p={SETTING};q=return"));
}

#[test]
fn its_points_continue_if_that_is_wanted() {
    let told = Arc::new(Mutex::new(Vec::new()));
    let its = told.clone();
    let call = OnForgotten::call(move |error| its.lock().unwrap().push(error.kind()));
    for how in [OnForgotten::Ignore, call] {
        let (other, node) = nodes(how);
        let message = other.emit(1).unwrap();
        let reply = node.answer("POST", "/gossip", &message).unwrap();
        assert_eq!((reply.status, &reply.body[..4]), (400, &b"N18 "[..]));
        assert!(node.is_set("p") && node.eval("p").is_some());
    }
    assert_eq!(*told.lock().unwrap(), [ErrorKind::Forgotten]);
}

#[test]
fn it_is_told_of_a_message_that_is_posted() {
    let calls = Arc::new(AtomicU32::new(0));
    let its = calls.clone();
    let how = OnForgotten::call(move |_| _ = its.fetch_add(1, Ordering::SeqCst));
    let (other, node) = nodes(how);
    let serving = serve(Arc::new(node), (Ipv4Addr::LOCALHOST, 0)).unwrap();
    let peers = [Peer::new(1, serving.addr())];
    let gossip = gossip(Arc::new(other), &peers, Duration::from_millis(5)).unwrap();
    let begun = Instant::now();
    let failure = loop {
        if let Some(failure) = gossip.peers()[0].failure.clone() {
            break failure;
        }
        assert!(begun.elapsed() < Duration::from_secs(10));
        thread::sleep(Duration::from_millis(5));
    };
    assert_eq!(failure.what, "it answered with status 400");
    assert!(calls.load(Ordering::SeqCst) > 0);
}
