//! Scenarios of a program whose node is one of several: it keeps its history. A program of its own,
//! because a process has one registry.

use failreg::{FailScenario, OnRefusal, Registry, cfg, cfg_callback, list};
use std::sync::Arc;
use std::sync::atomic::{AtomicUsize, Ordering};
use std::thread;

/// How often a rejected evaluation was reported. It orders no memory access.
static TOLD: AtomicUsize = AtomicUsize::new(0);

fn passed(node: &'static Registry, name: &'static str) -> bool {
    node.eval(name).is_some()
}

#[test]
fn a_node_of_several_removes_its_points() {
    let builder = Registry::builder().nodes(2).cap(12);
    let count = OnRefusal::call(|_| _ = TOLD.fetch_add(1, Ordering::SeqCst));
    let node = builder.on_refusal(count).install().unwrap();
    points_are_removed(node);
    others_hear_of_it(node);
    the_cap_is_met(node);
}

fn points_are_removed(node: &'static Registry) {
    // Each existing callback counts once.
    let held = Arc::new(AtomicUsize::new(0));
    let scenario = FailScenario::setup();
    cfg("waits", "pause").unwrap();
    cfg("returns", "return").unwrap();
    let counted = held.clone();
    cfg_callback("calls", move || _ = counted.fetch_add(1, Ordering::SeqCst)).unwrap();
    let waits = thread::spawn(move || passed(node, "waits"));
    while node.hits("waits") == Ok(0) {
        thread::yield_now();
    }
    assert_eq!((list().len(), Arc::strong_count(&held)), (3, 2));
    scenario.teardown();
    assert!(!waits.join().unwrap());
    assert!(list().is_empty() && !passed(node, "returns"));
    assert_eq!(Arc::strong_count(&held), 1);
    // Three configurations, an evaluation, and three removals.
    assert_eq!(node.calls(), Ok(7));
}

fn others_hear_of_it(node: &'static Registry) {
    let other = Registry::open(1, 2, 10).unwrap();
    assert_eq!(other.deliver(&node.emit(1).unwrap()), Ok(true));
    assert_eq!((other.list(), node.calls()), (Ok(String::new()), Ok(8)));
}

fn the_cap_is_met(node: &'static Registry) {
    let scenario = FailScenario::setup();
    cfg("returns", "return").unwrap();
    let returned = (0..9).filter(|_| passed(node, "returns")).count();
    assert_eq!((returned, node.calls()), (3, Ok(12)));
    drop(scenario);
    let caught = std::panic::catch_unwind(|| drop(FailScenario::setup()));
    let told = *caught.unwrap_err().downcast::<String>().unwrap();
    let begin = "failpoints can't be set up: N1 TraceFull: ";
    assert!(told.starts_with(begin), "{told}");
    // The points do nothing from then on, which was reported once.
    assert!(!passed(node, "returns"));
    assert_eq!(TOLD.load(Ordering::SeqCst), 1);
}
