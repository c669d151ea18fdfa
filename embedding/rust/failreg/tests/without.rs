//! A build without the feature `failpoints`: no library is linked, and no point is ever set.

#![cfg(not(feature = "failpoints"))]

use failreg::{Error, ErrorKind, Passed, Registry, fail_point, gossip, serve};
use std::sync::Arc;
use std::time::Duration;

fn value(node: &Registry) -> u32 {
    fail_point!(in node, "value", |_| 1);
    fail_point!(in node, "value", node.is_set("value"), |_| 2);
    fail_point!("value");
    0
}

fn kind<T: std::fmt::Debug>(answer: Result<T, Error>) -> ErrorKind {
    answer.unwrap_err().kind()
}

#[test]
fn what_would_set_a_point_is_refused() {
    let node = Registry::open(0, 2, 10).unwrap();
    let disabled = [
        kind(node.set("value", "return")),
        kind(node.set_callback("value", || ())),
        kind(node.remove("value")),
        kind(node.load("value=return")),
        kind(node.shift("value", 0, 1, 1)),
        kind(node.grant("value", 0, 1)),
        kind(node.emit(1)),
        kind(node.deliver(b"")),
        kind(node.answer("PUT", "/fail/value", b"return")),
        kind(serve(
            Arc::new(Registry::open(0, 2, 10).unwrap()),
            "127.0.0.1:0",
        )),
        kind(gossip(
            Arc::new(Registry::open(0, 2, 10).unwrap()),
            &[],
            Duration::ZERO,
        )),
    ];
    assert_eq!(disabled, [ErrorKind::Disabled; 11]);
    let told = node.set("value", "return").unwrap_err();
    assert_eq!(
        told.to_string(),
        "point \"value\": the program was built without failpoints: build it with the feature \
         `failpoints` of the crate failreg"
    );
    assert_eq!(told.code(), None);
    assert_eq!(format!("{told:?}"), format!("{told} (Disabled)"));
}

#[test]
fn what_reads_tells_of_nothing() {
    let node = Registry::open(0, 2, 10).unwrap();
    assert_eq!((value(&node), node.eval("value")), (0, None));
    assert_eq!(
        (node.pass("value"), node.is_set("value")),
        (Ok(Passed::Unset), false)
    );
    assert_eq!((node.list(), node.load("")), (Ok(String::new()), Ok(0)));
    assert_eq!((node.hits("value"), node.spent("value", 0)), (Ok(0), Ok(0)));
    assert_eq!((node.rights("value", 0, 0), node.calls()), (Ok(0), Ok(0)));
    assert_eq!(
        (node.version(), node.known(1), node.acked(1)),
        (Ok(0), Ok(0), Ok(0))
    );
    node.close();
    assert_eq!(kind(node.list()), ErrorKind::Closed);
    assert_eq!(kind(Registry::open(2, 2, 10)), ErrorKind::BadConfig);
    assert_eq!(kind(Registry::open(0, 33, 10)), ErrorKind::BadConfig);
}

// One test, because there is one environment and one registry.
#[test]
fn the_program_starts_where_nothing_is_asked_for() {
    let points = "value=return";
    // SAFETY: no other test of this program reads the environment.
    unsafe { std::env::set_var("FAILPOINTS", points) };
    for told in [kind(failreg::setup(0, 1, 10)), kind(failreg::from_env())] {
        assert_eq!(told, ErrorKind::Disabled);
    }
    // SAFETY: as above.
    unsafe { std::env::remove_var("FAILPOINTS") };
    let program = failreg::from_env().unwrap();
    assert_eq!((program.calls(), value(&program)), (Ok(0), 0));
    assert!(std::ptr::eq(
        program.registry(),
        failreg::setup(0, 1, 10).unwrap()
    ));
    assert!(program.finish().is_ok());
}
