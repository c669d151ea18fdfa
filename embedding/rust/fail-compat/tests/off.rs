//! A build without the feature `failpoints`: every point is nothing, and the calls exist.

#![cfg(not(feature = "failpoints"))]

use fail::{FailGuard, FailScenario, cfg, cfg_callback, list, remove};
use fail_compat::{conditional, number, plain, read_config, shard};

fn as_it_would(enable: bool) {
    assert_eq!(
        (plain(), number(), conditional(enable)),
        ("went on", 0, false)
    );
    assert_eq!(
        (read_config("a").unwrap().as_str(), shard(1)),
        ("config of a", None)
    );
    assert_eq!(fail_compat::any(5), 5);
    assert_eq!(fail_compat::numbers().count(), 2);
}

#[test]
fn points_are_nothing() {
    assert!(!fail::has_failpoints() && !fail_compat::HAS_FAILPOINTS);
    as_it_would(true);
    let scenario = FailScenario::setup();
    let told: String = cfg("number", "return").unwrap_err();
    assert!(
        told.contains("built without failpoints: build it with the feature"),
        "{told}"
    );
    assert_eq!(cfg_callback("number", || ()), Err(told.clone()));
    assert_eq!(FailGuard::new("number", "return").unwrap_err(), told);
    assert_eq!(FailGuard::with_callback("number", || ()).unwrap_err(), told);
    assert!(list().is_empty());
    assert_eq!(fail::eval("number", |text| text), None);
    remove("number");
    as_it_would(true);
    scenario.teardown();
    as_it_would(false);
}
