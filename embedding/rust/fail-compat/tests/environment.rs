//! FAILPOINTS, which a scenario reads: a program of its own, because a process has one environment.

#![cfg(feature = "failpoints")]

use fail::{FailScenario, cfg, list};
use fail_compat::number;

fn set_failpoints(text: &str) {
    // SAFETY: this program has one test, and so one thread that reads the environment.
    unsafe { std::env::set_var("FAILPOINTS", text) };
}

#[test]
fn the_environment_is_read() {
    not_before_a_scenario();
    by_each_scenario();
    with_an_error_for_what_is_wrong();
    once_by_setup();
}

fn not_before_a_scenario() {
    set_failpoints("number=return(3);b.c=20%1*print(x)->off");
    assert_eq!(number(), 0);
    cfg("other", "off").unwrap();
    assert_eq!((number(), list().len()), (0, 1));
}

fn by_each_scenario() {
    let scenario = FailScenario::setup();
    let mut listed = list();
    listed.sort();
    let actions = "20%1*print(x)->off".to_owned();
    assert_eq!(listed[0], ("b.c".to_owned(), actions));
    assert_eq!((number(), listed.len()), (3, 2));
    cfg("number", "return(4)").unwrap();
    assert_eq!(number(), 4);
    scenario.teardown();
    // The program's node is another one, and no evaluation of an unset point is a call of it.
    assert_eq!((number(), list().len()), (0, 0));
    assert_eq!(fail::program().unwrap().calls(), Ok(0));

    // Entries may be empty, with spaces around them.
    set_failpoints(" ; number=return(5) ;; ");
    let scenario = FailScenario::setup();
    assert_eq!(number(), 5);
    drop(scenario);
    set_failpoints("");
    FailScenario::setup().teardown();
}

fn with_an_error_for_what_is_wrong() {
    for wrong in ["number", "number=retrun", "a=off,b=off", "a b=off"] {
        set_failpoints(wrong);
        let caught = std::panic::catch_unwind(|| drop(FailScenario::setup()));
        let told = *caught.unwrap_err().downcast::<String>().unwrap();
        let begin = format!("failpoints can't be set up: FAILPOINTS={wrong:?}: N");
        assert!(told.starts_with(&begin), "{told}");
    }
    set_failpoints("number=return(6)");
    let _scenario = FailScenario::setup();
    assert_eq!(number(), 6);
}

// The program's registry was opened above; it may be set up all the same.
fn once_by_setup() {
    fail::setup(0, 1, 1000).unwrap();
    assert_eq!(number(), 6);
    fail::remove("number");
    fail::setup(0, 1, 1000).unwrap();
    assert_eq!(number(), 0);
    assert!(fail::setup(0, 2, 1000).is_err());
}
