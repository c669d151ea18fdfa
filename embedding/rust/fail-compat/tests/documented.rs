//! What fail-rs documents of its calls, action by action.

#![cfg(feature = "failpoints")]

use fail::{FailGuard, FailScenario, cfg, cfg_callback, list, remove};
use fail_compat::{conditional, number, plain, read_config, shard};
use std::panic::{AssertUnwindSafe, catch_unwind};
use std::process::Command;
use std::sync::Arc;
use std::sync::atomic::{AtomicBool, AtomicUsize, Ordering};
use std::sync::mpsc::channel;
use std::thread;
use std::time::{Duration, Instant};

const SHORT: Duration = Duration::from_millis(40);

// The text of this closure's panic.
fn panic_of<T>(run: impl FnOnce() -> T) -> String {
    let Err(caught) = catch_unwind(AssertUnwindSafe(run)) else {
        panic!("no panic came");
    };
    match caught.downcast::<String>() {
        Ok(text) => *text,
        Err(caught) => caught.downcast_ref::<&str>().unwrap().to_string(),
    }
}

fn time_of<T>(run: impl FnOnce() -> T) -> Duration {
    let begun = Instant::now();
    run();
    begun.elapsed()
}

// How many of this many evaluations returned.
fn returned(passes: usize) -> usize {
    (0..passes).filter(|_| number() != 0).count()
}

#[test]
fn a_point_that_is_not_set_does_nothing() {
    let scenario = FailScenario::setup();
    assert!(fail::has_failpoints() && fail_compat::HAS_FAILPOINTS);
    assert_eq!(
        (plain(), number(), conditional(true)),
        ("went on", 0, false)
    );
    assert!(list().is_empty());
    scenario.teardown();
}

#[test]
fn off_does_nothing() {
    let _scenario = FailScenario::setup();
    cfg("number", "off").unwrap();
    assert_eq!(returned(10), 0);
}

#[test]
fn return_leaves_the_function() {
    let _scenario = FailScenario::setup();
    cfg("number", "return").unwrap();
    assert_eq!(number(), 2);
    cfg("number", "return(100)").unwrap();
    assert_eq!(number(), 100);
    cfg("read-config", "return").unwrap();
    assert_eq!(read_config("a").unwrap_err().to_string(), "no reason");
    cfg("read-config", "return(the disk is full)").unwrap();
    let error = read_config("a").unwrap_err();
    assert_eq!(error.to_string(), "the disk is full");
    cfg("read-config", "return()").unwrap();
    assert_eq!(read_config("a").unwrap_err().to_string(), "");
    remove("read-config");
    assert_eq!(read_config("a").unwrap(), "config of a");
}

#[test]
fn return_panics_where_nothing_is_to_be_returned() {
    let _scenario = FailScenario::setup();
    cfg("plain", "return(1)").unwrap();
    let text = panic_of(plain);
    assert_eq!(text, "Return is not supported for the fail point \"plain\"");
}

#[test]
fn each_form_leaves_its_function() {
    let _scenario = FailScenario::setup();
    let names = [
        "nothing",
        "by::function",
        "any.closure",
        "numbers",
        "mine.own",
    ];
    names
        .iter()
        .for_each(|name| cfg(*name, "return(x)").unwrap());
    let mut reached = false;
    fail_compat::nothing(&mut reached);
    assert!(!reached);
    assert_eq!(fail_compat::by_function().unwrap_err().to_string(), "x");
    assert_eq!(fail_compat::any(5), 0);
    assert_eq!(fail_compat::numbers().collect::<Vec<_>>(), [9]);
    let own = || -> Option<String> {
        fail_compat::point_of_mine!("own");
        None
    };
    assert_eq!(own().as_deref(), Some("x"));
    drop(fail_compat::later());
}

#[test]
fn a_condition_is_asked_first() {
    let _scenario = FailScenario::setup();
    cfg("conditional", "1*return->panic").unwrap();
    assert!(!conditional(false));
    assert!(conditional(true));
    assert!(!conditional(false));
    assert_eq!(
        panic_of(|| conditional(true)),
        "failpoint conditional panic"
    );
}

#[test]
fn a_name_may_be_made_while_the_program_runs() {
    let _scenario = FailScenario::setup();
    cfg("shard.7", "return(seven)").unwrap();
    assert_eq!((shard(6), shard(7).as_deref()), (None, Some("seven")));
    cfg(String::from("shard.6"), "return(six)").unwrap();
    remove(String::from("shard.7"));
    assert_eq!((shard(6).as_deref(), shard(7)), (Some("six"), None));
}

#[test]
fn sleep_sleeps() {
    let _scenario = FailScenario::setup();
    cfg("number", "sleep(40)").unwrap();
    assert!(time_of(number) >= SHORT);
    assert_eq!(number(), 0);
}

#[test]
fn delay_keeps_busy() {
    let _scenario = FailScenario::setup();
    cfg("number", "delay(40)").unwrap();
    assert!(time_of(number) >= SHORT);
}

#[test]
fn yield_goes_on() {
    let _scenario = FailScenario::setup();
    cfg("number", "yield").unwrap();
    assert_eq!(number(), 0);
}

#[test]
fn panic_panics_with_its_message() {
    let _scenario = FailScenario::setup();
    cfg("plain", "panic(msg)").unwrap();
    assert_eq!(panic_of(plain), "msg");
    cfg("plain", "panic").unwrap();
    assert_eq!(panic_of(plain), "failpoint plain panic");
    // A panic leaves nothing locked.
    remove("plain");
    assert_eq!(plain(), "went on");
}

// The output of `print` is seen from outside: this test runs itself, and evaluates the point there.
#[test]
fn print_writes_to_standard_error() {
    const CHILD: &str = "FAIL_COMPAT_PRINTS";
    let _scenario = FailScenario::setup();
    if std::env::var_os(CHILD).is_some() {
        cfg("plain", "1*print(written)->print").unwrap();
        assert_eq!((plain(), plain()), ("went on", "went on"));
        return;
    }
    let ran = Command::new(std::env::current_exe().unwrap())
        .args(["--exact", "print_writes_to_standard_error", "--nocapture"])
        .env(CHILD, "")
        .output()
        .unwrap();
    let told = String::from_utf8(ran.stderr).unwrap();
    assert!(ran.status.success(), "{told}");
    assert!(
        told.contains("written\nfailpoint plain executed.\n"),
        "{told}"
    );
}

#[test]
fn pause_waits_for_another_setting() {
    type Ends = fn();
    let ends: [Ends; 3] = [
        || cfg("number", "off").unwrap(),
        || remove("number"),
        || cfg_callback("number", || ()).unwrap(),
    ];
    for end in ends {
        let _scenario = FailScenario::setup();
        cfg("number", "pause").unwrap();
        let (tell, told) = channel();
        let waits = thread::spawn(move || tell.send(number()).unwrap());
        cfg("other", "off").unwrap();
        assert!(told.recv_timeout(SHORT).is_err());
        end();
        assert_eq!(told.recv_timeout(100 * SHORT), Ok(0));
        waits.join().unwrap();
    }
}

#[test]
fn pause_ends_with_the_scenario() {
    const THREADS: usize = 16;
    for round in 0..10 {
        let scenario = FailScenario::setup();
        cfg("number", "pause").unwrap();
        let (tell, told) = channel();
        let (begin, begun) = channel();
        for _ in 0..THREADS {
            let (begin, tell) = (begin.clone(), tell.clone());
            thread::spawn(move || {
                begin.send(()).unwrap();
                tell.send(number()).unwrap()
            });
        }
        for _ in 0..THREADS {
            begun.recv().unwrap();
        }
        // Each is about to evaluate now, and waits before this is over.
        assert!(told.recv_timeout(4 * SHORT).is_err());
        scenario.teardown();
        // The next scenario may set the same string again: that is another configuration, and
        // nobody waits for it.
        let next = (round % 2 == 0).then(FailScenario::setup);
        if next.is_some() {
            cfg("number", "pause").unwrap();
        }
        for _ in 0..THREADS {
            assert_eq!(told.recv_timeout(100 * SHORT), Ok(0));
        }
    }
}

#[test]
fn a_frequency_is_a_chance() {
    let _scenario = FailScenario::setup();
    cfg("number", "50%return").unwrap();
    let times = returned(2000);
    assert!((800..1200).contains(&times), "{times}");
    cfg("number", "0.1%return").unwrap();
    assert!(returned(2000) < 40);
    cfg("number", "0%return").unwrap();
    assert_eq!(returned(1000), 0);
    cfg("number", "100%return").unwrap();
    assert_eq!(returned(1000), 1000);
}

#[test]
fn a_count_is_the_most_times() {
    let _scenario = FailScenario::setup();
    cfg("number", "3*return").unwrap();
    assert_eq!(returned(10), 3);
    // A new configuration starts counting at zero.
    cfg("number", "3*return").unwrap();
    assert_eq!(returned(10), 3);
    cfg("number", "0*return").unwrap();
    assert_eq!(returned(10), 0);
}

#[test]
fn a_count_holds_over_threads() {
    let _scenario = FailScenario::setup();
    cfg("number", "100*return(1)").unwrap();
    let threads: Vec<_> = (0..8).map(|_| thread::spawn(|| returned(50))).collect();
    let times = threads.into_iter().map(|it| it.join().unwrap());
    assert_eq!(times.sum::<usize>(), 100);
}

#[test]
fn a_chain_takes_the_first_action_that_is_triggered() {
    let _scenario = FailScenario::setup();
    cfg("number", "2*return(5)->1*return(6)->off").unwrap();
    assert_eq!([number(), number(), number(), number()], [5, 5, 6, 0]);
    cfg("number", "20%3*return(7)->return(8)").unwrap();
    let all: Vec<u64> = (0..1000).map(|_| number()).collect();
    let sevens = all.iter().filter(|value| **value == 7).count();
    assert_eq!((sevens, all.len() - sevens), (3, 997));
    assert!(all.iter().all(|value| [7, 8].contains(value)));
}

#[test]
fn spaces_may_stand_round_an_action() {
    let _scenario = FailScenario::setup();
    cfg("number", " 1*return(5) -> 100%1*return(6) -> off ").unwrap();
    assert_eq!([number(), number(), number()], [5, 6, 0]);
}

#[test]
fn a_wrong_text_is_an_error_and_changes_nothing() {
    let _scenario = FailScenario::setup();
    cfg("number", "return(1)").unwrap();
    for wrong in [
        "",
        "retrun",
        "return(1",
        "x%off",
        "-1*off",
        "sleep",
        "sleep(x)",
        "delay",
        "delay(1.5)",
        "off->",
        "off,off",
    ] {
        let error: String = cfg("number", wrong).unwrap_err();
        assert!(
            error.starts_with("point \"number\": N3 "),
            "{wrong}: {error}"
        );
        assert!(FailGuard::new("number", wrong).is_err());
    }
    assert_eq!(number(), 1);
    let listed = [("number".to_owned(), "return(1)".to_owned())];
    assert_eq!(list(), listed);
}

#[test]
fn a_callback_is_called_by_each_pass() {
    let _scenario = FailScenario::setup();
    // Counts the calls.
    let times = Arc::new(AtomicUsize::new(0));
    let counted = times.clone();
    cfg_callback("number", move || _ = counted.fetch_add(1, Ordering::SeqCst)).unwrap();
    assert_eq!(returned(3), 0);
    assert_eq!(times.load(Ordering::SeqCst), 3);
    let listed = [("number".to_owned(), "callback".to_owned())];
    assert_eq!(list(), listed);
    cfg("number", "return").unwrap();
    assert_eq!((number(), times.load(Ordering::SeqCst)), (2, 3));
    // It may use the points itself.
    cfg_callback("number", || {
        remove("number");
        cfg("plain", "panic(from the callback)").unwrap();
    })
    .unwrap();
    assert_eq!((number(), number()), (0, 0));
    assert_eq!(panic_of(plain), "from the callback");
}

#[test]
fn a_callback_of_one_thread_may_wait_for_another() {
    let _scenario = FailScenario::setup();
    let (tell, told) = channel();
    // Guards nothing: a `Receiver` is for one thread at a time.
    let told = std::sync::Mutex::new(told);
    cfg_callback("number", move || told.lock().unwrap().recv().unwrap()).unwrap();
    let waits = thread::spawn(number);
    cfg("plain", "panic").unwrap();
    assert_eq!(panic_of(plain), "failpoint plain panic");
    tell.send(()).unwrap();
    assert_eq!(waits.join().unwrap(), 0);
}

#[test]
fn remove_unsets_a_point() {
    let _scenario = FailScenario::setup();
    cfg("number", "return").unwrap();
    remove("number");
    assert_eq!(number(), 0);
    remove("number");
    remove("never set");
    assert!(list().is_empty());
}

#[test]
fn a_list_has_each_point_and_its_actions() {
    let _scenario = FailScenario::setup();
    cfg("b", "20%3*print(still alive!)->panic").unwrap();
    cfg("a", "off").unwrap();
    let mut listed = list();
    listed.sort();
    let pair = |name: &str, actions: &str| (name.to_owned(), actions.to_owned());
    assert_eq!(
        listed,
        [
            pair("a", "off"),
            pair("b", "20%3*print(still alive!)->panic")
        ]
    );
}

#[test]
fn a_guard_removes_its_point() {
    let _scenario = FailScenario::setup();
    let guard = FailGuard::new("number", "return(4)").unwrap();
    assert_eq!(number(), 4);
    drop(guard);
    assert_eq!(number(), 0);
    // Even if the thread panics.
    let text = panic_of(|| {
        let _guard = FailGuard::new(String::from("plain"), "panic(out)").unwrap();
        plain()
    });
    assert_eq!((text.as_str(), plain()), ("out", "went on"));
    // Whether the closure was called.
    let was_called = Arc::new(AtomicBool::new(false));
    let called = was_called.clone();
    let guard = FailGuard::with_callback("plain", move || called.store(true, Ordering::SeqCst));
    assert_eq!(
        (plain(), was_called.load(Ordering::SeqCst)),
        ("went on", true)
    );
    assert!(format!("{guard:?}").contains("plain"));
    drop(guard);
    assert!(list().is_empty());
}

#[test]
fn one_scenario_runs_at_a_time() {
    let first = FailScenario::setup();
    cfg("number", "return").unwrap();
    let (tell, told) = channel();
    let second = thread::spawn(move || {
        let _scenario = FailScenario::setup();
        tell.send(list()).unwrap();
    });
    assert!(told.recv_timeout(SHORT).is_err());
    assert_eq!(number(), 2);
    first.teardown();
    assert_eq!(told.recv_timeout(100 * SHORT), Ok(Vec::new()));
    second.join().unwrap();
}

#[test]
fn a_scenario_that_panics_lets_the_next_one_begin() {
    let text = panic_of(|| {
        let _scenario = FailScenario::setup();
        cfg("plain", "panic(broken off)").unwrap();
        plain()
    });
    assert_eq!(text, "broken off");
    let _scenario = FailScenario::setup();
    assert_eq!((plain(), list().len()), ("went on", 0));
}

#[test]
fn a_program_may_have_any_number_of_scenarios() {
    for round in 0..20 {
        let _scenario = FailScenario::setup();
        // Whatever was set before it, the point is found under its name.
        for point in 0..100 + round {
            cfg(format!("p{round}.{point}"), "return").unwrap();
        }
        cfg("number", &format!("2*return({round})->return")).unwrap();
        assert_eq!([number(), number(), number()], [round, round, 2]);
        assert_eq!(list().len() as u64, 101 + round);
    }
}

#[test]
fn eval_answers_what_the_closure_makes() {
    let _scenario = FailScenario::setup();
    assert_eq!(fail::eval("number", |text| text), None);
    cfg("number", "return(5)").unwrap();
    let value = fail::eval("number", |text| text.map(|text| text.len()));
    assert_eq!(value, Some(Some(1)));
}
