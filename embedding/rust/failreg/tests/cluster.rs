//! Nodes of one program: counts over threads, actions, errors.

use failreg::{Error, ErrorKind, OnRefusal, Passed, Registry, Stamp, Task, fail_point};
use std::sync::Arc;
use std::sync::atomic::{AtomicUsize, Ordering};
use std::time::{Duration, Instant};

const SEED: [u8; 32] = [7; 32];

fn pair() -> (Registry, Registry) {
    (
        Registry::open(0, 2, 100_000).unwrap(),
        Registry::open(1, 2, 100_000).unwrap(),
    )
}

fn runs(node: &Registry, passes: usize) -> usize {
    (0..passes).filter(|_| node.eval("p").is_some()).count()
}

fn runs_in_threads(node: &Registry) -> usize {
    std::thread::scope(|scope| {
        let threads: Vec<_> = (0..4).map(|_| scope.spawn(|| runs(node, 2000))).collect();
        threads
            .into_iter()
            .map(|thread| thread.join().unwrap())
            .sum()
    })
}

#[test]
fn two_nodes_share_a_count_over_threads() {
    let (a, b) = pair();
    a.set("p", "1000*return->off").unwrap();
    assert_eq!(a.shift("p", 0, 1, 300), Ok(300));
    assert_eq!(runs(&b, 10), 0);
    assert_eq!(b.calls(), Ok(0));
    let message = a.emit(1).unwrap();
    assert_eq!(
        (b.deliver(&message), b.deliver(&message)),
        (Ok(true), Ok(false))
    );
    let both = std::thread::scope(|scope| {
        let at_b = scope.spawn(|| runs_in_threads(&b));
        (runs_in_threads(&a), at_b.join().unwrap())
    });
    assert_eq!(both, (700, 300));
    a.deliver(&b.emit(0).unwrap()).unwrap();
    assert_eq!((a.spent("p", 0), a.hits("p")), (Ok(1000), Ok(16_000)));
    assert_eq!((a.rights("p", 0, 0), a.rights("p", 0, 1)), (Ok(0), Ok(0)));
    assert_eq!((a.grant("p", 0, 5), runs(&a, 10)), (Ok(5), 5));
    assert_eq!(a.list(), Ok("p=1000*return->off".to_string()));
    assert_eq!(
        (a.known(1), b.acked(0), b.known(0)),
        (b.version(), Ok(0), Ok(2))
    );
}

fn value(node: &Registry) -> u32 {
    fail_point!(in node, "value", |text: Option<String>| text.map_or(7, |t| t.parse().unwrap()));
    1
}

fn guarded(node: &Registry, condition: bool) -> u32 {
    fail_point!(in node, "value", condition, |_| 3);
    fail_point!(in node, "other");
    1
}

fn panics_with(f: impl FnOnce() -> u32) -> String {
    let caught = std::panic::catch_unwind(std::panic::AssertUnwindSafe(f)).unwrap_err();
    let text = caught.downcast_ref::<&str>().map(|text| text.to_string());
    text.unwrap_or_else(|| caught.downcast_ref::<String>().unwrap().clone())
}

#[test]
fn tasks_are_carried_out() {
    let (a, _) = pair();
    assert_eq!(value(&a), 1);
    a.set("value", "1*return(42)->1*return->off").unwrap();
    assert_eq!((value(&a), value(&a), value(&a)), (42, 7, 1));
    a.set("value", "return").unwrap();
    assert_eq!((guarded(&a, false), guarded(&a, true)), (1, 3));
    a.set("other", "return").unwrap();
    let text = panics_with(|| guarded(&a, false));
    assert_eq!(text, "Return is not supported for the fail point \"other\"");
    a.set("value", "1*panic(boom)->panic").unwrap();
    assert_eq!(panics_with(|| value(&a)), "boom");
    assert_eq!(panics_with(|| value(&a)), "failpoint value panic");
    let begun = Instant::now();
    a.set(
        "value",
        "1*sleep(30)->1*delay(30)->1*yield->1*print(hello)->1*print",
    )
    .unwrap();
    assert_eq!((0..5).map(|_| value(&a)).sum::<u32>(), 5);
    assert!(begun.elapsed() >= Duration::from_millis(60));
    let stamp = Stamp { clock: 5, node: 0 };
    assert_eq!(a.pass("value"), Ok(Passed::NoTerm { stamp }));
    a.set("value", "0%return->100%delay(3)").unwrap();
    let (term, task) = (1, Task::Delay(Duration::from_millis(3)));
    let stamp = Stamp { clock: 6, node: 0 };
    assert_eq!(a.pass("value"), Ok(Passed::Act { stamp, term, task }));
}

#[test]
fn a_pause_ends_where_the_setting_does() {
    type Ends = fn(&Registry);
    let ends: [Ends; 4] = [
        |a| assert!(a.remove("p").is_ok()),
        |a| assert!(a.set("p", "off").is_ok()),
        |a| assert_eq!(a.load("p=off"), Ok(1)),
        |a| a.close(),
    ];
    for end in ends {
        let a = Registry::open(0, 1, 1000).unwrap();
        a.set("p", "pause").unwrap();
        std::thread::scope(|scope| {
            let waits = scope.spawn(|| a.eval("p"));
            while a.hits("p") == Ok(0) {
                std::thread::yield_now();
            }
            a.set("other", "off").unwrap();
            std::thread::sleep(Duration::from_millis(30));
            assert!(!waits.is_finished());
            end(&a);
            assert_eq!(waits.join().unwrap(), None);
        });
    }
}

#[test]
fn a_point_that_is_not_set_takes_no_entry() {
    let a = Registry::open(0, 1, 10).unwrap();
    assert_eq!(runs(&a, 1000), 0);
    a.set("other", "off").unwrap();
    assert_eq!(
        (runs(&a, 1000), a.is_set("p"), a.is_set("other")),
        (0, false, true)
    );
    // Names that share a bit with one that is set are looked up, and not evaluated either.
    (0..100_000).for_each(|n| assert_eq!(a.eval(&format!("p{n}")), None));
    assert_eq!(a.calls(), Ok(1));
    a.remove("other").unwrap();
    assert_eq!((a.is_set("other"), a.calls()), (false, Ok(2)));
}

fn named(node: &Registry, name: &str) -> bool {
    fail_point!(in node, name, |_| true);
    false
}

fn spelled(node: &Registry) -> bool {
    fail_point!(in node, "spelled", |_| true);
    false
}

#[test]
fn a_site_remembers_settings_of_one_registry() {
    let (a, b) = pair();
    assert_eq!((spelled(&a), spelled(&b)), (false, false));
    a.set("other", "return").unwrap();
    assert_eq!((spelled(&a), spelled(&a), a.calls()), (false, false, Ok(1)));
    b.set("spelled", "return").unwrap();
    assert_eq!(
        (spelled(&a), spelled(&b), spelled(&a)),
        (false, true, false)
    );
    a.set("spelled", "return").unwrap();
    assert_eq!((spelled(&a), spelled(&b)), (true, true));
    // A set that only changes what a point does doesn't change which points are set.
    a.set("spelled", "1*return->off").unwrap();
    assert_eq!((spelled(&a), spelled(&a)), (true, false));
    a.remove("spelled").unwrap();
    assert_eq!((spelled(&a), spelled(&b)), (false, true));
    // A configuration from another node is visible once its message is accepted.
    a.deliver(&b.emit(0).unwrap()).unwrap();
    assert_eq!(spelled(&a), a.is_set("spelled"));
    b.remove("spelled").unwrap();
    assert_eq!((spelled(&a), spelled(&b)), (false, false));
    // A name that isn't a literal may be another one each time.
    assert_eq!((named(&a, "spelled"), named(&a, "other")), (false, true));
    a.close();
    assert_eq!((spelled(&a), named(&a, "other")), (false, false));
}

fn shared(node: &Registry) -> Option<String> {
    fail_point!(in node, "shared", |argument| argument);
    None
}

fn before_it(node: &Registry) -> Option<String> {
    fail_point!(in node, "before.it", |argument| argument);
    None
}

// The point has another number in each registry, and threads evaluate the site for both in turn.
#[test]
fn a_site_takes_no_number_of_another_registry() {
    let (a, b) = (
        Registry::open(0, 1, 200_000).unwrap(),
        Registry::open(0, 1, 200_000).unwrap(),
    );
    a.set("shared", "return(of a)").unwrap();
    b.set("before.it", "return(before)").unwrap();
    b.set("shared", "return(of b)").unwrap();
    assert_eq!(before_it(&b).as_deref(), Some("before"));
    std::thread::scope(|scope| {
        for (node, wanted) in [(&a, "of a"), (&b, "of b"), (&a, "of a"), (&b, "of b")] {
            scope.spawn(move || {
                for _ in 0..10_000 {
                    assert_eq!(shared(node).as_deref(), Some(wanted));
                }
            });
        }
    });
    assert_eq!(
        (a.hits("shared"), b.hits("shared")),
        (Ok(20_000), Ok(20_000))
    );
    a.remove("shared").unwrap();
    assert_eq!((shared(&a), shared(&b)), (None, Some("of b".into())));
    b.set("shared", "return(again)").unwrap();
    assert_eq!((shared(&a), shared(&b)), (None, Some("again".into())));
}

#[test]
fn a_site_sees_each_change_that_came_before() {
    let a = Registry::open(0, 1, 1_000_000).unwrap();
    a.set("other", "off").unwrap();
    std::thread::scope(|scope| {
        (0..3).for_each(|_| drop(scope.spawn(|| (0..20_000).for_each(|_| _ = spelled(&a)))));
        for _ in 0..500 {
            a.set("spelled", "return").unwrap();
            assert!(spelled(&a));
            a.remove("spelled").unwrap();
            assert!(!spelled(&a));
        }
    });
}

#[test]
fn a_full_trace_is_told_once() {
    // Counts the reports.
    let times = Arc::new(AtomicUsize::new(0));
    let counted = times.clone();
    let builder = Registry::builder().cap(5);
    let a = builder
        .on_refusal(OnRefusal::call(move |error| {
            assert_eq!(error.kind(), ErrorKind::CapReached);
            assert_eq!((error.code(), error.fault()), (Some(1), "N1 TraceFull"));
            assert!(error.to_string().starts_with("point \"p\": N1 TraceFull: "));
            counted.fetch_add(1, Ordering::SeqCst);
        }))
        .build()
        .unwrap();
    a.set("p", "return").unwrap();
    assert_eq!((runs_in_threads(&a), times.load(Ordering::SeqCst)), (4, 1));
    let kind = a.set("p", "off").unwrap_err().kind();
    assert_eq!((kind, runs(&a, 9)), (ErrorKind::CapReached, 0));
    assert_eq!((times.load(Ordering::SeqCst), a.calls()), (1, Ok(5)));
}

#[test]
fn a_refused_pass_may_panic_or_say_nothing() {
    let open = |policy| {
        let builder = Registry::builder().cap(1).on_refusal(policy);
        let node = builder.build().unwrap();
        node.set("p", "return").unwrap();
        node
    };
    let told = panics_with(|| runs(&open(OnRefusal::Panic), 1) as u32);
    let begin = "failreg: an evaluation was rejected: point \"p\": N1 TraceFull: ";
    let end = "; its failpoints do nothing from now on";
    assert!(told.starts_with(begin) && told.ends_with(end), "{told}");
    assert_eq!(runs(&open(OnRefusal::Ignore), 9), 0);
}

fn refused<T: std::fmt::Debug>(answer: Result<T, Error>) -> (ErrorKind, u32, String) {
    let error = answer.unwrap_err();
    let code = error.code().expect("the library refused it");
    (error.kind(), code, error.fault().to_string())
}

fn because(kind: ErrorKind, code: u32, fault: &str) -> (ErrorKind, u32, String) {
    (kind, code, fault.to_string())
}

#[test]
fn refusals_say_why() {
    let (a, b) = pair();
    let bad_name = because(ErrorKind::BadName, 2, "N2 BadName");
    assert_eq!(refused(a.set("a b", "off")), bad_name);
    assert_eq!(refused(a.hits("a b")), bad_name);
    let unknown = "N3 BadActions A7 UnknownTask term=0";
    let bad_text = because(ErrorKind::BadText, 3, unknown);
    assert_eq!(refused(a.set("p", "offf")), bad_text);
    let not_set = because(ErrorKind::NotSet, 6, "N6 NotSet");
    assert_eq!(refused(a.shift("p", 0, 1, 1)), not_set);
    let (kind, code, _) = refused(b.deliver(b"noise"));
    assert_eq!((kind, code), (ErrorKind::BadMessage, 16));
    let misled = refused(b.deliver(&b.emit(0).unwrap()));
    assert_eq!(
        misled,
        because(ErrorKind::WrongReceiver, 17, "N17 NotForMe")
    );
    let config = refused(Registry::open(2, 2, 1));
    assert_eq!(config, because(ErrorKind::BadConfig, 21, "N21 BadConfig"));
    assert_eq!(refused(a.load("x=off;x=")).0, ErrorKind::BadText);
    assert_eq!(
        (a.load("x=off;y=2*panic"), a.list()),
        (Ok(2), Ok("x=off;y=2*panic".into()))
    );
    a.close();
    let closed = because(ErrorKind::Closed, 31, "the registry is closed");
    assert_eq!(refused(a.set("p", "off")), closed);
    assert_eq!(
        (refused(a.calls()), a.eval("y"), a.is_set("y")),
        (closed, None, false)
    );
}

#[test]
fn rights_and_arguments_are_refused_by_kind() {
    let (a, _) = pair();
    a.set("p", "3*off->panic").unwrap();
    let too_few = refused(a.shift("p", 0, 1, 4));
    let fault = "N11 TooFewRights have=3";
    assert_eq!(too_few, because(ErrorKind::TooFewRights, 11, fault));
    for (term, to, amount, code) in [(9, 1, 1, 7), (1, 1, 1, 8), (0, 0, 1, 9), (0, 1, 0, 10)] {
        let (kind, found, _) = refused(a.shift("p", term, to, amount));
        assert_eq!((kind, found), (ErrorKind::BadArgument, code));
    }
    let told = a.shift("p", 0, 1, 4).unwrap_err().to_string();
    let wanted =
        "point \"p\": N11 TooFewRights have=3: transfer at most that many, or grant some first";
    assert_eq!(told, wanted);
    let small = Registry::open(0, 1, 1000).unwrap();
    (0..256).for_each(|n| assert!(small.set(&format!("p{n}"), "off").is_ok()));
    assert_eq!(refused(small.set("p", "off")).0, ErrorKind::TooManyPoints);
}

// Counts its own drop, and calls the registry in it.
struct Dropped(Arc<Registry>, Arc<AtomicUsize>);

impl Drop for Dropped {
    fn drop(&mut self) {
        assert!(self.0.list().is_ok() || self.0.calls().is_err());
        self.1.fetch_add(1, Ordering::SeqCst);
    }
}

#[test]
fn a_callback_ends_with_its_setting() {
    type Ends = fn(&Registry);
    let ends: [Ends; 5] = [
        |a| assert!(a.remove("p").is_ok()),
        |a| assert!(a.set("p", "off").is_ok()),
        |a| assert_eq!(a.load("p=off;q=off"), Ok(2)),
        |a| assert!(a.set_callback("p", || ()).is_ok()),
        |a| a.close(),
    ];
    for end in ends {
        let a = Arc::new(Registry::open(0, 2, 1000).unwrap());
        // Counts of calls of the closure, and of its drops.
        let (ran, dropped) = (Arc::new(AtomicUsize::new(0)), Arc::new(AtomicUsize::new(0)));
        let held = Dropped(a.clone(), dropped.clone());
        let counted = ran.clone();
        let run = move || {
            assert!(held.0.is_set("p"));
            counted.fetch_add(1, Ordering::SeqCst);
        };
        a.set_callback("p", run).unwrap();
        a.set("other", "off").unwrap();
        assert_eq!((a.eval("p"), a.eval("p"), runs(&a, 3)), (None, None, 0));
        assert_eq!(
            (ran.load(Ordering::SeqCst), dropped.load(Ordering::SeqCst)),
            (5, 0)
        );
        assert_eq!(a.list().unwrap(), "other=off;p=off");
        end(&a);
        assert_eq!(a.eval("p"), None);
        assert_eq!(
            (ran.load(Ordering::SeqCst), dropped.load(Ordering::SeqCst)),
            (5, 1)
        );
    }
}

#[test]
fn a_message_ends_a_callback() {
    let (a, b) = pair();
    // Counts calls of the closure.
    let ran = Arc::new(AtomicUsize::new(0));
    let counted = ran.clone();
    let run = move || _ = counted.fetch_add(1, Ordering::SeqCst);
    a.set_callback("p", run).unwrap();
    b.deliver(&a.emit(1).unwrap()).unwrap();
    // At another node the point does nothing.
    assert_eq!((b.list().unwrap(), b.eval("p")), ("p=off".into(), None));
    assert_eq!((a.eval("p"), ran.load(Ordering::SeqCst)), (None, 1));
    b.set("p", "return").unwrap();
    a.deliver(&b.emit(0).unwrap()).unwrap();
    assert_eq!((a.eval("p"), ran.load(Ordering::SeqCst)), (Some(None), 1));
}

#[test]
fn a_registry_goes_to_threads_and_through_panics() {
    fn is_shared<T: Send + Sync + std::panic::UnwindSafe + std::panic::RefUnwindSafe>() {}
    is_shared::<Registry>();
    is_shared::<Error>();
    is_shared::<failreg::FailGuard>();
    let (a, _) = pair();
    a.set("value", "panic").unwrap();
    assert!(std::panic::catch_unwind(|| value(&a)).is_err());
    a.remove("value").unwrap();
    assert_eq!(value(&a), 1);
}

#[test]
fn what_is_public_can_be_shown() {
    let (a, _) = pair();
    assert_eq!(
        format!("{a:?}"),
        "Registry { node: 0, nodes: 2, cap: 100000, .. }"
    );
    let policy = OnRefusal::call(|_| ());
    let builder = Registry::builder().on_refusal(policy).recording(true);
    let shown = format!("{builder:?}");
    assert!(shown.contains("recording: Recording(Kept), ") && shown.contains("on_refusal: Call"));
}

#[test]
fn a_seed_gives_the_same_run() {
    let run = |seed| {
        let builder = Registry::builder().nodes(2).cap(1000).seed(seed);
        let a = builder.build().unwrap();
        a.set("p", "50%return->off").unwrap();
        (0..200).map(|_| a.eval("p").is_some()).collect::<Vec<_>>()
    };
    assert_eq!(run(SEED), run(SEED));
    assert_ne!(run(SEED), run([8; 32]));
}
