//! The program's registry, opened by `setup` and configured by FAILPOINTS: a program of its own,
//! because a process has one of each.

use failreg::{ErrorKind, fail_point};

fn charge() -> u32 {
    fail_point!("charge", |fee: Option<String>| fee
        .unwrap()
        .parse()
        .unwrap());
    0
}

#[test]
fn failpoints_are_loaded_at_the_start() {
    assert_eq!(charge(), 0);
    // SAFETY: this program has one test, and so one thread that reads the environment.
    unsafe { std::env::set_var("FAILPOINTS", "charge") };
    let error = failreg::setup(0, 1, 1000).unwrap_err();
    assert_eq!((error.kind(), error.code()), (ErrorKind::BadText, Some(3)));
    assert!(error.to_string().starts_with("FAILPOINTS=\"charge\": N3 "));
    assert!(failreg::program().is_none());
    // SAFETY: as above.
    unsafe { std::env::set_var("FAILPOINTS", "charge=1*return(5)") };
    let registry = failreg::setup(0, 1, 1000).unwrap();
    assert!(std::ptr::eq(registry, failreg::setup(0, 1, 9).unwrap()));
    assert_eq!((charge(), charge()), (5, 0));
    assert_eq!(registry.spent("charge", 0), Ok(1));
    let another = failreg::setup(0, 2, 1000).unwrap_err();
    assert_eq!(another.kind(), ErrorKind::AlreadyOpen);
    let another = failreg::Registry::builder().install().unwrap_err();
    assert_eq!(another.kind(), ErrorKind::AlreadyOpen);
    let another = failreg::from_env().unwrap_err();
    assert_eq!(another.kind(), ErrorKind::AlreadyOpen);
}
