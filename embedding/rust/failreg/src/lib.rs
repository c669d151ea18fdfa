//! Failpoints with cluster-wide counts and the interface of fail-rs: a safe wrapper of a proved
//! registry.
//!
//! A failpoint, and a test that sets it:
//!
//! ```
//! use failreg::{FailScenario, fail_point};
//!
//! fn read_block(block: u64) -> Result<u64, String> {
//!     fail_point!("read_block", |reason| Err(reason.unwrap_or_default()));
//!     Ok(block)
//! }
//!
//! let scenario = FailScenario::setup();
//! if failreg::has_failpoints() {
//!     failreg::cfg("read_block", "1*return(disk full)->off").unwrap();
//!     assert_eq!(read_block(7), Err("disk full".to_string()));
//! }
//! assert_eq!(read_block(7), Ok(7));
//! scenario.teardown();
//! ```
//!
//! These are points of the program's own registry, node 0 of a cluster of 1 by default. With
//! [`from_env`] or [`setup`] it is one node of a larger cluster; a count, such as the 3 of
//! `3*panic->off`, then holds for all nodes together. A program may have more [`Registry`]s:
//! `fail_point!(in node, "read_block")` evaluates a point of `node`.
//!
//! **Failpoints are off unless the feature `failpoints` is on.** Without it every [`fail_point!`]
//! is nothing, no library is linked, and calls that would set a point return
//! [`ErrorKind::Disabled`].
//!
//! The node behind the C calls is proved. This crate isn't: neither its declarations of those
//! calls, nor its locks, nor how it carries out actions.

// Without failpoints these modules are used in part.
#![cfg_attr(not(feature = "failpoints"), allow(dead_code))]

mod builder;
mod environment;
mod error;
mod fail_rs;
mod peer;
mod program;
mod recorder;
mod told;

macro_rules! with_failpoints {
    ($($module:ident),+) => {$(
        #[cfg(feature = "failpoints")]
        mod $module;
    )+};
}

with_failpoints! {
    access, answers, bodies, chunks, date, digest, gossip, heads, http, kept, key, lines, memory, node, page, part,
    passing, points, posting, receipts, registry, serving, sha256, state, tags, unsent
}

// Without failpoints one module has the same interface.
#[cfg(not(feature = "failpoints"))]
mod off;
#[cfg(not(feature = "failpoints"))]
use {off as gossip, off as registry, off as serving};

pub use builder::{Builder, OnForgotten, OnRefusal, Recording};
pub use environment::{Program, from_env};
pub use error::{Error, ErrorKind};
#[doc(hidden)]
pub use fail_rs::eval;
pub use fail_rs::{FailGuard, FailScenario, cfg, cfg_callback, has_failpoints, list, remove};
pub use gossip::{Gossip, gossip};
pub use peer::{Failure, Peer, PeerNews};
#[cfg(feature = "failpoints")]
#[doc(hidden)]
pub use points::Site;
pub use program::{program, setup};
pub use recorder::Recorder;
pub use registry::{Registry, write_drill};
pub use serving::{Served, Serving, serve};
pub use told::{Passed, Reply, Stamp, Task};

/// Evaluates a point, if it is set, and carries out its action. If the action is `return`,
/// `fail_point!("name")` panics, and `fail_point!("name", |argument| value)` returns the closure's
/// value from the function. `fail_point!("name", condition, |argument| value)` evaluates the point
/// only if the condition holds. With `in registry,` in front the point is one of that registry,
/// else one of the program's.
#[macro_export]
#[cfg(feature = "failpoints")]
macro_rules! fail_point {
    (in $registry:expr, $name:expr) => {{
        if $crate::eval_point!($registry, $name).is_some() {
            panic!("Return is not supported for the fail point \"{}\"", $name);
        }
    }};
    (in $registry:expr, $name:expr, $value:expr) => {{
        if let Some(argument) = $crate::eval_point!($registry, $name) {
            let value = $crate::value_of($value, argument);
            return value;
        }
    }};
    (in $registry:expr, $name:expr, $condition:expr, $value:expr) => {{
        if $condition {
            $crate::fail_point!(in $registry, $name, $value);
        }
    }};
    ($name:expr) => {{
        if let Some(registry) = $crate::program() {
            $crate::fail_point!(in registry, $name);
        }
    }};
    ($name:expr, $value:expr) => {{
        if let Some(registry) = $crate::program() {
            $crate::fail_point!(in registry, $name, $value);
        }
    }};
    ($name:expr, $condition:expr, $value:expr) => {{
        if $condition {
            $crate::fail_point!($name, $value);
        }
    }};
}

/// Nothing: the feature `failpoints` is off.
#[macro_export]
#[cfg(not(feature = "failpoints"))]
macro_rules! fail_point {
    // Mentions the registry without using it, so that its variable doesn't count as unused.
    (in $registry:expr, $($ignored:tt)*) => {{
        if false {
            _ = &$registry;
        }
    }};
    ($($ignored:tt)*) => {{}};
}

// Tests the code of a page with the other examples.
#[cfg(all(doctest, feature = "failpoints"))]
#[doc = include_str!("../../../../docs/how-to/custom-transport.md")]
struct CustomTransport;

// A point with a literal name caches what was found about it.
#[cfg(feature = "failpoints")]
#[doc(hidden)]
#[macro_export]
macro_rules! eval_point {
    ($registry:expr, $name:literal) => {{
        static SITE: $crate::Site = $crate::Site::new();
        $registry.eval_at(&SITE, $name)
    }};
    ($registry:expr, $name:expr) => {
        $registry.eval($name)
    };
}

// Calls the closure of a `fail_point!`; fixes the type of its argument.
#[cfg(feature = "failpoints")]
#[doc(hidden)]
pub fn value_of<T>(value: impl FnOnce(Option<String>) -> T, argument: Option<String>) -> T {
    value(argument)
}
