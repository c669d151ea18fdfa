//! The calls of fail-rs, for the program's registry. As there, errors are texts.

use crate::program::{made, program};
use std::sync::{Mutex, MutexGuard};

/// Held by the running scenario: there is one at a time. It guards no data.
static SCENARIO: Mutex<()> = Mutex::new(());

/// Returns whether the crate was built with the feature `failpoints`. Without it `fail_point!` is
/// nothing, and calls that would set a point fail.
pub const fn has_failpoints() -> bool {
    cfg!(feature = "failpoints")
}

/// Sets a point of the program's registry to an action string, in the form of [`Registry::set`].
///
/// [`Registry::set`]: crate::Registry::set
pub fn cfg<S: Into<String>>(name: S, actions: &str) -> Result<(), String> {
    made()?.set(&name.into(), actions)?;
    Ok(())
}

/// Sets a point of the program's registry to a closure, which the evaluating thread calls.
pub fn cfg_callback<S, F>(name: S, run: F) -> Result<(), String>
where
    S: Into<String>,
    F: Fn() + Send + Sync + 'static,
{
    made()?.set_callback(&name.into(), run)?;
    Ok(())
}

/// Removes a point of the program's registry, if it is set.
pub fn remove<S: AsRef<str>>(name: S) {
    let name = name.as_ref();
    if let Some(registry) = program().filter(|registry| registry.is_set(name)) {
        // If it is rejected, the registry is closed or full, and none of its points does anything.
        _ = registry.remove(name);
    }
}

/// Returns the points of the program's registry that are set, with their action strings; `callback`
/// for a point with a callback.
pub fn list() -> Vec<(String, String)> {
    program().map_or_else(Vec::new, |registry| registry.points())
}

/// Evaluates a point of the program's registry, like `fail_point!`.
#[doc(hidden)]
pub fn eval<R, F: FnOnce(Option<String>) -> R>(name: &str, value: F) -> Option<R> {
    program()?.eval(name).map(value)
}

/// A period in which the points of the program's registry belong to one test: another
/// [`setup`](FailScenario::setup) waits until this one is dropped.
///
/// ```
/// use failreg::{FailScenario, fail_point, has_failpoints};
///
/// fn read() -> Option<String> {
///     fail_point!("read", |argument| argument);
///     None
/// }
///
/// let scenario = FailScenario::setup();
/// if has_failpoints() {
///     failreg::cfg("read", "return(nothing)").unwrap();
///     assert_eq!(read().as_deref(), Some("nothing"));
/// }
/// scenario.teardown();
/// assert_eq!(read(), None);
/// ```
#[derive(Debug)]
pub struct FailScenario<'a> {
    _alone: MutexGuard<'a, ()>,
}

impl FailScenario<'_> {
    /// Waits for other scenarios, removes all points, and loads FAILPOINTS. Without the feature
    /// `failpoints` nothing is set.
    ///
    /// # Panics
    ///
    /// If FAILPOINTS is wrong, or the registry can't be opened.
    pub fn setup() -> Self {
        let alone = SCENARIO
            .lock()
            .unwrap_or_else(|poisoned| poisoned.into_inner());
        let scenario = FailScenario { _alone: alone };
        if has_failpoints() {
            let loaded = made().and_then(|registry| {
                registry.clear()?;
                registry.load_env()
            });
            if let Err(error) = loaded {
                panic!("failpoints can't be set up: {error}");
            }
        }
        scenario
    }

    /// Removes all points, lets paused threads continue, and lets the next scenario start. A drop
    /// does the same.
    pub fn teardown(self) {
        drop(self);
    }
}

impl Drop for FailScenario<'_> {
    fn drop(&mut self) {
        if let Some(registry) = program() {
            // If it is rejected, the registry is closed or full, and none of its points does
            // anything.
            _ = registry.clear();
        }
    }
}

/// A point of the program's registry that is set until this is dropped.
///
/// ```
/// use failreg::{FailGuard, FailScenario};
///
/// let _scenario = FailScenario::setup();
/// if failreg::has_failpoints() {
///     let guard = FailGuard::new("write", "return").unwrap();
///     assert_eq!(failreg::list().len(), 1);
///     drop(guard);
///     assert!(failreg::list().is_empty());
/// }
/// ```
#[derive(Debug)]
#[must_use = "the point is removed when the guard is dropped"]
pub struct FailGuard(String);

impl FailGuard {
    /// Sets a point to an action string, like [`cfg()`].
    pub fn new<S: Into<String>>(name: S, actions: &str) -> Result<FailGuard, String> {
        let name = name.into();
        cfg(&name, actions)?;
        Ok(FailGuard(name))
    }

    /// Sets a point to a closure, like [`cfg_callback`].
    pub fn with_callback<S, F>(name: S, run: F) -> Result<FailGuard, String>
    where
        S: Into<String>,
        F: Fn() + Send + Sync + 'static,
    {
        let name = name.into();
        cfg_callback(&name, run)?;
        Ok(FailGuard(name))
    }
}

impl Drop for FailGuard {
    fn drop(&mut self) {
        remove(&self.0);
    }
}
