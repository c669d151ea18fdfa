//! The program's own registry, which `fail_point!` uses if it names none.

use crate::error::{Error, ErrorKind};
use crate::registry::Registry;
use std::sync::{Mutex, MutexGuard, OnceLock};

/// The program's registry, once it is opened. It stays until the program ends.
static PROGRAM: OnceLock<Registry> = OnceLock::new();

/// Guards its opening, so that one thread opens it; and holds whether `setup` has loaded FAILPOINTS
/// into it.
static IS_SET_UP: Mutex<bool> = Mutex::new(false);

fn making() -> MutexGuard<'static, bool> {
    IS_SET_UP
        .lock()
        .unwrap_or_else(|poisoned| poisoned.into_inner())
}

/// Returns the program's registry, if there is one: [`setup`], [`from_env`](crate::from_env) and
/// [`Builder::install`](crate::Builder::install) open it, or else the first call of fail-rs's
/// interface, as node 0 of 1.
#[inline]
pub fn program() -> Option<&'static Registry> {
    PROGRAM.get()
}

/// Opens the program's registry, if there is none, as node `number` of a cluster of `nodes`, and
/// loads FAILPOINTS into it, unless it resumed from its journal. A second call returns the existing
/// registry, whatever its call limit.
///
/// # Errors
/// [`AlreadyOpen`](ErrorKind::AlreadyOpen) if the program's registry is another node; otherwise
/// those of [`Builder::build`](crate::Builder::build), or of a wrong FAILPOINTS, and there is no
/// registry.
pub fn setup(number: u8, nodes: u8, cap: u64) -> Result<&'static Registry, Error> {
    let mut is_set_up = making();
    let registry = match PROGRAM.get() {
        Some(registry) if registry.is_node(number, nodes) => registry,
        Some(_) => return Err(already_open()),
        None => {
            let registry = Registry::open(number, nodes, cap)?;
            registry.begin_with_env()?;
            *is_set_up = true;
            PROGRAM.get_or_init(|| registry)
        }
    };
    if !*is_set_up {
        registry.begin_with_env()?;
        *is_set_up = true;
    }
    Ok(registry)
}

/// Returns the program's registry for the calls of fail-rs, and opens it if there is none.
pub(crate) fn made() -> Result<&'static Registry, Error> {
    if let Some(registry) = PROGRAM.get() {
        return Ok(registry);
    }
    let _one = making();
    match PROGRAM.get() {
        Some(registry) => Ok(registry),
        None => {
            let registry = Registry::builder().build()?;
            Ok(PROGRAM.get_or_init(|| registry))
        }
    }
}

/// Opens the program's registry with `make`. Errors: `AlreadyOpen` if there is one.
pub(crate) fn first(
    make: impl FnOnce() -> Result<Registry, Error>,
) -> Result<&'static Registry, Error> {
    let _one = making();
    match PROGRAM.get() {
        Some(_) => Err(already_open()),
        None => {
            let registry = make()?;
            Ok(PROGRAM.get_or_init(|| registry))
        }
    }
}

fn already_open() -> Error {
    let fault = "the program has a registry already, which is another one";
    Error::new(ErrorKind::AlreadyOpen, fault)
}
