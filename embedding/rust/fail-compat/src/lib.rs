//! A program with failpoints that names only the crate `fail`, in each form that fail-rs documents.
//! Its tests check what is documented of each; a build without the feature `failpoints` links no
//! library.

// Without failpoints a `fail_point!` doesn't use its arguments, as with fail-rs.
#![cfg_attr(not(feature = "failpoints"), allow(unused))]

use fail::fail_point;
use std::error::Error;
use std::io;

/// Whether points do anything, known at compile time.
pub const HAS_FAILPOINTS: bool = fail::has_failpoints();

/// A point that doesn't return from the function.
pub fn plain() -> &'static str {
    fail_point!("plain");
    "went on"
}

/// A point that returns its argument from the function, or 2.
pub fn number() -> u64 {
    fail_point!("number", |argument| argument
        .map_or(2, |text| text.parse().unwrap()));
    0
}

/// A point that is evaluated under a condition.
pub fn conditional(enable: bool) -> bool {
    fail_point!("conditional", enable, |_| true);
    false
}

/// A point in a function that returns nothing.
pub fn nothing(reached: &mut bool) {
    fail_point!("nothing", |_| {});
    *reached = true;
}

/// A point that makes an error.
pub fn read_config(path: &str) -> io::Result<String> {
    fail_point!("read-config", |argument: Option<String>| {
        let reason = argument.unwrap_or_else(|| "no reason".to_owned());
        Err(io::Error::new(io::ErrorKind::PermissionDenied, reason))
    });
    Ok(format!("config of {path}"))
}

fn boxed(argument: Option<String>) -> Result<u8, Box<dyn Error>> {
    Err(argument.unwrap_or_default().into())
}

/// A point whose value is a function.
pub fn by_function() -> Result<u8, Box<dyn Error>> {
    fail_point!("by::function", boxed);
    Ok(0)
}

/// A point whose name isn't a literal.
pub fn shard(number: u32) -> Option<String> {
    let name = format!("shard.{number}");
    fail_point!(&name, |argument| argument);
    fail_point!(name.as_str());
    None
}

/// A point in a generic function, and one in a closure of it.
pub fn any<T: Default>(value: T) -> T {
    fail_point!("any", |_| T::default());
    let through = |value: T| {
        fail_point!("any.closure", |_| T::default());
        value
    };
    through(value)
}

/// A point in a function whose type has no name.
pub fn numbers() -> impl Iterator<Item = u8> {
    fail_point!("numbers", |_| vec![9].into_iter());
    vec![1, 2].into_iter()
}

/// A point in an async function.
pub async fn later() -> u8 {
    fail_point!("later", |_| 1);
    0
}

/// Points of a program with a macro of its own for them.
#[macro_export]
macro_rules! point_of_mine {
    ($name:literal) => {
        fail::fail_point!(concat!("mine.", $name), |argument| argument)
    };
}
