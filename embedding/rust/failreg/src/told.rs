//! Results of a node: versions, actions, evaluations and responses.

use std::time::Duration;

/// A version: the clock of a configuration and the node that made it. No two configurations of a
/// cluster have the same one.
#[derive(Clone, Copy, Debug, PartialEq, Eq, Hash)]
pub struct Stamp {
    /// The clock of the configuration.
    pub clock: u64,
    /// The node that made it.
    pub node: u8,
}

/// The action of a term that fires.
#[derive(Clone, Debug, PartialEq, Eq)]
#[non_exhaustive]
pub enum Task {
    /// Do nothing.
    Off,
    /// Return from the function, with the argument, if there is one.
    Return(Option<String>),
    /// Sleep for this long.
    Sleep(Duration),
    /// Panic, with the text, if there is one.
    Panic(Option<String>),
    /// Print the text, if there is one, on standard error.
    Print(Option<String>),
    /// Wait until the point isn't set under the evaluation's version any more.
    Pause,
    /// Let other threads run.
    Yield,
    /// Keep the processor busy for this long.
    Delay(Duration),
}

/// The result of an evaluation.
#[derive(Clone, Debug, PartialEq, Eq)]
pub enum Passed {
    /// The point isn't set here.
    Unset,
    /// The point is set, and no term fires.
    NoTerm {
        /// The version of the configuration.
        stamp: Stamp,
    },
    /// A term fires.
    Act {
        /// The version of the configuration.
        stamp: Stamp,
        /// The number of the term, from 0.
        term: u8,
        /// Its action.
        task: Task,
    },
}

/// The response to an HTTP request.
#[derive(Clone, Debug, PartialEq, Eq, Hash)]
pub struct Reply {
    /// The status: 200 if the request was carried out.
    pub status: u16,
    /// The body, a text without a newline; for an error, its reason.
    pub body: Vec<u8>,
}
