//! Why a call failed.

use std::borrow::Cow;
use std::collections::TryReserveError;
use std::fmt;
use std::path::Path;

/// The kinds of errors that a caller may want to distinguish.
#[derive(Clone, Copy, Debug, PartialEq, Eq, Hash)]
#[non_exhaustive]
pub enum ErrorKind {
    /// The node has accepted as many calls as its call limit.
    CapReached,
    /// The name isn't a valid point name.
    BadName,
    /// An action string or a FAILPOINTS string is wrong.
    BadText,
    /// The node would hold more than 256 names.
    TooManyPoints,
    /// The point isn't set at this node.
    NotSet,
    /// The call doesn't take this term, node or amount.
    BadArgument,
    /// The node has fewer rights than requested.
    TooFewRights,
    /// A number that only grows would exceed its maximum.
    NumberFull,
    /// The bytes aren't a message of this cluster.
    BadMessage,
    /// The message is for another node.
    WrongReceiver,
    /// The message knows more about this node than the node itself: the node lost its state, or a
    /// second process runs under its number.
    Forgotten,
    /// With the message a term would have run more often than its count allows.
    Overspent,
    /// A cluster has 1 to 32 nodes, numbered from 0.
    BadConfig,
    /// An allocation failed.
    OutOfMemory,
    /// A message from another node has to arrive first
    /// ([`Builder::hear_first`](crate::Builder::hear_first)).
    NotHeard,
    /// The registry is closed.
    Closed,
    /// The program has a registry already, which is another node.
    AlreadyOpen,
    /// An environment variable has an invalid value.
    BadVariable,
    /// The address can be reached by other machines, and there is no key.
    NotLocal,
    /// The key file can't be read, has too few or too many bytes, or isn't its owner's alone.
    BadKey,
    /// The address can't be listened on.
    CantListen,
    /// A peer isn't another node of the cluster, or is listed twice.
    BadPeer,
    /// A thread can't be started.
    NoThread,
    /// The call was made, but couldn't be written to the node's journal or to the file of its
    /// [`Recorder`](crate::Recorder). The node accepts no further call.
    NotRecorded,
    /// An earlier call, or the first lines of the file, couldn't be written.
    RecordingFailed,
    /// The file isn't this node's journal, has lines that this node didn't write, or can't be read.
    /// It is unchanged.
    BadPart,
    /// Another process, or another registry of this process, has the journal open.
    PartInUse,
    /// The recorder belongs to another cluster, or has this node already.
    BadRecorder,
    /// The program was built without the feature `failpoints`.
    Disabled,
    /// The library returned a value that this crate doesn't have.
    Mismatch,
}

impl ErrorKind {
    /// Returns what to do about it.
    fn advice(self) -> &'static str {
        match self {
            ErrorKind::CapReached => {
                "start a new run with a greater limit: a limit holds for the node's whole life"
            }
            ErrorKind::BadName => "a name is 1 to 128 ASCII letters, digits, `_`, `-`, `.` and `:`",
            ErrorKind::BadText => {
                "write actions as `20%3*return(text)->off`, with one of off, return, sleep, panic, \
                 print, pause, yield and delay, and several points as `name=actions;name=actions`"
            }
            ErrorKind::TooManyPoints => {
                "a node holds 256 names in its life, removed ones included: reuse one of them"
            }
            ErrorKind::NotSet => "set it here, or wait for a message from a node that has it",
            ErrorKind::BadArgument => {
                "give a term that has a count (the first is 0), another node of the cluster, and \
                 an amount above 0"
            }
            ErrorKind::TooFewRights => "transfer at most that many, or grant some first",
            ErrorKind::NumberFull => "start a new run",
            ErrorKind::BadMessage => "deliver the whole bytes that a node of this cluster emitted",
            ErrorKind::WrongReceiver => "deliver it to the node that it was emitted to",
            ErrorKind::Forgotten => {
                "restart with the node's journal, or use a number that was never used"
            }
            ErrorKind::Overspent => {
                "find the node that restarted without its journal, or the source of forged messages"
            }
            ErrorKind::BadConfig => {
                "a cluster has 1 to 32 nodes, and the number of a node is below that"
            }
            ErrorKind::OutOfMemory => "repeat the call",
            ErrorKind::NotHeard => {
                "calls are accepted once all nodes sent a message: start it, with this node as a peer"
            }
            ErrorKind::Closed => "open another",
            ErrorKind::AlreadyOpen => "set it up before anything else uses the program's points",
            ErrorKind::BadVariable => "correct the value, or unset the variable",
            ErrorKind::NotLocal => {
                "give a key file too, or a loopback address such as 127.0.0.1:7070"
            }
            ErrorKind::BadKey => {
                "use a file of 32 to 1024 bytes that only its owner may read (chmod 600); to make one: \
                 `(umask 077; head -c 32 /dev/urandom >FILE)`"
            }
            ErrorKind::CantListen => "choose a free port, or 0 to let the system pick",
            ErrorKind::BadPeer => "name each other node of the cluster once, by its number",
            ErrorKind::NoThread => "let the process have more threads, or more memory",
            ErrorKind::NotRecorded | ErrorKind::RecordingFailed => {
                "free disk space or fix permissions, then restart: a node resumes from its journal, a \
                 recording needs a new recorder"
            }
            ErrorKind::BadPart => {
                "check the path and permissions; use the node's own journal, or a new file for a number \
                 that was never used"
            }
            ErrorKind::PartInUse => "end that process, or give this node a journal of its own",
            ErrorKind::BadRecorder => {
                "give each cluster a recorder of its own, and each of its nodes once"
            }
            ErrorKind::Disabled => "build it with the feature `failpoints` of the crate failreg",
            ErrorKind::Mismatch => "build the library and the crate from one tree",
        }
    }
}

/// Why a call failed. Nothing has changed, except with [`NotRecorded`](ErrorKind::NotRecorded).
#[derive(Clone, PartialEq, Eq)]
pub struct Error {
    kind: ErrorKind,
    code: Option<u32>,
    fault: Cow<'static, str>,
    // Where it occurred: a point, a variable, an address, a key file or a journal.
    at: Option<String>,
}

impl Error {
    pub(crate) fn new(kind: ErrorKind, fault: impl Into<Cow<'static, str>>) -> Error {
        Error {
            kind,
            code: None,
            fault: fault.into(),
            at: None,
        }
    }

    #[cfg(feature = "failpoints")]
    pub(crate) fn of_status(status: u32, fault: impl Into<Cow<'static, str>>) -> Error {
        Error {
            code: Some(status),
            ..Error::new(kind_of(status).unwrap_or(ErrorKind::Mismatch), fault)
        }
    }

    /// Returns the error of a call that was made but couldn't be recorded.
    pub(crate) fn not_recorded(why: impl fmt::Display) -> Error {
        let fault = format!("the call was made, but could not be recorded ({why})");
        Error::new(ErrorKind::NotRecorded, fault)
    }

    /// Returns the error of a refused allocation.
    pub(crate) fn no_memory() -> Error {
        Error::new(ErrorKind::OutOfMemory, "N22 OutOfMemory")
    }

    pub(crate) fn at_point(self, name: &str) -> Error {
        Error {
            at: Some(format!("point {name:?}")),
            ..self
        }
    }

    pub(crate) fn at_address(self, addr: impl fmt::Debug) -> Error {
        Error {
            at: Some(format!("address {addr:?}")),
            ..self
        }
    }

    pub(crate) fn at_key(self, path: &Path) -> Error {
        Error {
            at: Some(format!("key {path:?}")),
            ..self
        }
    }

    pub(crate) fn at_part(self, path: &Path) -> Error {
        Error {
            at: Some(format!("journal {path:?}")),
            ..self
        }
    }

    /// Returns whether it says where it occurred.
    pub(crate) fn has_place(&self) -> bool {
        self.at.is_some()
    }

    /// The error with the name of the variable that named the place.
    pub(crate) fn of_variable(self, name: &str) -> Error {
        let at = self
            .at
            .map_or(name.to_string(), |at| format!("{name}: {at}"));
        Error {
            at: Some(at),
            ..self
        }
    }

    pub(crate) fn at_variable(self, name: &str, value: &std::ffi::OsStr) -> Error {
        Error {
            at: Some(format!("{name}={value:?}")),
            ..self
        }
    }

    /// Returns the kind of error.
    pub fn kind(&self) -> ErrorKind {
        self.kind
    }

    /// Returns what failed, as the body of a response.
    pub(crate) fn into_body(self) -> Cow<'static, [u8]> {
        match self.fault {
            Cow::Borrowed(fault) => Cow::Borrowed(fault.as_bytes()),
            Cow::Owned(fault) => Cow::Owned(fault.into_bytes()),
        }
    }

    /// Returns the error's number in `failreg.h`, if the library returned one: 11 for `N11
    /// TooFewRights`, or 30 and above.
    pub fn code(&self) -> Option<u32> {
        self.code
    }

    /// Returns what failed, without advice: if the node rejected the call, its error text, such as
    /// `N11 TooFewRights have=2`.
    pub fn fault(&self) -> &str {
        &self.fault
    }
}

/// Returns the kind of a status of `failreg.h`.
#[cfg(feature = "failpoints")]
fn kind_of(status: u32) -> Option<ErrorKind> {
    Some(match status {
        failreg_sys::FAILREG_E_TRACE_FULL => ErrorKind::CapReached,
        failreg_sys::FAILREG_E_BAD_NAME => ErrorKind::BadName,
        failreg_sys::FAILREG_E_BAD_ACTIONS | failreg_sys::FAILREG_E_NOT_UTF8 => ErrorKind::BadText,
        failreg_sys::FAILREG_E_TOO_MANY_POINTS => ErrorKind::TooManyPoints,
        failreg_sys::FAILREG_E_NOT_SET => ErrorKind::NotSet,
        failreg_sys::FAILREG_E_NO_SUCH_TERM
        | failreg_sys::FAILREG_E_NOT_COUNTED
        | failreg_sys::FAILREG_E_BAD_NODE
        | failreg_sys::FAILREG_E_ZERO_AMOUNT
        | failreg_sys::FAILREG_E_BAD_WORDS
        | failreg_sys::FAILREG_E_NO_POINT
        | failreg_sys::FAILREG_E_NO_ENTRY
        | failreg_sys::FAILREG_E_NOT_NOW => ErrorKind::BadArgument,
        failreg_sys::FAILREG_E_BAD_KEY => ErrorKind::BadKey,
        failreg_sys::FAILREG_E_DIFFERS | failreg_sys::FAILREG_E_NO_LINE => ErrorKind::BadPart,
        failreg_sys::FAILREG_E_TOO_FEW_RIGHTS => ErrorKind::TooFewRights,
        failreg_sys::FAILREG_E_CLOCK_FULL | failreg_sys::FAILREG_E_CELL_FULL => {
            ErrorKind::NumberFull
        }
        failreg_sys::FAILREG_E_BAD_MESSAGE => ErrorKind::BadMessage,
        failreg_sys::FAILREG_E_NOT_FOR_ME => ErrorKind::WrongReceiver,
        failreg_sys::FAILREG_E_OWN_AHEAD | failreg_sys::FAILREG_E_ACK_AHEAD => ErrorKind::Forgotten,
        failreg_sys::FAILREG_E_OVERSPENT => ErrorKind::Overspent,
        failreg_sys::FAILREG_E_BAD_CONFIG => ErrorKind::BadConfig,
        failreg_sys::FAILREG_E_NO_MEMORY => ErrorKind::OutOfMemory,
        failreg_sys::FAILREG_E_CLOSED => ErrorKind::Closed,
        failreg_sys::FAILREG_E_ALREADY_OPEN => ErrorKind::AlreadyOpen,
        // This crate doesn't have the status.
        _ => return None,
    })
}

impl fmt::Display for Error {
    fn fmt(&self, f: &mut fmt::Formatter<'_>) -> fmt::Result {
        if let Some(at) = &self.at {
            write!(f, "{at}: ")?;
        }
        write!(f, "{}: {}", self.fault, self.kind.advice())
    }
}

/// The text and the kind, because `unwrap`, `expect` and a failing `main` print this.
impl fmt::Debug for Error {
    fn fmt(&self, f: &mut fmt::Formatter<'_>) -> fmt::Result {
        write!(f, "{self} ({:?})", self.kind)
    }
}

impl From<TryReserveError> for Error {
    fn from(_: TryReserveError) -> Error {
        Error::no_memory()
    }
}

impl std::error::Error for Error {}

/// The text of an error, which the calls of fail-rs return.
impl From<Error> for String {
    fn from(error: Error) -> String {
        error.to_string()
    }
}

#[cfg(all(test, feature = "failpoints"))]
mod tests {
    use super::*;

    #[test]
    fn each_status_has_a_kind() {
        for &(name, status) in failreg_sys::STATUSES {
            let is_known = kind_of(status).is_some();
            assert_eq!(is_known, status != failreg_sys::FAILREG_OK, "{name}");
        }
        let unknown = Error::of_status(40, "N40");
        assert_eq!(
            (unknown.kind(), unknown.code()),
            (ErrorKind::Mismatch, Some(40))
        );
    }

    #[test]
    fn an_error_says_where_what_and_what_to_do() {
        let error = Error::of_status(11, "N11 TooFewRights have=2").at_point("save");
        let told = "point \"save\": N11 TooFewRights have=2: transfer at most that many, or grant some first";
        assert_eq!(error.to_string(), told);
    }
}
