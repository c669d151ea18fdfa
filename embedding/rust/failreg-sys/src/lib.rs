//! The calls of `libfailreg.a`. `failreg.h` has the full documentation of each call and its
//! requirements; the crate `failreg` is a safe interface to them.
//!
//! An accepted call that is marked `[entry]` becomes an entry of the node's call history: it takes
//! memory until `failreg_forget` or `failreg_close`, and counts against the call limit. Every call
//! that returns a `u32` returns [`FAILREG_OK`] or why it was rejected.
#![no_std]
#![allow(non_camel_case_types)]

use core::ffi::c_void;

/// A node, open or closed. It starts as [`failreg::CLOSED`], and can't be copied.
#[repr(C)]
#[derive(Debug)]
pub struct failreg {
    is_open: bool,
    at: *mut c_void,
}

impl failreg {
    /// The value of a node before it is opened.
    pub const CLOSED: failreg = failreg {
        is_open: false,
        at: core::ptr::null_mut(),
    };
}

// SAFETY: a node is plain data on the heap, which it owns, and is given to one call at a time by
// `&mut`: any thread may make that call. The library's contract says so of its type.
unsafe impl Send for failreg {}

/// A service: the routes of a served node, at one port, for those who may send requests.
#[repr(C)]
#[derive(Debug)]
pub struct failreg_service {
    is_open: bool,
    at: *mut core::ffi::c_void,
}

impl failreg_service {
    /// The value of a service before it is opened.
    pub const CLOSED: failreg_service = failreg_service {
        is_open: false,
        at: core::ptr::null_mut(),
    };
}

/// A connection with a client, which has one request.
#[repr(C)]
#[derive(Debug)]
pub struct failreg_http {
    is_open: bool,
    at: *mut core::ffi::c_void,
}

impl failreg_http {
    /// The value of a connection before it is opened.
    pub const CLOSED: failreg_http = failreg_http {
        is_open: false,
        at: core::ptr::null_mut(),
    };
}

/// A version: the clock of a configuration and the node that made it.
#[repr(C)]
#[derive(Debug, Default, Clone, Copy, PartialEq, Eq)]
pub struct failreg_stamp {
    /// The clock of the configuration.
    pub clock: u64,
    /// The node that made it.
    pub node: u8,
}

/// The number `low + 2^64 * high`.
#[repr(C)]
#[derive(Debug, Default, Clone, Copy, PartialEq, Eq)]
pub struct failreg_wide {
    /// Its low half.
    pub low: u64,
    /// Its high half.
    pub high: u64,
}

/// The result of an evaluation.
#[repr(C)]
#[derive(Debug, Default, Clone, Copy, PartialEq, Eq)]
pub struct failreg_act {
    /// With `node` the version of the configuration, if the point is set.
    pub clock: u64,
    /// The time of sleep and delay.
    pub millis: u64,
    /// The length of the text of return, panic and print, for [`failreg_fetch`].
    pub text_len: u64,
    /// The node of the version.
    pub node: u8,
    /// The term that fires, from 0.
    pub term: u8,
    /// One of `FAILREG_OUTCOME_UNSET`, `FAILREG_OUTCOME_NONE` and `FAILREG_OUTCOME_ACT`.
    pub outcome: u8,
    /// One of the actions, such as `FAILREG_TASK_PANIC`.
    pub task: u8,
    /// Whether there is a text: `return()` has an empty one, `return` has none.
    pub has_text: bool,
}

/// What a request changed, beside its response.
#[repr(C)]
#[derive(Debug, Default, Clone, Copy, PartialEq, Eq)]
pub struct failreg_answered {
    /// The status of the response.
    pub status: u16,
    /// The status of the node's error, such as [`FAILREG_E_NOT_SET`], if the node rejected the request,
    /// otherwise 0.
    pub fault: u8,
    /// Whether points may be set otherwise than before.
    pub changes_settings: bool,
    /// Whether calls waited for the message in the request, and no longer wait.
    pub has_heard_all: bool,
}

macro_rules! numbers {
    ($all:ident: $type:ty; $($what:literal $name:ident = $value:literal,)+) => {
        $(#[doc = $what] pub const $name: $type = $value;)+

        #[doc = concat!("The numbers of this kind, by the names that `failreg.h` has for them.")]
        pub const $all: &[(&str, $type)] = &[$((stringify!($name), $name)),+];
    };
}

numbers! { STATUSES: u32;
    "The call is accepted." FAILREG_OK = 0,
    "The node has accepted as many calls as it may." FAILREG_E_TRACE_FULL = 1,
    "A name is 1 to 128 ASCII letters, digits, `_`, `-`, `.` and `:`." FAILREG_E_BAD_NAME = 2,
    "The action string or the FAILPOINTS string is wrong." FAILREG_E_BAD_ACTIONS = 3,
    "More than 256 names, including removed ones." FAILREG_E_TOO_MANY_POINTS = 4,
    "The clock of versions is at its end." FAILREG_E_CLOCK_FULL = 5,
    "The point isn't set at this node." FAILREG_E_NOT_SET = 6,
    "The point has no term with this number." FAILREG_E_NO_SUCH_TERM = 7,
    "The term has no count." FAILREG_E_NOT_COUNTED = 8,
    "No node of the cluster, or this node itself." FAILREG_E_BAD_NODE = 9,
    "The amount is 0." FAILREG_E_ZERO_AMOUNT = 10,
    "The node has fewer rights." FAILREG_E_TOO_FEW_RIGHTS = 11,
    "The total that was transferred or granted is at its end." FAILREG_E_CELL_FULL = 12,
    "The evaluation takes another number of random draws." FAILREG_E_BAD_WORDS = 14,
    "The bytes aren't a message of this cluster." FAILREG_E_BAD_MESSAGE = 16,
    "The message is for another node." FAILREG_E_NOT_FOR_ME = 17,
    "The message has newer state of this node than the node." FAILREG_E_OWN_AHEAD = 18,
    "The message acknowledges a version that doesn't exist." FAILREG_E_ACK_AHEAD = 19,
    "With the message a term would have run more often than it may." FAILREG_E_OVERSPENT = 20,
    "A cluster has 1 to 32 nodes, numbered from 0." FAILREG_E_BAD_CONFIG = 21,
    "An allocation failed." FAILREG_E_NO_MEMORY = 22,
    "`failreg_repeat`: the line's call has another result here; the node is closed."
        FAILREG_E_DIFFERS = 23,
    "A name or a text isn't UTF-8." FAILREG_E_NOT_UTF8 = 30,
    "The node is closed." FAILREG_E_CLOSED = 31,
    "`failreg_open` of an open node." FAILREG_E_ALREADY_OPEN = 32,
    "`failreg_point` of this node returned no such number." FAILREG_E_NO_POINT = 33,
    "The node stores no call of this number." FAILREG_E_NO_ENTRY = 34,
    "The text isn't a call's line." FAILREG_E_NO_LINE = 35,
    "A key has 32 bytes or more." FAILREG_E_BAD_KEY = 36,
    "The connection waits for something else." FAILREG_E_NOT_NOW = 37,
}

numbers! { OUTCOMES: u8;
    "The point isn't set here." FAILREG_OUTCOME_UNSET = 0,
    "It is set, and no term fires." FAILREG_OUTCOME_NONE = 1,
    "A term fires: carry out its action." FAILREG_OUTCOME_ACT = 2,
}

numbers! { TASKS: u8;
    "Do nothing." FAILREG_TASK_OFF = 0,
    "Return, with the text as its argument." FAILREG_TASK_RETURN = 1,
    "For `millis` milliseconds." FAILREG_TASK_SLEEP = 2,
    "Panic, with the text." FAILREG_TASK_PANIC = 3,
    "Print the text." FAILREG_TASK_PRINT = 4,
    "Until `failreg_pause_over` returns true." FAILREG_TASK_PAUSE = 5,
    "Let other threads run." FAILREG_TASK_YIELD = 6,
    "Keep busy for `millis` milliseconds." FAILREG_TASK_DELAY = 7,
}

numbers! { DUE_KINDS: u8;
    "Nothing is due for the other node." FAILREG_DUE_NOTHING = 0,
    "Send it a message." FAILREG_DUE_TELL = 1,
    "Request a message from it." FAILREG_DUE_ASK = 2,
}

numbers! { HTTP_WANTS: u8;
    "Bytes of the request's head." FAILREG_HTTP_HEAD = 0,
    "Leave for a body over 64 KiB." FAILREG_HTTP_PERMIT = 1,
    "Bytes of its body." FAILREG_HTTP_BODY = 2,
    "The node's answer." FAILREG_HTTP_ANSWER = 3,
    "That the answer is sent, once it is journaled." FAILREG_HTTP_TELL = 4,
    "That its output is sent." FAILREG_HTTP_WRITE = 5,
    "To be closed: first read and drop for up to 1 s what arrives." FAILREG_HTTP_LINGER = 6,
    "To be closed." FAILREG_HTTP_CLOSE = 7,
}

/// No node: what [`failreg_awaited`] returns if calls don't wait.
pub const FAILREG_NOBODY: u8 = 255;

/// The version of the declarations: 10000 times its first number, plus 100 times its second, plus
/// its third.
pub const FAILREG_VERSION: u32 = 200;

// Calls that only read a node take `&mut` as well, because they write to it.
type Bytes = *const u8;

// SAFETY: these are the declarations of `failreg.h`. Those that are `safe` take a node, which comes
// from `failreg::CLOSED` and the calls alone, references and numbers: any of these will do.
unsafe extern "C" {
    /// Returns the version of the library, in the form of [`FAILREG_VERSION`].
    pub safe fn failreg_version() -> u32;

    /// Opens a closed node, as node `number` of a cluster of `nodes`.
    pub safe fn failreg_open(
        node: &mut failreg,
        number: u8,
        nodes: u8,
        trace_cap: u64,
        seed: &[u8; 32],
    ) -> u32;

    /// Closes a node, if it is open, and frees its memory.
    pub safe fn failreg_close(node: &mut failreg);

    /// `[entry]` Sets a point to an action string.
    ///
    /// # Safety
    /// `name` and `actions` lead to as many bytes as the lengths beside them say.
    pub fn failreg_set(
        node: &mut failreg,
        name: Bytes,
        name_len: usize,
        actions: Bytes,
        actions_len: usize,
        stamp: &mut failreg_stamp,
    ) -> u32;

    /// `[entry]` Removes a point.
    ///
    /// # Safety
    /// `name` leads to `name_len` bytes.
    pub fn failreg_remove(
        node: &mut failreg,
        name: Bytes,
        name_len: usize,
        stamp: &mut failreg_stamp,
    ) -> u32;

    /// `[entry]` Sets the points of a string `name=actions;name=actions`: all or none.
    ///
    /// # Safety
    /// `text` leads to `text_len` bytes.
    pub fn failreg_load(node: &mut failreg, text: Bytes, text_len: usize, entries: &mut u16)
    -> u32;

    /// `[entry]` Evaluates a point, with the next random draws of the node's generator.
    ///
    /// # Safety
    /// `name` leads to `name_len` bytes.
    pub fn failreg_pass(
        node: &mut failreg,
        name: Bytes,
        name_len: usize,
        act: &mut failreg_act,
    ) -> u32;

    /// Returns the number of a point, for `failreg_pass_at`.
    ///
    /// # Safety
    /// `name` leads to `name_len` bytes.
    pub fn failreg_point(node: &mut failreg, name: Bytes, name_len: usize, point: &mut u32) -> u32;

    /// `[entry]` Evaluates a point by its number.
    pub safe fn failreg_pass_at(node: &mut failreg, point: u32, act: &mut failreg_act) -> u32;

    /// `[entry]` Evaluates a point with random draws of the caller's.
    ///
    /// # Safety
    /// `name` leads to `name_len` bytes, and `words` to `words_len` words.
    pub fn failreg_pass_with(
        node: &mut failreg,
        name: Bytes,
        name_len: usize,
        words: *const u32,
        words_len: usize,
        act: &mut failreg_act,
    ) -> u32;

    /// Returns whether a point is set.
    ///
    /// # Safety
    /// `name` leads to `name_len` bytes.
    pub fn failreg_is_set(
        node: &mut failreg,
        name: Bytes,
        name_len: usize,
        is_set: &mut bool,
    ) -> u32;

    /// Returns whether a pause that began under this version is over.
    ///
    /// # Safety
    /// `name` leads to `name_len` bytes.
    pub fn failreg_pause_over(
        node: &mut failreg,
        name: Bytes,
        name_len: usize,
        stamp: &failreg_stamp,
        is_over: &mut bool,
    ) -> u32;

    /// `[entry]` Transfers rights of a counted term to another node.
    ///
    /// # Safety
    /// `name` leads to `name_len` bytes.
    pub fn failreg_shift(
        node: &mut failreg,
        name: Bytes,
        name_len: usize,
        term: u8,
        to: u8,
        amount: u64,
        total: &mut u64,
    ) -> u32;

    /// `[entry]` Adds rights beyond the count at this node.
    ///
    /// # Safety
    /// `name` leads to `name_len` bytes.
    pub fn failreg_grant(
        node: &mut failreg,
        name: Bytes,
        name_len: usize,
        term: u8,
        amount: u64,
        total: &mut u64,
    ) -> u32;

    /// `[entry for each transfer]` Moves spare rights of the node to nodes that ran out, and
    /// returns the number of transfers. Call it before each round of messages.
    pub safe fn failreg_share(node: &mut failreg, shifts: &mut u64) -> u32;

    /// `[entry for each transfer]` Divides the node's rights to a point evenly among all nodes, and
    /// returns how many it keeps.
    ///
    /// # Safety
    /// `name` leads to `name_len` bytes.
    pub fn failreg_spread(node: &mut failreg, name: Bytes, name_len: usize, kept: &mut u64) -> u32;

    /// `[entry, and one for each transfer]` Sets a point, and divides its rights evenly among all
    /// nodes.
    ///
    /// # Safety
    /// `name` and `actions` lead to as many bytes as the lengths beside them say.
    pub fn failreg_set_spread(
        node: &mut failreg,
        name: Bytes,
        name_len: usize,
        actions: Bytes,
        actions_len: usize,
        stamp: &mut failreg_stamp,
    ) -> u32;

    /// `[entry]` Makes a message to another node, for `failreg_fetch`.
    pub safe fn failreg_emit(node: &mut failreg, to: u8) -> u32;

    /// `[entry]` Accepts a message.
    ///
    /// # Safety
    /// `message` leads to `message_len` bytes.
    pub fn failreg_deliver(
        node: &mut failreg,
        message: Bytes,
        message_len: usize,
        changed: &mut bool,
    ) -> u32;

    /// Returns how often a term ran on all nodes, as far as this one knows.
    ///
    /// # Safety
    /// `name` leads to `name_len` bytes.
    pub fn failreg_spent(
        node: &mut failreg,
        name: Bytes,
        name_len: usize,
        term: u8,
        spent: &mut failreg_wide,
    ) -> u32;

    /// Returns how often a point was evaluated on all nodes while it was set, as far as this one
    /// knows.
    ///
    /// # Safety
    /// `name` leads to `name_len` bytes.
    pub fn failreg_hits(
        node: &mut failreg,
        name: Bytes,
        name_len: usize,
        hits: &mut failreg_wide,
    ) -> u32;

    /// Returns the rights that node `of` has left of a counted term, as far as this one knows.
    ///
    /// # Safety
    /// `name` leads to `name_len` bytes.
    pub fn failreg_rights(
        node: &mut failreg,
        name: Bytes,
        name_len: usize,
        term: u8,
        of: u8,
        rights: &mut i64,
    ) -> u32;

    /// Returns how many accepted calls changed what the node knows.
    pub safe fn failreg_state_version(node: &mut failreg, version: &mut u64) -> u32;

    /// Returns the version of another node that this one has everything of.
    pub safe fn failreg_known(node: &mut failreg, from: u8, known: &mut u64) -> u32;

    /// Returns the version of this node that another one acknowledged.
    pub safe fn failreg_acked(node: &mut failreg, to: u8, acked: &mut u64) -> u32;

    /// Returns how many calls the node has accepted.
    pub safe fn failreg_calls(node: &mut failreg, calls: &mut u64) -> u32;

    /// Returns how many of them are in the call history, where each takes memory: those since
    /// `failreg_forget`.
    pub safe fn failreg_kept(node: &mut failreg, calls: &mut u64) -> u32;

    /// Discards the call history and frees its memory. Nothing else changes, except that the text
    /// of an action that `failreg_pass_at` returned can't be fetched any more.
    pub safe fn failreg_forget(node: &mut failreg) -> u32;

    /// Handles an HTTP request as a served node does, and returns the status of the response, whose
    /// body `failreg_fetch` returns. `[entry]` if the requested call is.
    ///
    /// # Safety
    /// `method`, `path` and `body` lead to as many bytes as the lengths beside them say.
    pub fn failreg_answer(
        node: &mut failreg,
        method: Bytes,
        method_len: usize,
        path: Bytes,
        path_len: usize,
        body: Bytes,
        body_len: usize,
        status: &mut u16,
    ) -> u32;

    /// Handles an HTTP request as a node of a cluster, at this time in milliseconds since 1970. The body
    /// of the response is for `failreg_fetch`.
    ///
    /// # Safety
    /// `method`, `path` and `body` lead to as many bytes as the lengths beside them say.
    pub fn failreg_answer_at(
        node: &mut failreg,
        method: Bytes,
        method_len: usize,
        path: Bytes,
        path_len: usize,
        body: Bytes,
        body_len: usize,
        now_ms: u64,
        answered: &mut failreg_answered,
    ) -> u32;

    /// Has calls of requests wait until each other node was heard.
    pub safe fn failreg_hear_first(node: &mut failreg) -> u32;

    /// Returns the first node that calls wait for, or [`FAILREG_NOBODY`].
    pub safe fn failreg_awaited(node: &mut failreg, peer: &mut u8) -> u32;

    /// `[entry]` Accepts a message, and notes the time for its sender, in milliseconds since 1970.
    ///
    /// # Safety
    /// `message` leads to `message_len` bytes.
    pub fn failreg_deliver_at(
        node: &mut failreg,
        message: Bytes,
        message_len: usize,
        now_ms: u64,
        changed: &mut bool,
    ) -> u32;

    /// Looks at another node, once in a round. Returns what is due for it.
    pub safe fn failreg_due(node: &mut failreg, peer: u8, due: &mut u8) -> u32;

    /// Notes that another node accepted the message that was due.
    pub safe fn failreg_told(node: &mut failreg, peer: u8) -> u32;

    /// Notes that another node wasn't reached, or didn't accept it.
    pub safe fn failreg_missed(node: &mut failreg, peer: u8) -> u32;

    /// Makes the lines of the accepted calls from this number on, each with its newline, for
    /// `failreg_fetch`.
    pub safe fn failreg_part_lines(node: &mut failreg, from: u64) -> u32;

    /// Opens a closed service for a port: with a key for who sends it, without one for this machine.
    ///
    /// # Safety
    /// `key` leads to `key_len` bytes.
    pub fn failreg_service_open(
        service: &mut failreg_service,
        port: u16,
        key: Bytes,
        key_len: usize,
        secret: u64,
        more_secret: u64,
    ) -> u32;

    /// Closes a service, if it is open.
    pub safe fn failreg_service_close(service: &mut failreg_service);

    /// Opens a closed connection, on which nothing arrived yet.
    pub safe fn failreg_http_open(http: &mut failreg_http) -> u32;

    /// Closes a connection, if it is open.
    pub safe fn failreg_http_close(http: &mut failreg_http);

    /// Returns what a connection waits for, such as [`FAILREG_HTTP_HEAD`].
    pub safe fn failreg_http_wants(http: &mut failreg_http) -> u8;

    /// Takes bytes that arrived, at this time in seconds since 1970.
    ///
    /// # Safety
    /// `bytes` leads to `bytes_len` bytes.
    pub fn failreg_http_feed(
        http: &mut failreg_http,
        service: &mut failreg_service,
        bytes: Bytes,
        bytes_len: usize,
        now_s: u64,
    ) -> u32;

    /// The client sends no more, or its time is over.
    pub safe fn failreg_http_end(http: &mut failreg_http) -> u32;

    /// Lets a long body come.
    pub safe fn failreg_http_permit(http: &mut failreg_http, now_s: u64) -> u32;

    /// `[entry]` Has the node handle the request, at this time in milliseconds since 1970.
    pub safe fn failreg_http_answer(
        node: &mut failreg,
        http: &mut failreg_http,
        now_ms: u64,
        answered: &mut failreg_answered,
    ) -> u32;

    /// Has the answer sent.
    pub safe fn failreg_http_tell(http: &mut failreg_http, now_s: u64) -> u32;

    /// Has another response sent in place of the answer.
    ///
    /// # Safety
    /// `text` leads to `text_len` bytes.
    pub fn failreg_http_tell_instead(
        http: &mut failreg_http,
        status: u16,
        text: Bytes,
        text_len: usize,
        now_s: u64,
    ) -> u32;

    /// Copies the next bytes to send, and returns how many they are.
    ///
    /// # Safety
    /// `into` leads to `room` bytes that may be written.
    pub fn failreg_http_output(http: &mut failreg_http, into: *mut u8, room: usize) -> usize;

    /// The first `count` of these bytes were sent.
    pub safe fn failreg_http_sent(http: &mut failreg_http, count: usize) -> u32;

    /// Lists the points that are set, for `failreg_fetch`.
    pub safe fn failreg_list(node: &mut failreg) -> u32;

    /// Makes the first line of the node's journal, without a newline, for `failreg_fetch`.
    ///
    /// # Safety
    /// `run` leads to `run_len` bytes.
    pub fn failreg_part_head(node: &mut failreg, run: Bytes, run_len: usize) -> u32;

    /// Makes the line of an accepted call of the call history, by its number from 0, without a
    /// newline, for `failreg_fetch`.
    pub safe fn failreg_entry(node: &mut failreg, index: u64) -> u32;

    /// `[entry]` Repeats the call of a journal's line. If it has another result, the node is
    /// closed.
    ///
    /// # Safety
    /// `line` leads to `line_len` bytes.
    pub fn failreg_repeat(node: &mut failreg, line: Bytes, line_len: usize) -> u32;

    /// Copies the error text of the last rejected `[entry]` call, at most `room` bytes, and returns
    /// its length. It doesn't change what `failreg_fetch` returns.
    ///
    /// # Safety
    /// `into` leads to `room` bytes that may be written.
    pub fn failreg_fault(node: &mut failreg, into: *mut u8, room: usize, length: &mut usize)
    -> u32;

    /// Copies the bytes that the last call made, at most `room` of them, and returns how many there
    /// are.
    ///
    /// # Safety
    /// `into` leads to `room` bytes that may be written.
    pub fn failreg_fetch(node: &mut failreg, into: *mut u8, room: usize) -> usize;

    /// Copies the random draws of the last evaluation, at most `room` of them, and returns how many
    /// there are.
    ///
    /// # Safety
    /// `into` leads to `room` words that may be written.
    pub fn failreg_words(node: &mut failreg, into: *mut u32, room: usize) -> usize;
}
