//! A node of the proved library, used in one call at a time by `&mut`. All `unsafe` calls are here:
//! each passes references and slices of its own, which live as long as the call.

use crate::error::Error;
use crate::memory::copied;
use crate::told::{Passed, Stamp, Task};
use failreg_sys as sys;
use std::borrow::Cow;
use std::time::{Duration, SystemTime, UNIX_EPOCH};

/// More bytes than any error text has.
const LONGEST_FAULT: usize = 256;

/// Enough bytes for most results, so that one call fetches them: the bodies of all responses to
/// calls, for example.
pub const MOST_FETCHED: usize = 256;

pub struct Node {
    handle: sys::failreg,
}

/// What is due for another node in a round.
#[derive(Clone, Copy, Debug, PartialEq, Eq)]
pub enum Due {
    Nothing,
    /// It gets a message.
    Tell,
    /// It is asked for a message, because calls wait for one.
    Ask,
}

/// What an HTTP request changed.
#[derive(Clone, Copy, Debug)]
pub struct Answered {
    pub status: u16,
    /// The status of the node's error, if it rejected the request.
    fault: u32,
    /// Whether points may be set otherwise than before.
    pub changes_settings: bool,
    /// Whether calls waited for the message in the request, and no longer wait.
    pub has_heard_all: bool,
}

impl Answered {
    /// Whether the node rejected a call at its call limit.
    pub fn is_at_cap(self) -> bool {
        self.fault == sys::FAILREG_E_TRACE_FULL
    }

    /// Returns the error of a message that was rejected because others know more about this node than
    /// it does. `reply` is the body of the response.
    pub fn forgotten(self, reply: &[u8]) -> Option<Error> {
        matches!(self.fault, sys::FAILREG_E_OWN_AHEAD | sys::FAILREG_E_ACK_AHEAD).then(|| {
            let text = std::str::from_utf8(reply).ok().map(copied);
            let code = match self.fault {
                sys::FAILREG_E_OWN_AHEAD => "N18",
                _ => "N19",
            };
            let fault = text.and_then(Result::ok).map_or(Cow::from(code), Cow::from);
            Error::of_status(self.fault, fault)
        })
    }
}

/// An evaluation whose result isn't read yet.
pub struct Evaluated {
    status: u32,
    act: sys::failreg_act,
}

/// A result that needs nothing of the node.
pub enum Plain {
    Nothing,
    /// The action `return`, without an argument.
    Return,
}

impl Evaluated {
    /// Returns the result, if it needs nothing of the node.
    #[inline]
    pub fn plain(&self) -> Option<Plain> {
        if self.status != sys::FAILREG_OK {
            return None;
        }
        let is_plain_return = self.act.task == sys::FAILREG_TASK_RETURN && !self.act.has_text;
        match self.act.outcome {
            sys::FAILREG_OUTCOME_UNSET | sys::FAILREG_OUTCOME_NONE => Some(Plain::Nothing),
            sys::FAILREG_OUTCOME_ACT if is_plain_return => Some(Plain::Return),
            _ => None,
        }
    }
}

impl Drop for Node {
    fn drop(&mut self) {
        self.close();
    }
}

// Returns the milliseconds since 1970, by the machine's clock.
fn milliseconds() -> u64 {
    let since = SystemTime::now().duration_since(UNIX_EPOCH);
    since.map_or(0, |since| u64::try_from(since.as_millis()).unwrap_or(u64::MAX))
}

// The library returned a value that this crate doesn't have: they weren't built from one tree.
fn unknown(what: &str, number: u8) -> Error {
    let fault = format!("the library returned {what} {number}, which this crate doesn't have");
    Error::new(crate::ErrorKind::Mismatch, fault)
}

impl From<sys::failreg_stamp> for Stamp {
    fn from(sys::failreg_stamp { clock, node }: sys::failreg_stamp) -> Stamp {
        Stamp { clock, node }
    }
}

fn whole(wide: sys::failreg_wide) -> u128 {
    u128::from(wide.high) << 64 | u128::from(wide.low)
}

impl Node {
    pub fn open(number: u8, nodes: u8, cap: u64, seed: &[u8; 32]) -> Result<Node, Error> {
        let mut node = Node {
            handle: sys::failreg::CLOSED,
        };
        let status = sys::failreg_open(&mut node.handle, number, nodes, cap, seed);
        let fault = match status {
            sys::FAILREG_OK => return Ok(node),
            sys::FAILREG_E_BAD_CONFIG => "N21 BadConfig".into(),
            sys::FAILREG_E_NO_MEMORY => "N22 OutOfMemory".into(),
            status => Cow::from(format!("N{status}")),
        };
        Err(Error::of_status(status, fault))
    }

    /// Closes the node and frees its memory. Every later call fails.
    pub fn close(&mut self) {
        sys::failreg_close(&mut self.handle);
    }

    /// Returns whether the node is closed.
    pub fn is_closed(&mut self) -> bool {
        sys::failreg_calls(&mut self.handle, &mut 0) == sys::FAILREG_E_CLOSED
    }

    fn answer<T>(&mut self, status: u32, value: T) -> Result<T, Error> {
        match status {
            sys::FAILREG_OK => Ok(value),
            _ => Err(Error::of_status(status, self.fault_of(status))),
        }
    }

    fn fault_of(&mut self, status: u32) -> Cow<'static, str> {
        match status {
            sys::FAILREG_E_NO_MEMORY => "N22 OutOfMemory".into(),
            sys::FAILREG_E_NOT_UTF8 => "the text is not UTF-8".into(),
            sys::FAILREG_E_CLOSED => "the registry is closed".into(),
            sys::FAILREG_E_NO_POINT => "no point has the number".into(),
            sys::FAILREG_E_NO_ENTRY => "the node stores no call with this number".into(),
            sys::FAILREG_E_NO_LINE => "not a line of a call".into(),
            sys::FAILREG_E_DIFFERS => "the call does not replay".into(),
            _ => match self.last_fault() {
                Some(fault) => fault.into(),
                None => "the call was rejected, and memory for its error is refused".into(),
            },
        }
    }

    // The text of the last rejected call, unless there is no memory for it.
    fn last_fault(&mut self) -> Option<String> {
        let mut bytes = [0; LONGEST_FAULT];
        let mut length = 0;
        let (into, room) = (bytes.as_mut_ptr(), bytes.len());
        // SAFETY: the array has so many bytes.
        let status = unsafe { sys::failreg_fault(&mut self.handle, into, room, &mut length) };
        let text = std::str::from_utf8(&bytes[..length.min(room)]).ok()?;
        (status == sys::FAILREG_OK).then(|| copied(text).ok())?
    }

    // A reader of a name leaves no error text: it rejects bad names, and fails without memory.
    fn read<T>(&mut self, status: u32, value: T) -> Result<T, Error> {
        match status {
            sys::FAILREG_E_BAD_NAME => Err(Error::of_status(status, "N2 BadName")),
            _ => self.answer(status, value),
        }
    }

    fn fetch(&mut self) -> Result<Vec<u8>, Error> {
        let mut bytes = Vec::new();
        bytes.try_reserve_exact(MOST_FETCHED)?;
        self.fetch_into(&mut bytes)?;
        Ok(bytes)
    }

    // Replaces these bytes. If they have the room for it, no memory is asked for.
    fn fetch_into(&mut self, bytes: &mut Vec<u8>) -> Result<(), Error> {
        loop {
            bytes.clear();
            let (into, room) = (bytes.as_mut_ptr(), bytes.capacity());
            // SAFETY: the vector has room for so many bytes, and as many of them as are copied have a
            // value then.
            let length = unsafe {
                let length = sys::failreg_fetch(&mut self.handle, into, room);
                bytes.set_len(length.min(room));
                length
            };
            if length <= room {
                return Ok(());
            }
            bytes.clear();
            bytes.try_reserve_exact(length)?;
        }
    }

    fn fetch_text(&mut self) -> Result<String, Error> {
        let text = String::from_utf8(self.fetch()?);
        text.map_err(|_| Error::new(crate::ErrorKind::Mismatch, "the text is not UTF-8"))
    }

    // Returns the text of an action. The evaluation is made, so it can't be an error that memory is
    // refused.
    fn task_text(&mut self, length: usize) -> String {
        let mut text = Vec::with_capacity(length);
        // It has the room.
        let _ = self.fetch_into(&mut text);
        String::from_utf8(text)
            .unwrap_or_else(|other| String::from_utf8_lossy(other.as_bytes()).into_owned())
    }

    /// Returns the first line of the node's journal, without a newline.
    pub fn part_head(&mut self, run: &str) -> Result<String, Error> {
        let h = &mut self.handle;
        // SAFETY: a text and its length.
        let status = unsafe { sys::failreg_part_head(h, run.as_ptr(), run.len()) };
        self.answer(status, ())?;
        self.fetch_text()
    }

    /// Writes the line of a call of the history, by its number from 0, without a newline, in place
    /// of these bytes.
    pub fn entry(&mut self, index: u64, line: &mut Vec<u8>) -> Result<(), Error> {
        let status = sys::failreg_entry(&mut self.handle, index);
        self.answer(status, ())?;
        self.fetch_into(line)
    }

    /// Repeats the call of a line.
    pub fn repeat(&mut self, line: &[u8]) -> Result<(), Error> {
        let (at, len) = (line.as_ptr(), line.len());
        // SAFETY: bytes and how many they are.
        let status = unsafe { sys::failreg_repeat(&mut self.handle, at, len) };
        self.answer(status, ())
    }

    /// Returns the random draws of the last evaluation.
    pub fn words(&mut self) -> Vec<u32> {
        let mut words = [0; 16];
        let (into, room) = (words.as_mut_ptr(), words.len());
        // SAFETY: the array has so many words.
        let length = unsafe { sys::failreg_words(&mut self.handle, into, room) };
        words[..length.min(room)].to_vec()
    }

    pub fn set(&mut self, name: &str, actions: &str) -> Result<Stamp, Error> {
        let mut stamp = sys::failreg_stamp::default();
        let (at, len) = (actions.as_ptr(), actions.len());
        let h = &mut self.handle;
        // SAFETY: two texts, each with its length.
        let status = unsafe { sys::failreg_set(h, name.as_ptr(), name.len(), at, len, &mut stamp) };
        self.answer(status, stamp.into())
    }

    pub fn remove(&mut self, name: &str) -> Result<Stamp, Error> {
        let mut stamp = sys::failreg_stamp::default();
        let h = &mut self.handle;
        // SAFETY: a text and its length.
        let status = unsafe { sys::failreg_remove(h, name.as_ptr(), name.len(), &mut stamp) };
        self.answer(status, stamp.into())
    }

    pub fn load(&mut self, text: &[u8]) -> Result<u16, Error> {
        let mut entries = 0;
        let h = &mut self.handle;
        // SAFETY: bytes and how many they are.
        let status = unsafe { sys::failreg_load(h, text.as_ptr(), text.len(), &mut entries) };
        self.answer(status, entries)
    }

    pub fn pass(&mut self, name: &str) -> Result<Passed, Error> {
        let mut act = sys::failreg_act::default();
        let h = &mut self.handle;
        // SAFETY: a text and its length.
        let status = unsafe { sys::failreg_pass(h, name.as_ptr(), name.len(), &mut act) };
        self.passed(status, &act)
    }

    /// Returns the number of a point, for `pass_at`.
    pub fn point(&mut self, name: &str) -> Result<u32, Error> {
        let mut point = 0;
        let h = &mut self.handle;
        // SAFETY: a text and its length.
        let status = unsafe { sys::failreg_point(h, name.as_ptr(), name.len(), &mut point) };
        self.read(status, point)
    }

    pub fn pass_at(&mut self, point: u32) -> Result<Passed, Error> {
        let evaluated = self.evaluate_at(point);
        self.result_of(&evaluated)
    }

    /// Evaluates a point by its number. The result is to be read before the next call.
    #[inline]
    pub fn evaluate_at(&mut self, point: u32) -> Evaluated {
        let mut act = sys::failreg_act::default();
        let status = sys::failreg_pass_at(&mut self.handle, point, &mut act);
        Evaluated { status, act }
    }

    /// Returns the result of the last call, an evaluation.
    pub fn result_of(&mut self, evaluated: &Evaluated) -> Result<Passed, Error> {
        self.passed(evaluated.status, &evaluated.act)
    }

    fn passed(&mut self, status: u32, act: &sys::failreg_act) -> Result<Passed, Error> {
        self.answer(status, ())?;
        let stamp = Stamp {
            clock: act.clock,
            node: act.node,
        };
        Ok(match act.outcome {
            sys::FAILREG_OUTCOME_UNSET => Passed::Unset,
            sys::FAILREG_OUTCOME_NONE => Passed::NoTerm { stamp },
            sys::FAILREG_OUTCOME_ACT => Passed::Act {
                stamp,
                term: act.term,
                task: self.task_of(act)?,
            },
            other => return Err(unknown("outcome", other)),
        })
    }

    fn task_of(&mut self, act: &sys::failreg_act) -> Result<Task, Error> {
        let text = act.has_text.then(|| self.task_text(act.text_len as usize));
        let time = Duration::from_millis(act.millis);
        Ok(match act.task {
            sys::FAILREG_TASK_OFF => Task::Off,
            sys::FAILREG_TASK_RETURN => Task::Return(text),
            sys::FAILREG_TASK_SLEEP => Task::Sleep(time),
            sys::FAILREG_TASK_PANIC => Task::Panic(text),
            sys::FAILREG_TASK_PRINT => Task::Print(text),
            sys::FAILREG_TASK_PAUSE => Task::Pause,
            sys::FAILREG_TASK_YIELD => Task::Yield,
            sys::FAILREG_TASK_DELAY => Task::Delay(time),
            other => return Err(unknown("task", other)),
        })
    }

    /// Returns whether a point is set.
    pub fn is_set(&mut self, name: &str) -> Result<bool, Error> {
        let mut is_set = false;
        let h = &mut self.handle;
        // SAFETY: a text and its length.
        let status = unsafe { sys::failreg_is_set(h, name.as_ptr(), name.len(), &mut is_set) };
        self.read(status, is_set)
    }

    /// Returns whether a point isn't set under this version any more.
    pub fn is_pause_over(&mut self, name: &str, stamp: Stamp) -> Result<bool, Error> {
        let Stamp { clock, node } = stamp;
        let since = sys::failreg_stamp { clock, node };
        let mut is_over = false;
        let h = &mut self.handle;
        // SAFETY: a text and its length.
        let status =
            unsafe { sys::failreg_pause_over(h, name.as_ptr(), name.len(), &since, &mut is_over) };
        self.read(status, is_over)
    }

    pub fn shift(&mut self, name: &str, term: u8, to: u8, amount: u64) -> Result<u64, Error> {
        let mut total = 0;
        let h = &mut self.handle;
        // SAFETY: a text and its length.
        let status = unsafe {
            sys::failreg_shift(h, name.as_ptr(), name.len(), term, to, amount, &mut total)
        };
        self.answer(status, total)
    }

    pub fn grant(&mut self, name: &str, term: u8, amount: u64) -> Result<u64, Error> {
        let mut total = 0;
        let h = &mut self.handle;
        // SAFETY: a text and its length.
        let status =
            unsafe { sys::failreg_grant(h, name.as_ptr(), name.len(), term, amount, &mut total) };
        self.answer(status, total)
    }

    /// Moves spare rights to nodes that ran out. Returns the number of transfers.
    pub fn share(&mut self) -> Result<u64, Error> {
        let mut shifts = 0;
        let status = sys::failreg_share(&mut self.handle, &mut shifts);
        self.answer(status, shifts)
    }

    /// Divides the rights to a point evenly among all nodes. Returns how many this node keeps.
    pub fn spread(&mut self, name: &str) -> Result<u64, Error> {
        let mut kept = 0;
        let h = &mut self.handle;
        // SAFETY: a text and its length.
        let status = unsafe { sys::failreg_spread(h, name.as_ptr(), name.len(), &mut kept) };
        self.answer(status, kept)
    }

    /// Sets a point, and divides its rights evenly among all nodes.
    pub fn set_spread(&mut self, name: &str, actions: &str) -> Result<Stamp, Error> {
        let mut stamp = sys::failreg_stamp::default();
        let (at, len) = (actions.as_ptr(), actions.len());
        let h = &mut self.handle;
        // SAFETY: two texts, each with its length.
        let status =
            unsafe { sys::failreg_set_spread(h, name.as_ptr(), name.len(), at, len, &mut stamp) };
        self.answer(status, stamp.into())
    }

    /// Makes a message, and returns it, or the error of a refused allocation: the call is made then,
    /// too.
    pub fn emit(&mut self, to: u8) -> Result<Result<Vec<u8>, Error>, Error> {
        let status = sys::failreg_emit(&mut self.handle, to);
        self.answer(status, ())?;
        Ok(self.fetch())
    }

    /// Accepts a message now.
    pub fn deliver(&mut self, message: &[u8]) -> Result<bool, Error> {
        let mut changed = false;
        let (at, len) = (message.as_ptr(), message.len());
        let h = &mut self.handle;
        // SAFETY: bytes and how many they are.
        let status = unsafe { sys::failreg_deliver_at(h, at, len, milliseconds(), &mut changed) };
        self.answer(status, changed)
    }

    /// From now on calls of requests wait until each other node was heard.
    pub fn hear_first(&mut self) {
        sys::failreg_hear_first(&mut self.handle);
    }

    /// Returns the first node that calls wait for.
    pub fn awaited(&mut self) -> Option<u8> {
        let mut peer = sys::FAILREG_NOBODY;
        sys::failreg_awaited(&mut self.handle, &mut peer);
        (peer != sys::FAILREG_NOBODY).then_some(peer)
    }

    /// Looks at another node, once in a round. Returns what is due for it.
    pub fn due(&mut self, peer: u8) -> Result<Due, Error> {
        let mut due = 0;
        let status = sys::failreg_due(&mut self.handle, peer, &mut due);
        self.answer(status, ())?;
        Ok(match due {
            sys::FAILREG_DUE_NOTHING => Due::Nothing,
            sys::FAILREG_DUE_TELL => Due::Tell,
            sys::FAILREG_DUE_ASK => Due::Ask,
            other => return Err(unknown("what is due,", other)),
        })
    }

    /// Notes that another node accepted the message that was due, or that it didn't.
    pub fn note_sent(&mut self, peer: u8, is_accepted: bool) {
        match is_accepted {
            true => sys::failreg_told(&mut self.handle, peer),
            false => sys::failreg_missed(&mut self.handle, peer),
        };
    }

    /// Handles an HTTP request now. Returns the status of the response and what the request changed, and
    /// leaves the body in `reply`, which has room for `MOST_FETCHED` bytes: so a response to a call
    /// takes no memory. If a longer one can't have it, the status is 503, without a body.
    pub fn reply_to(
        &mut self,
        method: &str,
        path: &str,
        body: &[u8],
        reply: &mut Vec<u8>,
    ) -> Result<Answered, Error> {
        let mut told = sys::failreg_answered::default();
        let (h, now) = (&mut self.handle, milliseconds());
        let (at, at_len) = (path.as_ptr(), path.len());
        let (sent, sent_len) = (body.as_ptr(), body.len());
        // SAFETY: two texts and bytes, each with its length.
        let answered = unsafe {
            let (by, by_len) = (method.as_ptr(), method.len());
            sys::failreg_answer_at(h, by, by_len, at, at_len, sent, sent_len, now, &mut told)
        };
        self.answer(answered, ())?;
        let mut answered = Answered {
            status: told.status,
            fault: told.fault.into(),
            changes_settings: told.changes_settings,
            has_heard_all: told.has_heard_all,
        };
        if self.fetch_into(reply).is_err() {
            reply.clear();
            answered.status = 503;
        }
        Ok(answered)
    }

    pub fn list(&mut self) -> Result<String, Error> {
        let status = sys::failreg_list(&mut self.handle);
        self.answer(status, ())?;
        self.fetch_text()
    }

    pub fn spent(&mut self, name: &str, term: u8) -> Result<u128, Error> {
        let mut wide = sys::failreg_wide::default();
        let h = &mut self.handle;
        // SAFETY: a text and its length.
        let status = unsafe { sys::failreg_spent(h, name.as_ptr(), name.len(), term, &mut wide) };
        self.read(status, whole(wide))
    }

    pub fn hits(&mut self, name: &str) -> Result<u128, Error> {
        let mut wide = sys::failreg_wide::default();
        let h = &mut self.handle;
        // SAFETY: a text and its length.
        let status = unsafe { sys::failreg_hits(h, name.as_ptr(), name.len(), &mut wide) };
        self.read(status, whole(wide))
    }

    pub fn rights(&mut self, name: &str, term: u8, of: u8) -> Result<i64, Error> {
        let mut rights = 0;
        let h = &mut self.handle;
        // SAFETY: a text and its length.
        let status =
            unsafe { sys::failreg_rights(h, name.as_ptr(), name.len(), term, of, &mut rights) };
        self.read(status, rights)
    }

    pub fn version(&mut self) -> Result<u64, Error> {
        let mut version = 0;
        let status = sys::failreg_state_version(&mut self.handle, &mut version);
        self.answer(status, version)
    }

    pub fn known(&mut self, from: u8) -> Result<u64, Error> {
        let mut known = 0;
        let status = sys::failreg_known(&mut self.handle, from, &mut known);
        self.answer(status, known)
    }

    pub fn acked(&mut self, to: u8) -> Result<u64, Error> {
        let mut acked = 0;
        let status = sys::failreg_acked(&mut self.handle, to, &mut acked);
        self.answer(status, acked)
    }

    /// Discards the call history. A closed node has none.
    pub fn forget(&mut self) {
        sys::failreg_forget(&mut self.handle);
    }

    pub fn calls(&mut self) -> Result<u64, Error> {
        let mut calls = 0;
        let status = sys::failreg_calls(&mut self.handle, &mut calls);
        self.answer(status, calls)
    }
}
