//! A node by the calls of C, each with what it answers in print.

use failreg_sys::*;
use std::fmt::Display;

/// Which node of how many it is, and how many calls it accepts.
#[derive(Clone, Copy)]
pub struct Config {
    pub node: u8,
    pub nodes: u8,
    pub trace_cap: u64,
}

pub const ALONE: Config = Config {
    node: 0,
    nodes: 1,
    trace_cap: 100,
};

pub const FIRST_OF_TWO: Config = Config {
    node: 0,
    nodes: 2,
    trace_cap: 100,
};

pub const SECOND_OF_TWO: Config = Config {
    node: 1,
    nodes: 2,
    trace_cap: 100,
};

/// What an accepted call tells in print, or the text of the refusal.
pub type Answer = Result<String, String>;

// What calls find where they are to tell something: a refused one has to put 0 or false there.
const NUMBER: u64 = 77;

const STAMP: failreg_stamp = failreg_stamp { clock: 7, node: 7 };

/// The numbers of tasks are the places of their names.
const TASKS: [&str; 8] = [
    "off", "return", "sleep", "panic", "print", "pause", "yield", "delay",
];

/// More random draws than any setting takes.
const TOO_MANY_WORDS: [u32; 100] = [0; 100];

/// A node that is open.
pub struct Node(failreg);

impl Drop for Node {
    fn drop(&mut self) {
        failreg_close(&mut self.0);
    }
}

impl Node {
    /// Opens a node, or answers the number of the refusal.
    pub fn open(config: Config) -> Result<Node, u32> {
        let mut node = failreg::CLOSED;
        let Config {
            node: number,
            nodes,
            trace_cap,
        } = config;
        match failreg_open(&mut node, number, nodes, trace_cap, &[0; 32]) {
            FAILREG_OK => Ok(Node(node)),
            status => Err(status),
        }
    }

    pub fn set(&mut self, name: &str, actions: &str) -> Answer {
        let mut stamp = STAMP;
        let (text, length) = (actions.as_ptr(), actions.len());
        // SAFETY: each pointer leads to as many bytes as the length beside it says.
        let status = unsafe {
            failreg_set(
                &mut self.0,
                name.as_ptr(),
                name.len(),
                text,
                length,
                &mut stamp,
            )
        };
        self.told(status, stamp).map(stamp_text)
    }

    pub fn remove(&mut self, name: &str) -> Answer {
        let mut stamp = STAMP;
        // SAFETY: the pointer leads to as many bytes as the length says.
        let status = unsafe { failreg_remove(&mut self.0, name.as_ptr(), name.len(), &mut stamp) };
        self.told(status, stamp).map(stamp_text)
    }

    pub fn load(&mut self, text: &str) -> Answer {
        let mut entries = 77;
        // SAFETY: the pointer leads to as many bytes as the length says.
        let status = unsafe { failreg_load(&mut self.0, text.as_ptr(), text.len(), &mut entries) };
        self.told(status, entries).map(in_print)
    }

    pub fn pass(&mut self, name: &str, words: &[u32]) -> Answer {
        let mut act = failreg_act {
            clock: NUMBER,
            ..failreg_act::default()
        };
        let (draws, count) = (words.as_ptr(), words.len());
        // SAFETY: each pointer leads to as many bytes or words as the length beside it says.
        let status = unsafe {
            failreg_pass_with(
                &mut self.0,
                name.as_ptr(),
                name.len(),
                draws,
                count,
                &mut act,
            )
        };
        let act = self.told(status, act)?;
        Ok(self.pass_text(act))
    }

    pub fn shift(&mut self, name: &str, term: u8, to: u8, amount: u64) -> Answer {
        let mut total = NUMBER;
        let (text, length) = (name.as_ptr(), name.len());
        // SAFETY: the pointer leads to as many bytes as the length says.
        let status =
            unsafe { failreg_shift(&mut self.0, text, length, term, to, amount, &mut total) };
        self.told(status, total).map(in_print)
    }

    pub fn grant(&mut self, name: &str, term: u8, amount: u64) -> Answer {
        let mut total = NUMBER;
        let (text, length) = (name.as_ptr(), name.len());
        // SAFETY: the pointer leads to as many bytes as the length says.
        let status = unsafe { failreg_grant(&mut self.0, text, length, term, amount, &mut total) };
        self.told(status, total).map(in_print)
    }

    /// Makes a message, which is fetched.
    pub fn emit(&mut self, to: u8) -> Result<Vec<u8>, String> {
        let status = failreg_emit(&mut self.0, to);
        self.told(status, ())?;
        Ok(self.fetch())
    }

    pub fn deliver(&mut self, message: &[u8]) -> Answer {
        let mut changed = true;
        let (bytes, length) = (message.as_ptr(), message.len());
        // SAFETY: the pointer leads to as many bytes as the length says.
        let status = unsafe { failreg_deliver(&mut self.0, bytes, length, &mut changed) };
        let changed = self.told(status, changed)?;
        Ok(if changed { "changed" } else { "same" }.to_string())
    }

    /// What a call told, where it is accepted.
    fn told<T: Default + PartialEq>(&mut self, status: u32, told: T) -> Result<T, String> {
        if status == FAILREG_OK {
            return Ok(told);
        }
        let fault = self.fault();
        if !fault.starts_with(&format!("N{status} ")) {
            return Err(format!("{fault}, and status {status}"));
        }
        if told != T::default() {
            return Err(format!("{fault}, and told something"));
        }
        Err(fault)
    }

    fn fault(&mut self) -> String {
        let mut bytes = [0; 200];
        let mut length = 0;
        let (into, room) = (bytes.as_mut_ptr(), bytes.len());
        // SAFETY: the array has so many bytes.
        match unsafe { failreg_fault(&mut self.0, into, room, &mut length) } {
            FAILREG_OK => String::from_utf8_lossy(&bytes[..length]).into_owned(),
            status => format!("no fault: {status}"),
        }
    }

    fn pass_text(&mut self, act: failreg_act) -> String {
        let failreg_act {
            clock, node, term, ..
        } = act;
        match act.outcome {
            FAILREG_OUTCOME_UNSET => "unset".to_string(),
            FAILREG_OUTCOME_NONE => format!("none {clock}.{node}"),
            _ => format!("act {clock}.{node} {term} {}", self.task_text(act)),
        }
    }

    fn task_text(&mut self, act: failreg_act) -> String {
        let task = TASKS[usize::from(act.task)];
        let text = self.fetch_text();
        if text.len() as u64 != act.text_len {
            format!("{task} with a text of another length")
        } else if act.has_text {
            format!("{task}({text})")
        } else if matches!(act.task, FAILREG_TASK_SLEEP | FAILREG_TASK_DELAY) {
            format!("{task}({})", act.millis)
        } else {
            task.to_string()
        }
    }

    /// What the last pass, emit or list left.
    fn fetch(&mut self) -> Vec<u8> {
        let mut bytes = Vec::new();
        // SAFETY: there is no room, so that nothing is written.
        let length = unsafe { failreg_fetch(&mut self.0, bytes.as_mut_ptr(), 0) };
        bytes.resize(length, 0);
        // SAFETY: the pointer leads to as many bytes as the length says.
        unsafe { failreg_fetch(&mut self.0, bytes.as_mut_ptr(), length) };
        bytes
    }

    fn fetch_text(&mut self) -> String {
        String::from_utf8_lossy(&self.fetch()).into_owned()
    }
}

/// Looks, which leave the node as it is.
impl Node {
    pub fn rights(&mut self, name: &str, term: u8, of: u8) -> String {
        let mut rights = 0;
        let (text, length) = (name.as_ptr(), name.len());
        // SAFETY: the pointer leads to as many bytes as the length says.
        let status = unsafe { failreg_rights(&mut self.0, text, length, term, of, &mut rights) };
        seen(status, rights)
    }

    pub fn spent(&mut self, name: &str, term: u8) -> String {
        let mut spent = failreg_wide::default();
        let (text, length) = (name.as_ptr(), name.len());
        // SAFETY: the pointer leads to as many bytes as the length says.
        let status = unsafe { failreg_spent(&mut self.0, text, length, term, &mut spent) };
        seen(status, whole(spent))
    }

    pub fn hits(&mut self, name: &str) -> String {
        let mut hits = failreg_wide::default();
        // SAFETY: the pointer leads to as many bytes as the length says.
        let status = unsafe { failreg_hits(&mut self.0, name.as_ptr(), name.len(), &mut hits) };
        seen(status, whole(hits))
    }

    /// How many random draws a pass takes, by the refusal of one that is given too many.
    pub fn words(&mut self, name: &str) -> String {
        match self.pass(name, &TOO_MANY_WORDS) {
            Ok(passed) => format!("passed: {passed}"),
            Err(fault) => match fault.strip_prefix("N14 BadWords need=") {
                Some(need) => need.to_string(),
                None => fault,
            },
        }
    }

    pub fn is_set(&mut self, name: &str) -> String {
        let mut is_set = false;
        let (text, length) = (name.as_ptr(), name.len());
        // SAFETY: the pointer leads to as many bytes as the length says.
        let status = unsafe { failreg_is_set(&mut self.0, text, length, &mut is_set) };
        seen(status, is_set)
    }

    /// Whether a pause is over that began under the stamp of this clock and node.
    pub fn pause_over(&mut self, name: &str, clock: u64, node: u8) -> String {
        let (mut is_over, stamp) = (false, failreg_stamp { clock, node });
        let (text, length) = (name.as_ptr(), name.len());
        // SAFETY: the pointer leads to as many bytes as the length says.
        let status = unsafe { failreg_pause_over(&mut self.0, text, length, &stamp, &mut is_over) };
        seen(status, is_over)
    }

    pub fn list(&mut self) -> String {
        let status = failreg_list(&mut self.0);
        seen(status, self.fetch_text())
    }

    pub fn version(&mut self) -> String {
        let mut version = 0;
        let status = failreg_state_version(&mut self.0, &mut version);
        seen(status, version)
    }

    pub fn known(&mut self, from: u8) -> String {
        let mut known = 0;
        let status = failreg_known(&mut self.0, from, &mut known);
        seen(status, known)
    }

    pub fn acked(&mut self, to: u8) -> String {
        let mut acked = 0;
        let status = failreg_acked(&mut self.0, to, &mut acked);
        seen(status, acked)
    }

    /// How many calls the node has accepted.
    pub fn entries(&mut self) -> String {
        let mut calls = 0;
        let status = failreg_calls(&mut self.0, &mut calls);
        seen(status, calls)
    }

    /// The points that are set, and of each of these names that is one the numbers.
    pub fn view(&mut self, names: &[&str]) -> String {
        let mut view = self.list();
        for name in names {
            if self.is_set(name) == "true" {
                view += &self.numbers(name);
            }
        }
        view
    }

    /// All that a refused call has to leave as it was: the points that are set, the numbers of
    /// these names, and what is counted of calls and versions.
    pub fn all(&mut self, names: &[&str]) -> String {
        let mut all = self.list();
        for name in names {
            all += &format!(" | {}{}", self.is_set(name), self.numbers(name));
        }
        all += &format!(" | {} {}", self.entries(), self.version());
        for node in 0..2 {
            all += &format!(" | {} {}", self.known(node), self.acked(node));
        }
        all
    }

    /// The rights of the nodes 0, 1 and 2 to execute the first term of a name, how often all
    /// nodes did, and how often they passed it.
    fn numbers(&mut self, name: &str) -> String {
        let rights = [0, 1, 2].map(|of| self.rights(name, 0, of)).join(" ");
        format!(" | {rights} {} {}", self.spent(name, 0), self.hits(name))
    }
}

fn seen(status: u32, told: impl Display) -> String {
    match status {
        FAILREG_OK => told.to_string(),
        _ => format!("refused: {status}"),
    }
}

fn in_print(told: impl Display) -> String {
    told.to_string()
}

fn stamp_text(stamp: failreg_stamp) -> String {
    format!("{}.{}", stamp.clock, stamp.node)
}

fn whole(wide: failreg_wide) -> u128 {
    u128::from(wide.high) << 64 | u128::from(wide.low)
}
