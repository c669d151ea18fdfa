//! Where accepted calls are recorded, each as the line of its entry.

use crate::builder::{Builder, How};
use crate::error::{Error, ErrorKind};
use crate::memory::{copied, extend};
use crate::node::Node;
use crate::part::Part;
use crate::receipts::Receipts;
use crate::recorder::Recorder;
use crate::told::{Passed, Stamp};
use std::collections::{HashMap, TryReserveError};

/// Where the lines go.
enum Place {
    Nowhere,
    Here(Receipts),
    /// With the node's number.
    There(Recorder, u8),
    Part(Part),
}

/// The line of an evaluation of a point, without its draws. Evaluations with the same result have
/// the same line, each with its own draws.
struct PassLine {
    came_to: (Stamp, Option<u8>),
    start: String,
    has_draws: bool,
    may_wait: bool,
}

/// The text before and after the draws in an evaluation's line.
const BEFORE_DRAWS: &str = "\"words\":[";
const BEHIND_DRAWS: &str = "]}\n";

impl PassLine {
    // Splits a line with its newline. The configuration determines how many draws an evaluation
    // takes.
    fn of(came_to: (Stamp, Option<u8>), line: &str, may_wait: bool) -> Option<PassLine> {
        let end = line.rfind(BEFORE_DRAWS)? + BEFORE_DRAWS.len();
        Some(PassLine {
            came_to,
            start: line[..end].to_string(),
            has_draws: &line[end..] != BEHIND_DRAWS,
            may_wait,
        })
    }

    // Returns the line of the newest evaluation, which had the same result.
    fn line(&self, node: &mut Node) -> String {
        let mut line = self.start.clone();
        if self.has_draws {
            let draws: Vec<String> = node.words().iter().map(u32::to_string).collect();
            line += &draws.join(",");
        }
        line + BEHIND_DRAWS
    }
}

/// More bytes than a line has beside what its call was given, which it has twice at most: a message
/// in hex, a text with its quotes escaped.
const MOST_BESIDE: usize = 1_024;

/// How much room for lines stays.
const MOST_ROOM: usize = 65_536;

/// The recording of a node.
pub struct Kept {
    place: Place,
    /// For each point that is set, one line per term and one for none, since the last change of
    /// configurations.
    lines: HashMap<String, Vec<PassLine>>,
    /// Which terms of the set points have a count, a bit for each, if known.
    counted: Option<HashMap<String, u16>>,
    /// Whether a call couldn't be recorded.
    has_failed: bool,
    /// Room for a line.
    line: Vec<u8>,
    /// The newest call, if its result is nobody's because memory for its line was refused: the line
    /// is written before the next call.
    unwritten: Option<u64>,
}

impl Kept {
    /// Starts the recording of a node that was just opened. If the node has a journal, the node
    /// resumes from it.
    pub fn of(made: &Builder, node: &mut Node) -> Result<Kept, Error> {
        let place = match &made.recording.0 {
            How::Off => Place::Nowhere,
            How::Kept => Place::Here(Receipts::of(made.number)),
            How::To(recorder) => {
                recorder.open(made.number, made.nodes)?;
                Place::There(recorder.clone(), made.number)
            }
            How::Part(path) => Place::Part(Part::open(path, made, node)?),
        };
        Ok(Kept {
            place,
            lines: HashMap::new(),
            counted: None,
            has_failed: false,
            line: Vec::new(),
            unwritten: None,
        })
    }

    /// Returns whether nothing is recorded, so that no call can fail for it.
    #[inline]
    pub fn records_nothing(&self) -> bool {
        matches!(self.place, Place::Nowhere) && !self.has_failed
    }

    /// Returns the receipts, if they are stored.
    pub fn receipts(&self) -> Option<&Receipts> {
        match &self.place {
            Place::Here(receipts) => Some(receipts),
            Place::Nowhere | Place::There(..) | Place::Part(_) => None,
        }
    }

    /// Returns the error of the first call that couldn't be recorded.
    pub fn check(&self) -> Result<(), Error> {
        match &self.place {
            Place::Nowhere | Place::Here(_) => {}
            Place::There(recorder, _) => recorder.check()?,
            Place::Part(part) => part.check()?,
        }
        if self.has_failed {
            let fault = "an earlier call could not be recorded";
            return Err(Error::new(ErrorKind::RecordingFailed, fault));
        }
        Ok(())
    }

    /// Notes which points are set, from a FAILPOINTS string, if known.
    pub fn learn(&mut self, list: Option<&str>) {
        self.lines.clear();
        self.counted = match &self.place {
            Place::Part(part) if part.is_buffered() => list.and_then(|list| counts_in(list).ok()),
            _ => None,
        };
    }

    /// Writes the line of a call that is still to be written. Errors: the recording lacks a call, or
    /// memory for the line is refused again.
    pub fn catch_up(&mut self, node: &mut Node) -> Result<(), Error> {
        self.check()?;
        match self.unwritten {
            Some(index) => self.keep_or_postpone(node, index),
            None => Ok(()),
        }
    }

    /// Returns whether the node's call history is needed: it has a call that isn't recorded.
    pub fn needs_history(&self) -> bool {
        self.unwritten.is_some()
    }

    /// Makes room for the line of a call that is given this many bytes, before the call is made.
    pub fn make_room(&mut self, given: usize) -> Result<(), TryReserveError> {
        if matches!(self.place, Place::Nowhere) {
            return Ok(());
        }
        let most = 2 * given + MOST_BESIDE;
        self.line.clear();
        self.line.try_reserve(most)?;
        self.place.make_room(most)
    }

    /// Records the node's newest call, which is no evaluation.
    pub fn keep(&mut self, node: &mut Node) -> Result<(), Error> {
        let first = node.calls()?.saturating_sub(1);
        self.keep_since(node, first)
    }

    /// Records the node's newest call, which made a message. If memory for the line is refused, it is
    /// written before the next call, and nobody is given the message.
    pub fn keep_message(&mut self, node: &mut Node) -> Result<(), Error> {
        if matches!(self.place, Place::Nowhere) {
            return Ok(());
        }
        let index = node.calls()?.saturating_sub(1);
        self.keep_or_postpone(node, index)
    }

    fn keep_or_postpone(&mut self, node: &mut Node, index: u64) -> Result<(), Error> {
        let kept = self.put_call(node, index);
        self.unwritten = kept.as_ref().is_err_and(is_short).then_some(index);
        self.has_failed |= kept.is_err() && self.unwritten.is_none();
        kept
    }

    /// Records the node's calls from this number on, none of which is an evaluation.
    pub fn keep_since(&mut self, node: &mut Node, first: u64) -> Result<(), Error> {
        if matches!(self.place, Place::Nowhere) {
            return Ok(());
        }
        let mut calls = first..node.calls()?;
        let kept = calls.try_for_each(|index| self.put_call(node, index));
        self.has_failed |= kept.is_err();
        kept.map_err(visible)
    }

    // Writes the line of a call.
    fn put_call(&mut self, node: &mut Node, index: u64) -> Result<(), Error> {
        let read = read_line(node, index, &mut self.line);
        let put = read.and_then(|()| self.place.put(&mut self.line, false));
        if self.line.capacity() > MOST_ROOM {
            self.line = Vec::new();
        }
        put
    }

    /// Records the node's newest call, an evaluation of this point.
    pub fn keep_pass(&mut self, node: &mut Node, name: &str, pass: &Passed) -> Result<(), Error> {
        if matches!(self.place, Place::Nowhere) {
            return Ok(());
        }
        let kept = self.put_pass(node, name, pass).map_err(visible);
        self.has_failed |= kept.is_err();
        kept
    }

    fn put_pass(&mut self, node: &mut Node, name: &str, pass: &Passed) -> Result<(), Error> {
        let came_to = match pass {
            Passed::Unset => None,
            Passed::NoTerm { stamp } => Some((*stamp, None)),
            Passed::Act { stamp, term, .. } => Some((*stamp, Some(*term))),
        };
        let mut known = self.lines.get(name).into_iter().flatten();
        if let Some(known) = known.find(|it| Some(it.came_to) == came_to) {
            return self
                .place
                .put(&mut known.line(node).into_bytes(), known.may_wait);
        }
        let newest = node.calls()?.saturating_sub(1);
        read_line(node, newest, &mut self.line)?;
        let term = came_to.and_then(|(_, term)| term);
        let may_wait = term.is_none_or(|term| !self.may_be_counted(name, term));
        // Nothing is stored for a point that isn't set: there may be any number of names.
        let text = std::str::from_utf8(&self.line).unwrap_or_default();
        let known = came_to.and_then(|came_to| PassLine::of(came_to, text, may_wait));
        self.place.put(&mut self.line, may_wait)?;
        if let Some(known) = known {
            self.lines.entry(name.to_string()).or_default().push(known);
        }
        Ok(())
    }

    // Returns whether a term of a point may have a count: not if it is known to have none.
    fn may_be_counted(&self, name: &str, term: u8) -> bool {
        let counts = self.counted.as_ref().and_then(|points| points.get(name));
        counts.is_none_or(|counts| counts >> term & 1 == 1)
    }

    /// Writes the lines that wait. Errors: the recording lacks a call, or memory for its line is
    /// refused.
    pub fn flush(&mut self, node: &mut Node) -> Result<(), Error> {
        if let Place::Part(part) = &self.place {
            part.flush();
        }
        self.catch_up(node)
    }

    /// Closes the journal, which another process may open then.
    pub fn close(&mut self) {
        if matches!(self.place, Place::Part(_)) {
            self.place = Place::Nowhere;
        }
    }
}

impl Place {
    // Makes room for a line of this length.
    fn make_room(&mut self, length: usize) -> Result<(), TryReserveError> {
        match self {
            Place::Nowhere | Place::Part(_) => Ok(()),
            Place::Here(receipts) => receipts.make_room(),
            Place::There(recorder, _) => recorder.make_room(length),
        }
    }

    // Writes a line, with its newline. A line that may wait is written with the next one that may
    // not.
    fn put(&mut self, line: &mut Vec<u8>, may_wait: bool) -> Result<(), Error> {
        match self {
            Place::Nowhere => Ok(()),
            Place::Here(receipts) => Ok(receipts.keep(line)?),
            Place::There(recorder, node) => recorder.write(*node, line.trim_ascii_end()),
            Place::Part(part) => part.put(line, may_wait),
        }
    }
}

// Reads the line of a call, with its newline.
fn read_line(node: &mut Node, index: u64, line: &mut Vec<u8>) -> Result<(), Error> {
    node.entry(index, line)?;
    Ok(extend(line, b"\n")?)
}

// Returns whether an error is that of a refused allocation.
fn is_short(error: &Error) -> bool {
    error.kind() == ErrorKind::OutOfMemory
}

// Returns the error of a call that was made, whose result is somebody's already.
fn visible(error: Error) -> Error {
    match error.kind() {
        ErrorKind::NotRecorded | ErrorKind::RecordingFailed => error,
        _ => Error::not_recorded(error.fault()),
    }
}

/// The most terms of an action string.
const MOST_TERMS: usize = 16;

// Returns which terms have a count in a list `name=actions;name=actions`. A count comes before the
// argument, and only ends of terms are `->`.
fn counts_in(list: &str) -> Result<HashMap<String, u16>, TryReserveError> {
    let is_counted = |term: &str| {
        term.split('(')
            .next()
            .is_some_and(|head| head.contains('*'))
    };
    let counts = |actions: &str| {
        let terms = actions.split("->").take(MOST_TERMS).enumerate();
        terms.fold(0, |all, (n, term)| all | u16::from(is_counted(term)) << n)
    };
    let mut all = HashMap::new();
    for (name, actions) in list.split(';').filter_map(|entry| entry.split_once('=')) {
        all.try_reserve(1)?;
        all.insert(copied(name)?, counts(actions));
    }
    Ok(all)
}

#[cfg(test)]
mod tests {
    use super::*;

    #[test]
    fn counts_are_read_from_a_list() {
        let list = "a=off;b.c=20%3*return(x=y)->off -> 1*pause;d=print(2*off)->0*print()";
        let wanted = [("a", 0), ("b.c", 0b101), ("d", 0b10)];
        let wanted = wanted.map(|(name, counts)| (name.to_string(), counts));
        assert_eq!(counts_in(list).unwrap(), HashMap::from(wanted));
        assert!(counts_in("").unwrap().is_empty());
    }

    #[test]
    fn a_line_is_put_together_again() {
        let came_to = (Stamp { clock: 1, node: 0 }, None);
        let start = r#"{"ask":["pass","\"words\":["],"reply":["none",1,0],"words":["#;
        for (draws, has_draws) in [("", false), ("7", true), ("7,4294967295", true)] {
            let line = format!("{start}{draws}{BEHIND_DRAWS}");
            let known = PassLine::of(came_to, &line, true).unwrap();
            assert_eq!((known.start.as_str(), known.has_draws), (start, has_draws));
        }
    }

    #[test]
    fn passes_that_come_to_the_same_have_their_own_draws() {
        let made = Builder::default().recording(true);
        let seed = [7; 32];
        let open = || Node::open(0, 1, 1000, &seed).unwrap();
        let (mut node, mut other) = (open(), open());
        let mut kept = Kept::of(&made, &mut node).unwrap();
        for node in [&mut node, &mut other] {
            node.set("p", "50%3*print(x)->30%off->off").unwrap();
        }
        kept.keep(&mut node).unwrap();
        let newest = |node: &mut Node| {
            let (last, mut line) = (node.calls().unwrap() - 1, Vec::new());
            read_line(node, last, &mut line).unwrap();
            String::from_utf8(line).unwrap()
        };
        let mut wanted = vec![newest(&mut other)];
        for _ in 0..200 {
            let pass = node.pass("p").unwrap();
            kept.keep_pass(&mut node, "p", &pass).unwrap();
            other.pass("p").unwrap();
            wanted.push(newest(&mut other));
        }
        let mut drill = Vec::new();
        crate::receipts::write(&[kept.receipts().unwrap()], &mut drill).unwrap();
        let drill = String::from_utf8(drill).unwrap();
        let (_, trace) = drill.split_once("{\"trace\":0}\n").unwrap();
        assert!(trace.starts_with(&wanted.concat()));
    }
}
