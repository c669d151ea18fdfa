//! A node's journal: the file with the line of each call that the node accepted, from which it
//! resumes when its process restarts.

use crate::builder::Builder;
use crate::error::{Error, ErrorKind};
use crate::memory::extend;
use crate::node::Node;
use crate::state::MOST_KEPT;
use std::fs::{File, OpenOptions, TryLockError};
use std::io::{self, BufRead, BufReader, Read, Write};
use std::path::Path;
use std::sync::{Arc, Condvar, Mutex, MutexGuard};
use std::thread::{self, JoinHandle};
use std::time::Duration;

/// How many bytes of a journal are read at once.
const CHUNK: usize = 65_536;

/// The longest line, in bytes with its newline: what `failreg audit` reads, too.
const MOST_OF_LINE: usize = 268_435_456;

/// How many bytes of a first line are read to say what the file is.
const MOST_OF_HEAD: usize = 4_096;

/// How often to try to lock the file, and the pause between. A process that is gone may have just
/// started another one, which holds its files for a moment.
const TRIES: u32 = 20;
const REST: Duration = Duration::from_millis(10);

/// How long lines wait at most, and how many bytes of them.
const LONGEST_WAIT: Duration = Duration::from_millis(50);
const MOST_WAITING: usize = 65_536;

/// A journal that is open for writing, and locked for this process.
pub struct Part {
    shared: Arc<Shared>,
    /// The thread that writes lines that waited, if lines may wait.
    writer: Option<JoinHandle<()>>,
}

struct Shared {
    lines: Mutex<Lines>,
    /// Notified when the first line waits, and when the journal is closed.
    changed: Condvar,
}

/// What the lock of a journal guards. It is taken after that of the registry, never before.
struct Lines {
    /// `None` after a failed write.
    out: Option<Box<dyn Write + Send>>,
    /// Why the write failed.
    fault: String,
    /// Whole lines that aren't written yet.
    waiting: Vec<u8>,
    /// Whether the writing thread waits for the first of them.
    is_idle: bool,
    is_closed: bool,
}

/// A file whose writes reach the disk before they return.
struct Synced(File);

impl Write for Synced {
    fn write(&mut self, bytes: &[u8]) -> io::Result<usize> {
        self.0.write(bytes)
    }

    fn flush(&mut self) -> io::Result<()> {
        self.0.sync_data()
    }
}

impl Part {
    /// Opens and locks the journal of a node that was just opened, and replays it. Starts a new one
    /// if the file is missing or empty. After an error the file is unchanged.
    pub fn open(path: &Path, made: &Builder, node: &mut Node) -> Result<Part, Error> {
        let opened = open(path, made, node).and_then(|file| match made.is_synced {
            true => Part::to(Synced(file), made.is_buffered),
            false => Part::to(file, made.is_buffered),
        });
        opened.map_err(|error| error.at_part(path))
    }

    fn to(out: impl Write + Send + 'static, is_buffered: bool) -> Result<Part, Error> {
        let shared = Arc::new(Shared {
            lines: Mutex::new(Lines {
                out: Some(Box::new(out)),
                fault: String::new(),
                waiting: Vec::new(),
                is_idle: false,
                is_closed: false,
            }),
            changed: Condvar::new(),
        });
        let mut part = Part {
            shared: shared.clone(),
            writer: None,
        };
        if is_buffered {
            let named = thread::Builder::new().name("failreg-part".into());
            let writer = named.spawn(move || shared.write_in_time());
            let none = |error: io::Error| Error::new(ErrorKind::NoThread, error.to_string());
            part.writer = Some(writer.map_err(none)?);
        }
        Ok(part)
    }

    /// Returns whether lines may wait.
    pub fn is_buffered(&self) -> bool {
        self.writer.is_some()
    }

    /// Writes a line, with its newline, after those that wait; or adds it to them, if it may wait
    /// and there is memory for it.
    pub fn put(&self, line: &[u8], may_wait: bool) -> Result<(), Error> {
        let mut lines = self.shared.lock();
        let may_wait = may_wait && self.is_buffered() && lines.waiting.len() < MOST_WAITING;
        if may_wait && extend(&mut lines.waiting, line).is_ok() {
            if lines.is_idle {
                lines.is_idle = false;
                self.shared.changed.notify_one();
            }
            // After a failed write nothing is written, and this line's error says so.
            return lines.check().map_err(Error::not_recorded);
        }
        lines.write(line).map_err(Error::not_recorded)
    }

    /// Writes the lines that wait. `check` returns the error if that fails.
    pub fn flush(&self) {
        _ = self.shared.lock().write(b"");
    }

    /// Returns the error of the first write that failed.
    pub fn check(&self) -> Result<(), Error> {
        self.shared.lock().check().map_err(|why| {
            let fault = format!("an earlier call could not be recorded ({why})");
            Error::new(ErrorKind::RecordingFailed, fault)
        })
    }
}

impl Drop for Part {
    fn drop(&mut self) {
        self.flush();
        self.shared.lock().is_closed = true;
        self.shared.changed.notify_one();
        if let Some(writer) = self.writer.take() {
            // Then nobody has the file open, and its lock is gone.
            drop(writer.join());
        }
    }
}

impl Shared {
    fn lock(&self) -> MutexGuard<'_, Lines> {
        self.lines.lock().unwrap_or_else(|poisoned| {
            // After a panic of the writer nobody knows how much it wrote.
            let mut lines = poisoned.into_inner();
            lines.out = None;
            lines
        })
    }

    // Writes lines that waited long enough, until the journal is closed.
    fn write_in_time(&self) {
        let mut lines = self.lock();
        while !lines.is_closed {
            lines.is_idle = lines.waiting.is_empty();
            if lines.is_idle {
                let waited = self
                    .changed
                    .wait_while(lines, |l| l.is_idle && !l.is_closed);
                lines = waited.unwrap_or_else(|poisoned| poisoned.into_inner());
            } else {
                let waited = (self.changed)
                    .wait_timeout_while(lines, LONGEST_WAIT, |lines| !lines.is_closed);
                lines = waited.unwrap_or_else(|poisoned| poisoned.into_inner()).0;
                _ = lines.write(b"");
            }
        }
    }
}

impl Lines {
    fn check(&self) -> Result<(), &str> {
        self.out.is_some().then_some(()).ok_or(&self.fault)
    }

    // Writes the waiting lines and this line, in one write if it is short, and closes the file if
    // that fails.
    fn write(&mut self, line: &[u8]) -> Result<(), &str> {
        let Some(mut out) = self.out.take() else {
            return Err(&self.fault);
        };
        let is_short = line.len() <= MOST_WAITING && !self.waiting.is_empty();
        let written = match is_short && extend(&mut self.waiting, line).is_ok() {
            true => write_pieces(&mut out, [&self.waiting, b""]),
            false => write_pieces(&mut out, [&self.waiting, line]),
        };
        self.waiting.clear();
        match written {
            Ok(()) => self.out = Some(out),
            Err(error) => self.fault = error.to_string(),
        }
        self.check()
    }
}

// Writes the pieces that aren't empty, and flushes them.
fn write_pieces(out: &mut impl Write, pieces: [&[u8]; 2]) -> io::Result<()> {
    let mut pieces = pieces
        .into_iter()
        .filter(|piece| !piece.is_empty())
        .peekable();
    if pieces.peek().is_none() {
        return Ok(());
    }
    pieces.try_for_each(|piece| out.write_all(piece))?;
    out.flush()
}

fn bad(fault: String) -> Error {
    Error::new(ErrorKind::BadPart, fault)
}

fn unread(error: io::Error) -> Error {
    bad(format!("cannot read ({error})"))
}

// Returns the locked file, positioned for the next line, after the node replayed it.
fn open(path: &Path, made: &Builder, node: &mut Node) -> Result<File, Error> {
    let file = locked(path)?;
    let head = node.part_head(&made.run)? + "\n";
    let whole = resume(&file, &head, node)?;
    let ready = match whole {
        0 => begin(&file, path, &head, made.is_synced),
        // The result of a call with an incomplete line was never visible.
        whole => file.set_len(whole),
    };
    let unready = |error: io::Error| {
        let fault = format!("the journal could not be started ({error})");
        Error::new(ErrorKind::RecordingFailed, fault)
    };
    ready.map(|()| file).map_err(unready)
}

fn locked(path: &Path) -> Result<File, Error> {
    let mut options = OpenOptions::new();
    let opened = options.read(true).append(true).create(true).open(path);
    let file = opened.map_err(|error| bad(format!("cannot open ({error})")))?;
    if !file.metadata().map_err(unread)?.is_file() {
        return Err(bad("not a regular file".into()));
    }
    for _ in 0..TRIES {
        match file.try_lock() {
            Ok(()) => return Ok(file),
            Err(TryLockError::WouldBlock) => thread::sleep(REST),
            Err(TryLockError::Error(error)) => {
                return Err(bad(format!("cannot lock ({error})")));
            }
        }
    }
    let fault = "already open in this process or another";
    Err(Error::new(ErrorKind::PartInUse, fault))
}

fn begin(mut file: &File, path: &Path, head: &str, is_synced: bool) -> io::Result<()> {
    file.set_len(0)?;
    file.write_all(head.as_bytes())?;
    if is_synced {
        file.sync_all()?;
        // Its directory entry as well.
        let folder = path.canonicalize()?;
        File::open(folder.parent().unwrap_or(&folder))?.sync_all()?;
    }
    Ok(())
}

// Replays the calls of a journal. Returns the number of bytes of its whole lines, 0 if it has none.
// It stores no line.
fn resume(file: &File, head: &str, node: &mut Node) -> Result<u64, Error> {
    let mut reader = BufReader::with_capacity(CHUNK, file);
    let mut line = Vec::new();
    read_line(&mut reader, head.len(), &mut line)?;
    if line.len() < head.len() && head.as_bytes().starts_with(&line) {
        return Ok(0);
    }
    if line != head.as_bytes() {
        if !line.ends_with(b"\n") {
            read_line(&mut reader, MOST_OF_HEAD, &mut line)?;
        }
        return Err(bad(differences(&String::from_utf8_lossy(&line), head)));
    }
    let mut whole = head.len() as u64;
    for number in 2_u64.. {
        line.clear();
        read_line(&mut reader, MOST_OF_LINE, &mut line)?;
        match line.strip_suffix(b"\n") {
            Some(call) => node.repeat(call).map_err(|error| in_line(number, error))?,
            None if line.len() < MOST_OF_LINE => break,
            None => {
                return Err(bad(format!(
                    "line {number} is longer than a line of a call"
                )));
            }
        }
        whole += line.len() as u64;
        if number.is_multiple_of(u64::from(MOST_KEPT)) {
            node.forget();
        }
    }
    Ok(whole)
}

// Reads up to the end of a line, at most this many bytes.
fn read_line(reader: &mut impl BufRead, most: usize, line: &mut Vec<u8>) -> Result<(), Error> {
    let read = reader.take(most as u64).read_until(b'\n', line);
    read.map(drop).map_err(unread)
}

fn in_line(number: u64, error: Error) -> Error {
    match error.kind() {
        ErrorKind::BadPart => bad(format!("line {number}: {}", error.fault())),
        _ => error,
    }
}

// Returns how another first line differs from the node's own.
fn differences(met: &str, head: &str) -> String {
    let (met, own) = (members(met), members(head));
    if !met.contains(&("failreg", "\"part\"")) {
        return "not a node's journal".into();
    }
    let other = own.iter().filter_map(|(name, own)| {
        let met = met
            .iter()
            .find(|it| it.0 == *name)
            .map_or("nothing", |it| it.1);
        (met != *own).then(|| format!("{name} is {met} there and {own} here"))
    });
    let told: Vec<String> = other.collect();
    match told.is_empty() {
        true => "its first line has another form".into(),
        false => format!("not this node's: {}", told.join(", ")),
    }
}

// Returns the members of a first line, with their values. No text has an unescaped quote.
fn members(head: &str) -> Vec<(&str, &str)> {
    let inner = head
        .trim_end()
        .trim_start_matches("{\"")
        .trim_end_matches('}');
    let members = inner.split(",\"");
    members.filter_map(|it| it.split_once("\":")).collect()
}

#[cfg(test)]
mod tests {
    use super::*;
    use std::time::Instant;

    /// Accepts this many bytes, one piece at a time, and then fails.
    #[derive(Clone)]
    struct Narrow {
        room: usize,
        taken: Arc<Mutex<Vec<String>>>,
    }

    impl Narrow {
        fn new(room: usize) -> Narrow {
            let taken = Arc::default();
            Narrow { room, taken }
        }

        fn pieces(&self) -> Vec<String> {
            self.taken.lock().unwrap().clone()
        }
    }

    impl Write for Narrow {
        fn write(&mut self, bytes: &[u8]) -> io::Result<usize> {
            let length = bytes.len().min(self.room);
            if length == 0 {
                return Err(io::Error::from(io::ErrorKind::StorageFull));
            }
            self.room -= length;
            let piece = String::from_utf8(bytes[..length].to_vec()).unwrap();
            self.taken.lock().unwrap().push(piece);
            Ok(length)
        }

        fn flush(&mut self) -> io::Result<()> {
            Ok(())
        }
    }

    #[test]
    fn a_line_that_cannot_be_written_is_told() {
        for (room, is_buffered) in (0..24).flat_map(|room| [(room, false), (room, true)]) {
            let out = Narrow::new(room);
            let part = Part::to(out.clone(), is_buffered).unwrap();
            let told: Vec<_> = (0..4).map(|_| part.put(b"12345\n", false)).collect();
            let kept = told.iter().take_while(|told| told.is_ok()).count();
            assert_eq!(kept, room / 6, "{room} bytes");
            let kinds = told[kept..]
                .iter()
                .map(|it| it.as_ref().unwrap_err().kind());
            assert!(kinds.eq(vec![ErrorKind::NotRecorded; 4 - kept]));
            let after = part.check().unwrap_err();
            assert_eq!(after.kind(), ErrorKind::RecordingFailed);
            assert!(after.fault().contains("no storage space"), "{after}");
            assert_eq!(out.pieces().concat(), "12345\n".repeat(4)[..room]);
        }
    }

    #[test]
    fn lines_share_a_write() {
        let out = Narrow::new(usize::MAX);
        let part = Part::to(out.clone(), true).unwrap();
        part.put(b"a\n", true).unwrap();
        part.put(b"b\n", true).unwrap();
        assert!(out.pieces().is_empty());
        part.put(b"c\n", false).unwrap();
        assert_eq!(out.pieces(), ["a\nb\nc\n"]);
        part.put(b"d\n", true).unwrap();
        part.flush();
        part.flush();
        assert_eq!(out.pieces(), ["a\nb\nc\n", "d\n"]);
        part.put(b"e\n", true).unwrap();
        drop(part);
        assert_eq!(out.pieces()[2..], ["e\n"]);
    }

    #[test]
    fn a_line_waits_for_a_while_alone() {
        let out = Narrow::new(usize::MAX);
        let part = Part::to(out.clone(), true).unwrap();
        for times in 1..4 {
            let begun = Instant::now();
            part.put(b"a\n", true).unwrap();
            while out.pieces().len() < times {
                assert!(begun.elapsed() < Duration::from_secs(10));
                thread::sleep(Duration::from_millis(1));
            }
            assert!(begun.elapsed() >= LONGEST_WAIT);
        }
        // As many as there is room for.
        let line = "a".repeat(MOST_WAITING / 4 - 1) + "\n";
        (0..4).for_each(|_| part.put(line.as_bytes(), true).unwrap());
        part.put(b"b\n", true).unwrap();
        assert!(out.pieces().last().unwrap().ends_with("\nb\n"));
    }

    #[test]
    fn what_waited_and_is_lost_is_told() {
        let part = Part::to(Narrow::new(0), true).unwrap();
        part.put(b"a\n", true).unwrap();
        part.flush();
        let kinds = [
            part.put(b"b\n", true),
            part.put(b"c\n", false),
            part.check(),
        ];
        let kinds = kinds.map(|it| it.unwrap_err().kind());
        let not = ErrorKind::NotRecorded;
        assert_eq!(kinds, [not, not, ErrorKind::RecordingFailed]);
    }

    #[test]
    fn a_writer_that_panics_has_failed() {
        struct Panics;
        impl Write for Panics {
            fn write(&mut self, _: &[u8]) -> io::Result<usize> {
                panic!("the writer")
            }

            fn flush(&mut self) -> io::Result<()> {
                Ok(())
            }
        }
        let part = Arc::new(Part::to(Panics, false).unwrap());
        let other = part.clone();
        assert!(
            thread::spawn(move || other.put(b"a\n", false))
                .join()
                .is_err()
        );
        let after = part.check().unwrap_err();
        assert_eq!(after.kind(), ErrorKind::RecordingFailed);
    }

    const HEAD: &str = "{\"cap\":9,\"failreg\":\"part\",\"node\":1,\"nodes\":3,\
        \"run\":\"a,\\\"b}\",\"version\":1}\n";

    #[test]
    fn another_first_line_is_told_apart() {
        let told = |from: &str, to: &str| differences(&HEAD.replace(from, to), HEAD);
        let rows = [
            ("\"node\":1", "\"node\":2", "node is 2 there and 1 here"),
            ("\"nodes\":3", "\"nodes\":4", "nodes is 4 there and 3 here"),
            ("\"cap\":9,", "", "cap is nothing there and 9 here"),
            ("b}", "c", "run is \"a,\\\"c\" there and \"a,\\\"b}\" here"),
            ("n\":1}", "n\":2}", "version is 2 there and 1 here"),
        ];
        for (from, to, wanted) in rows {
            assert_eq!(told(from, to), format!("not this node's: {wanted}"));
        }
        let wanted = "not this node's: node is 0 there and 1 here, nodes is 1 there and 3 here";
        assert_eq!(
            told("\"node\":1,\"nodes\":3", "\"node\":0,\"nodes\":1"),
            wanted
        );
        assert_eq!(
            told("}\n", " }\n"),
            "not this node's: version is 1  there and 1 here"
        );
        assert_eq!(
            told("{", "[{"),
            "not this node's: cap is nothing there and 9 here"
        );
        for other in [
            "",
            "\n",
            "{}",
            "{\"failreg\":\"drill\",\"version\":1}\n",
            "\0\0",
        ] {
            assert_eq!(differences(other, HEAD), "not a node's journal");
        }
        assert_eq!(
            differences(HEAD.trim_end(), HEAD),
            "its first line has another form"
        );
    }
}
