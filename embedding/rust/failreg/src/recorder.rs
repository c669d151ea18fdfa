//! Recordings that are written call by call.

use crate::error::{Error, ErrorKind};
#[cfg(feature = "failpoints")]
use crate::receipts::write_receipt;
#[cfg(feature = "failpoints")]
use std::collections::TryReserveError;
use std::fmt;
use std::fs::File;
use std::io::{self, Write};
use std::path::Path;
use std::sync::{Arc, Mutex, MutexGuard};

/// Writes the recording of a cluster while its registries are called, in a form that `failreg
/// audit` reads. It stores no call in memory, so registries can record until the disk is full.
///
/// ```
/// use failreg::{Recorder, Registry};
///
/// # if !failreg::has_failpoints() { return Ok(()); }
/// # let path = std::env::temp_dir().join(format!("a_drill_of_{}", std::process::id()));
/// let recorder = Recorder::create(&path)?;
/// let node = Registry::builder().recording_to(&recorder).build()?;
/// node.set("save", "2*off")?;
/// node.pass("save")?;
/// assert!(std::fs::read_to_string(&path)?.contains(r#"["pass","save"]"#));
/// # std::fs::remove_file(&path)?;
/// # Ok::<(), Box<dyn std::error::Error>>(())
/// ```
///
/// **A call whose lines can't be written fails** with [`NotRecorded`](ErrorKind::NotRecorded), and
/// from then on no registry of the recorder accepts a call
/// ([`RecordingFailed`](ErrorKind::RecordingFailed)): the recording lacks only that one call. The
/// lines of a call are written in one piece, and flushed, before the call returns. So the file is a
/// complete recording even if the program is killed, except that an incomplete last line may
/// follow, which an audit rejects with its line number.
///
/// A recording needs all nodes of its cluster, all in one program, each recording since it was
/// opened: build each with a clone of the recorder. It has one list of receipts for each node, in
/// the order in which the node accepted the calls.
#[derive(Clone)]
pub struct Recorder {
    /// Guards the recording and its writer, so that the lines of a call stay together. It is taken
    /// after the lock of a registry, never before.
    shared: Arc<Mutex<Drill>>,
}

/// More bytes than the lines of a call have beside twice its entry.
#[cfg(feature = "failpoints")]
const MOST_BESIDE: usize = 256;

/// How much room for lines stays.
const MOST_ROOM: usize = 131_072;

/// A recording in progress.
struct Drill {
    /// `None` after a failed write.
    out: Option<Box<dyn Write + Send>>,
    /// For each node of the cluster that was opened, how many of its calls are written; empty
    /// before the first was opened.
    nodes: Vec<Option<u64>>,
    /// The lines of a call, before they are written.
    lines: Vec<u8>,
}

impl Recorder {
    /// Creates a recorder that writes to a new file. Fails if the file exists.
    pub fn create(path: impl AsRef<Path>) -> io::Result<Recorder> {
        Ok(Recorder::new(File::create_new(path)?))
    }

    /// Creates a recorder that writes to `out`, once per call: a buffer would only be flushed each
    /// time. The writer is called while the registry is locked, so it must not call a registry.
    pub fn new(out: impl Write + Send + 'static) -> Recorder {
        Recorder {
            shared: Arc::new(Mutex::new(Drill {
                out: Some(Box::new(out)),
                nodes: Vec::new(),
                lines: Vec::new(),
            })),
        }
    }

    fn lock(&self) -> MutexGuard<'_, Drill> {
        self.shared.lock().unwrap_or_else(|poisoned| {
            // After a panic of the writer nobody knows how much it wrote.
            let mut drill = poisoned.into_inner();
            drill.out = None;
            drill
        })
    }

    /// Adds a node that was opened. The recording starts with the first one.
    pub(crate) fn open(&self, node: u8, nodes: u8) -> Result<(), Error> {
        let mut drill = self.lock();
        if drill.nodes.is_empty() {
            drill.begin(nodes).map_err(not_begun)?;
        }
        if drill.nodes.len() != usize::from(nodes) {
            return Err(bad_recorder("the recorder belongs to another cluster"));
        }
        let written = &mut drill.nodes[usize::from(node)];
        if written.is_some() {
            return Err(bad_recorder("the recorder has the node already"));
        }
        *written = Some(0);
        Ok(())
    }
}

impl Drill {
    // Writes the first line, and a call history and a list of receipts for each node, which
    // continue in pieces.
    fn begin(&mut self, nodes: u8) -> io::Result<()> {
        self.nodes = vec![None; usize::from(nodes)];
        writeln!(self.lines, "{{\"failreg\":\"drill\",\"version\":2}}")?;
        for part in ["trace", "list"] {
            for number in 0..nodes {
                writeln!(self.lines, "{{\"{part}\":{number}}}")?;
            }
        }
        self.hand_out()
    }

    // Passes the lines to the writer, and drops it if it fails.
    fn hand_out(&mut self) -> io::Result<()> {
        let Some(mut out) = self.out.take() else {
            return Err(io::Error::other("an earlier write failed"));
        };
        out.write_all(&self.lines)?;
        out.flush()?;
        self.lines.clear();
        if self.lines.capacity() > MOST_ROOM {
            self.lines = Vec::new();
        }
        self.out = Some(out);
        Ok(())
    }
}

// Without failpoints no node accepts a call.
#[cfg(feature = "failpoints")]
impl Recorder {
    /// Returns the error if a call couldn't be written.
    pub(crate) fn check(&self) -> Result<(), Error> {
        match self.lock().out {
            Some(_) => Ok(()),
            None => Err(failed("an earlier call could not be recorded")),
        }
    }

    /// Makes room for the lines of a call whose entry has a line of this length.
    pub(crate) fn make_room(&self, length: usize) -> Result<(), TryReserveError> {
        self.lock().lines.try_reserve(2 * length + MOST_BESIDE)
    }

    /// Writes a call that a node accepted, whose entry has this line.
    pub(crate) fn write(&self, node: u8, entry: &[u8]) -> Result<(), Error> {
        let mut drill = self.lock();
        // Here and not below: a call without memory for its lines isn't one that couldn't be written.
        drill.lines.try_reserve(2 * entry.len() + MOST_BESIDE)?;
        drill.write_call(node, entry).map_err(Error::not_recorded)
    }
}

#[cfg(feature = "failpoints")]
impl Drill {
    // Writes a piece of the node's call history and one of its list, each with the next line.
    fn write_call(&mut self, node: u8, entry: &[u8]) -> io::Result<()> {
        let written = &mut self.nodes[usize::from(node)];
        let index = written.unwrap_or(0);
        *written = Some(index + 1);
        let lines = &mut self.lines;
        writeln!(lines, "{{\"trace\":{node},\"from\":{index}}}")?;
        lines.extend_from_slice(entry);
        writeln!(lines, "\n{{\"list\":{node},\"from\":{index}}}")?;
        write_receipt(lines, entry, node, index)?;
        self.hand_out()
    }
}

#[cfg(feature = "failpoints")]
fn failed(fault: &'static str) -> Error {
    Error::new(ErrorKind::RecordingFailed, fault)
}

fn not_begun(error: io::Error) -> Error {
    let fault = format!("the recording could not be started ({error})");
    Error::new(ErrorKind::RecordingFailed, fault)
}

fn bad_recorder(fault: &'static str) -> Error {
    Error::new(ErrorKind::BadRecorder, fault)
}

impl fmt::Debug for Recorder {
    fn fmt(&self, f: &mut fmt::Formatter<'_>) -> fmt::Result {
        f.debug_struct("Recorder").finish_non_exhaustive()
    }
}

#[cfg(all(test, feature = "failpoints"))]
mod tests {
    use super::*;

    /// Accepts this many bytes, and then fails.
    struct Narrow {
        room: usize,
        taken: Arc<Mutex<Vec<u8>>>,
    }

    impl Write for Narrow {
        fn write(&mut self, bytes: &[u8]) -> io::Result<usize> {
            let length = bytes.len().min(self.room);
            if length == 0 {
                return Err(io::Error::from(io::ErrorKind::StorageFull));
            }
            self.room -= length;
            self.taken
                .lock()
                .unwrap()
                .extend_from_slice(&bytes[..length]);
            Ok(length)
        }

        fn flush(&mut self) -> io::Result<()> {
            Ok(())
        }
    }

    fn recorder(room: usize) -> (Recorder, impl Fn() -> String) {
        let taken = Arc::new(Mutex::new(Vec::new()));
        let out = Narrow {
            room,
            taken: taken.clone(),
        };
        let text = move || String::from_utf8(taken.lock().unwrap().clone()).unwrap();
        (Recorder::new(out), text)
    }

    const PASS: &[u8] = br#"{"ask":["pass","p"],"reply":["unset"],"words":[7]}"#;

    const BEGUN: &str = r#"{"failreg":"drill","version":2}
{"trace":0}
{"trace":1}
{"list":0}
{"list":1}
"#;

    const TWO_CALLS: &str = r#"{"trace":1,"from":0}
{"ask":["pass","p"],"reply":["unset"],"words":[7]}
{"list":1,"from":0}
{"ask":["pass","p"],"index":0,"node":1,"reply":["unset"],"words":[7]}
{"trace":1,"from":1}
{"ask":["pass","p"],"reply":["unset"],"words":[7]}
{"list":1,"from":1}
{"ask":["pass","p"],"index":1,"node":1,"reply":["unset"],"words":[7]}
"#;

    #[test]
    fn a_drill_is_written_in_pieces() {
        let (recorder, text) = recorder(usize::MAX);
        recorder.open(1, 2).unwrap();
        assert_eq!(text(), BEGUN);
        recorder.write(1, PASS).unwrap();
        recorder.open(0, 2).unwrap();
        recorder.write(1, PASS).unwrap();
        assert_eq!(text(), format!("{BEGUN}{TWO_CALLS}"));
    }

    #[test]
    fn a_drill_is_of_one_cluster() {
        let (recorder, text) = recorder(usize::MAX);
        recorder.open(1, 2).unwrap();
        for (node, nodes) in [(1, 2), (0, 1), (2, 3)] {
            let error = recorder.open(node, nodes).unwrap_err();
            assert_eq!(error.kind(), ErrorKind::BadRecorder, "{node} of {nodes}");
        }
        assert_eq!(text(), BEGUN);
        recorder.open(0, 2).unwrap();
    }

    #[test]
    fn a_call_that_cannot_be_written_is_told() {
        let whole = BEGUN.len() + TWO_CALLS.len();
        for room in 0..whole {
            let (recorder, text) = recorder(room);
            let first = recorder.open(1, 2).and_then(|()| recorder.write(1, PASS));
            let failed = match first {
                Ok(()) => recorder.write(1, PASS).unwrap_err().kind(),
                Err(error) => error.kind(),
            };
            let begun = room >= BEGUN.len();
            let wanted = match begun {
                true => ErrorKind::NotRecorded,
                false => ErrorKind::RecordingFailed,
            };
            assert_eq!(failed, wanted, "{room} bytes");
            let after = recorder.check().unwrap_err();
            assert_eq!(after.kind(), ErrorKind::RecordingFailed);
            assert_eq!(
                recorder.write(1, PASS).unwrap_err().kind(),
                ErrorKind::NotRecorded
            );
            // The bytes that were accepted are the start of the recording.
            assert_eq!(text(), format!("{BEGUN}{TWO_CALLS}")[..room]);
        }
        let (recorder, _) = recorder(whole);
        recorder.open(1, 2).unwrap();
        assert!((0..2).all(|_| recorder.write(1, PASS).is_ok()));
    }

    #[test]
    fn a_writer_that_panics_has_failed() {
        struct Panics;
        impl Write for Panics {
            fn write(&mut self, _: &[u8]) -> io::Result<usize> {
                panic!("the writer")
            }

            fn flush(&mut self) -> io::Result<()> {
                Ok(())
            }
        }
        let recorder = Recorder::new(Panics);
        let other = recorder.clone();
        assert!(std::thread::spawn(move || other.open(0, 1)).join().is_err());
        let after = recorder.check().unwrap_err();
        assert_eq!(after.kind(), ErrorKind::RecordingFailed);
    }
}
