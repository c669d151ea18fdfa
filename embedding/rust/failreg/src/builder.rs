//! Options of a registry.

use crate::error::{Error, ErrorKind};
use crate::recorder::Recorder;
use crate::registry::Registry;
use crate::serving::{Served, listen, serve_at};
use std::fmt;
use std::io;
use std::net::ToSocketAddrs;
use std::path::{Path, PathBuf};
use std::sync::Arc;

/// What to do when an evaluation by `eval` or `fail_point!` is rejected: each time, but only once
/// if the call limit is reached or a call can't be recorded. The point does nothing then.
#[derive(Clone, Default)]
#[non_exhaustive]
pub enum OnRefusal {
    /// Print a line on standard error.
    #[default]
    Print,
    /// Nothing.
    Ignore,
    /// Panic, in the thread that evaluates.
    Panic,
    /// Call this function, in the thread that evaluates.
    Call(Arc<dyn Fn(&Error) + Send + Sync>),
}

impl OnRefusal {
    /// Calls this closure.
    pub fn call(told: impl Fn(&Error) + Send + Sync + 'static) -> OnRefusal {
        OnRefusal::Call(Arc::new(told))
    }

    pub(crate) fn meet(&self, error: &Error) {
        let rest = match error.kind() {
            ErrorKind::CapReached | ErrorKind::NotRecorded | ErrorKind::RecordingFailed => {
                "; its failpoints do nothing from now on"
            }
            _ => "",
        };
        match self {
            OnRefusal::Print => eprintln!("failreg: an evaluation was rejected: {error}{rest}"),
            OnRefusal::Ignore => {}
            OnRefusal::Panic => panic!("failreg: an evaluation was rejected: {error}{rest}"),
            OnRefusal::Call(told) => told(error),
        }
    }
}

impl fmt::Debug for OnRefusal {
    fn fmt(&self, f: &mut fmt::Formatter<'_>) -> fmt::Result {
        f.write_str(match self {
            OnRefusal::Print => "Print",
            OnRefusal::Ignore => "Ignore",
            OnRefusal::Panic => "Panic",
            OnRefusal::Call(_) => "Call",
        })
    }
}

/// What to do when a message shows that other nodes know more about this node than it knows itself:
/// it restarted without its journal, or a second process runs under its number.
#[derive(Clone, Default)]
#[non_exhaustive]
pub enum OnForgotten {
    /// Print one line on standard error; the node's points do nothing from then on, so that no
    /// right is used twice.
    #[default]
    Stop,
    /// Reject such messages, and keep the points working.
    Ignore,
    /// Call this function each time, in the thread that delivers the message; the points keep
    /// working.
    Call(Arc<dyn Fn(&Error) + Send + Sync>),
}

impl OnForgotten {
    /// Calls this closure.
    pub fn call(told: impl Fn(&Error) + Send + Sync + 'static) -> OnForgotten {
        OnForgotten::Call(Arc::new(told))
    }
}

impl fmt::Debug for OnForgotten {
    fn fmt(&self, f: &mut fmt::Formatter<'_>) -> fmt::Result {
        f.write_str(match self {
            OnForgotten::Stop => "Stop",
            OnForgotten::Ignore => "Ignore",
            OnForgotten::Call(_) => "Call",
        })
    }
}

/// Where accepted calls are recorded: `true` stores a receipt of each in memory, and a path names
/// the node's journal ([`Builder::recording`]).
#[derive(Clone, Debug)]
pub struct Recording(pub(crate) How);

#[derive(Clone, Debug)]
pub(crate) enum How {
    /// Nowhere.
    Off,
    /// Receipts in memory.
    Kept,
    /// In a recorder's file.
    To(Recorder),
    /// In the node's journal, from which it resumes.
    Part(PathBuf),
}

impl From<bool> for Recording {
    fn from(is_recording: bool) -> Recording {
        Recording(if is_recording { How::Kept } else { How::Off })
    }
}

macro_rules! from_paths {
    ($($path:ty),+) => {$(
        impl From<$path> for Recording {
            fn from(path: $path) -> Recording {
                Recording(How::Part(path.into()))
            }
        }
    )+};
}

from_paths!(&str, &Path, &PathBuf, String, PathBuf);

/// Options of a [`Registry`], from [`Registry::builder`].
#[derive(Clone, Debug)]
#[must_use = "a builder makes nothing before `build`"]
pub struct Builder {
    pub(crate) number: u8,
    pub(crate) nodes: u8,
    pub(crate) cap: u64,
    pub(crate) seed: Option<[u8; 32]>,
    pub(crate) recording: Recording,
    pub(crate) run: String,
    pub(crate) is_synced: bool,
    pub(crate) is_buffered: bool,
    pub(crate) on_refusal: OnRefusal,
    pub(crate) on_forgotten: OnForgotten,
    pub(crate) key_file: Option<PathBuf>,
    pub(crate) hears_first: bool,
}

impl Default for Builder {
    fn default() -> Builder {
        Builder {
            number: 0,
            nodes: 1,
            cap: Builder::MOST_CALLS,
            seed: None,
            recording: false.into(),
            run: String::new(),
            is_synced: false,
            is_buffered: false,
            on_refusal: OnRefusal::default(),
            on_forgotten: OnForgotten::default(),
            key_file: None,
            hears_first: false,
        }
    }
}

impl Builder {
    /// Sets the node's number in its cluster, from 0 [default: 0]. No other node has this number,
    /// and none had it before, not even in an earlier run of the program, unless the node resumes
    /// from its journal.
    pub fn node(self, number: u8) -> Builder {
        Builder { number, ..self }
    }

    /// Sets the number of nodes of the cluster, 1 to 32 [default: 1].
    pub fn nodes(self, nodes: u8) -> Builder {
        Builder { nodes, ..self }
    }

    /// The largest call limit: 2^56 - 1. At a million calls a second a node reaches it after 2,283
    /// years.
    pub const MOST_CALLS: u64 = (1 << 56) - 1;

    /// Sets how many calls the node accepts in its life [default:
    /// [`MOST_CALLS`](Builder::MOST_CALLS)].
    pub fn cap(self, cap: u64) -> Builder {
        Builder { cap, ..self }
    }

    /// Sets the seed of the random draws, so that they are the same in every run [default: a new
    /// seed in each run].
    pub fn seed(self, seed: [u8; 32]) -> Builder {
        Builder {
            seed: Some(seed),
            ..self
        }
    }

    /// Records accepted calls [default: not at all].
    ///
    /// `true` stores a receipt of each call in memory, for [`write_drill`](crate::write_drill). For
    /// a long run use [`recording_to`](Builder::recording_to), which stores none.
    ///
    /// A path names **the node's journal**: a file with a line for each call, from which the node
    /// resumes when its process starts again, however it ended. `build` replays the calls of an
    /// existing journal: the node has its points, rights and totals again, and the calls count
    /// against its call limit; with the same [`seed`](Builder::seed) its random draws continue,
    /// too. (A callback belongs to its process and is lost: the point is set to `off`.) Each
    /// further call is written to the file, in one write, before its result is visible or its
    /// action is carried out. If the file is missing or empty, the journal starts. The file is
    /// locked as long as the registry is open.
    ///
    /// ```
    /// use failreg::Registry;
    ///
    /// # if !failreg::has_failpoints() { return Ok(()); }
    /// # let path = std::env::temp_dir().join(format!("a_part_of_{}", std::process::id()));
    /// let open = || Registry::builder().recording(&path).build();
    /// let node = open()?;
    /// if node.calls()? == 0 {
    ///     node.set("save", "2*off")?;
    /// }
    /// node.pass("save")?;
    /// // However this ends, the next one has one of the two left.
    /// drop(node);
    /// assert_eq!(open()?.spent("save", 0)?, 1);
    /// # std::fs::remove_file(&path)?;
    /// # Ok::<(), Box<dyn std::error::Error>>(())
    /// ```
    ///
    /// If a call can't be written, it returns [`NotRecorded`](ErrorKind::NotRecorded), its action
    /// isn't carried out, and the node accepts no further call
    /// ([`RecordingFailed`](ErrorKind::RecordingFailed)). If the file isn't this node's journal
    /// ([`BadPart`](ErrorKind::BadPart)) or is open already ([`PartInUse`](ErrorKind::PartInUse)),
    /// `build` fails and doesn't change it.
    pub fn recording(self, recording: impl Into<Recording>) -> Builder {
        let recording = recording.into();
        Builder { recording, ..self }
    }

    /// Writes each accepted call to a recorder's file at once, and stores none; replaces
    /// [`recording`](Builder::recording). All nodes of the cluster use the same recorder.
    pub fn recording_to(self, recorder: &Recorder) -> Builder {
        let recording = Recording(How::To(recorder.clone()));
        Builder { recording, ..self }
    }

    /// Sets the run ID, a text that the journals of one run share [default: empty]. A journal of
    /// another run is rejected.
    pub fn run(self, run: impl Into<String>) -> Builder {
        let run = run.into();
        Builder { run, ..self }
    }

    /// Sets whether each line of the journal is on the disk before its result is visible, for
    /// machines that lose power [default: false: the system has it, whatever happens to the
    /// process].
    pub fn synced(self, is_synced: bool) -> Builder {
        Builder { is_synced, ..self }
    }

    /// Sets whether journal lines may share a write if their evaluations took no right: the point
    /// wasn't set, no term fired, or the term has no count [default: false: each line is written at
    /// once]. They are written before any other line, before a message or an HTTP response leaves,
    /// and every 50 ms. If the process dies before that, no other node and no client has seen them:
    /// the resumed node has fewer hits, and repeats their draws.
    pub fn buffered(self, is_buffered: bool) -> Builder {
        Builder {
            is_buffered,
            ..self
        }
    }

    /// Sets what to do when an evaluation is rejected [default: [`OnRefusal::Print`]].
    pub fn on_refusal(self, on_refusal: OnRefusal) -> Builder {
        Builder { on_refusal, ..self }
    }

    /// Sets what to do when other nodes know more about this node than it knows itself [default:
    /// [`OnForgotten::Stop`]].
    pub fn on_forgotten(self, on_forgotten: OnForgotten) -> Builder {
        Builder {
            on_forgotten,
            ..self
        }
    }

    /// Sets whether the node waits for one message from each other node before it accepts calls
    /// [default: false]. Until then its points do nothing, as if none were set, and calls that
    /// would change it return [`NotHeard`](ErrorKind::NotHeard), except
    /// [`deliver`](Registry::deliver) and [`emit`](Registry::emit); reads work. This keeps a node
    /// that restarted without its journal from repeating what it did: if a message shows that
    /// others know more about it, [`on_forgotten`](Builder::on_forgotten) applies, and the node
    /// still waits for that sender. A node with a journal doesn't need this option, but waits as
    /// well.
    ///
    /// Nodes send only what has changed, and may assume that this node has everything. So
    /// [`gossip`](crate::gossip) of a waiting node requests a message from each peer (`POST
    /// /hello`). If no process runs under one of the cluster's numbers, the node waits forever.
    /// FAILPOINTS is rejected like any call.
    ///
    /// ```
    /// # if !failreg::has_failpoints() { return Ok(()); }
    /// use failreg::{ErrorKind, Registry};
    ///
    /// let other = Registry::open(0, 2, 1000)?;
    /// other.set("save", "return(full)")?;
    /// let node = Registry::builder().node(1).nodes(2).hear_first(true).build()?;
    /// assert_eq!(node.set("save", "off").unwrap_err().kind(), ErrorKind::NotHeard);
    /// assert_eq!(node.eval("save"), None);
    /// node.deliver(&other.emit(1)?)?;
    /// assert_eq!(node.eval("save"), Some(Some("full".into())));
    /// # Ok::<(), failreg::Error>(())
    /// ```
    pub fn hear_first(self, hears_first: bool) -> Builder {
        Builder {
            hears_first,
            ..self
        }
    }

    /// Sets the file of the key that the nodes of the cluster and their clients share: 32 to 1,024
    /// bytes, which only its owner may read [default: no key]. A served registry returns status 401
    /// to a request without the key, before it reads the body, and sends the key to its peers. With
    /// a key they may be on other machines; without one all are on this machine.
    ///
    /// A request presents the key as `Authorization: Bearer` and its bytes in lowercase hex. The
    /// key encrypts nothing: between machines that others can listen on, use a tunnel.
    pub fn key_file(self, path: impl Into<PathBuf>) -> Builder {
        Builder {
            key_file: Some(path.into()),
            ..self
        }
    }

    /// Opens the registry.
    ///
    /// # Errors
    /// [`BadConfig`](ErrorKind::BadConfig), [`OutOfMemory`](ErrorKind::OutOfMemory),
    /// [`BadKey`](ErrorKind::BadKey); with a path [`BadPart`](ErrorKind::BadPart) and
    /// [`PartInUse`](ErrorKind::PartInUse); with a recorder
    /// [`BadRecorder`](ErrorKind::BadRecorder); or [`Disabled`](ErrorKind::Disabled).
    pub fn build(self) -> Result<Registry, Error> {
        Registry::built(self)
    }

    /// Opens the registry and serves it at this address, as [`serve`](crate::serve) does. If it
    /// can't be served there, none is opened.
    ///
    /// # Errors
    /// Those of [`build`](Builder::build) and of [`serve`](crate::serve).
    pub fn listen(self, addr: impl ToSocketAddrs + fmt::Debug) -> Result<Served, Error> {
        let listener = listen(addr, self.key_file.is_some())?;
        let registry = Arc::new(self.build()?);
        let serving = serve_at(registry.clone(), listener)?;
        Ok(Served { registry, serving })
    }

    /// Opens the registry and makes it the program's, which `fail_point!` uses if it names none.
    ///
    /// # Errors
    /// Those of [`build`](Builder::build), and [`AlreadyOpen`](ErrorKind::AlreadyOpen) if the
    /// program has one.
    pub fn install(self) -> Result<&'static Registry, Error> {
        crate::program::first(|| self.build())
    }

    /// Judges nodes of which a recording is to be made: all of one cluster, in the order of their
    /// numbers, each storing receipts.
    pub(crate) fn judge_cluster<'a>(
        nodes: impl ExactSizeIterator<Item = &'a Builder>,
    ) -> io::Result<()> {
        let not = |text: &str| Err(io::Error::new(io::ErrorKind::InvalidInput, text));
        let (count, mut has_receipts) = (nodes.len(), true);
        for (number, made) in nodes.enumerate() {
            if (number, count) != (made.number.into(), made.nodes.into()) {
                return not(
                    "a recording takes all nodes of one cluster, in the order of their numbers",
                );
            }
            has_receipts &= matches!(made.recording.0, How::Kept);
        }
        match has_receipts {
            true => Ok(()),
            false => not("a recording takes nodes that record"),
        }
    }
}
