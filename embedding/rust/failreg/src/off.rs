//! A program without the feature `failpoints`: no point is ever set, nothing is served or sent, and no
//! library is linked. The interface is that of the modules that are left out, with their
//! documentation.
#![allow(missing_docs)]

use crate::builder::{Builder, How};
use crate::error::{Error, ErrorKind};
use crate::peer::{Peer, PeerNews};
use crate::told::{Passed, Reply, Stamp};
use std::fmt;
use std::io::{self, Write};
use std::net::{SocketAddr, TcpListener, ToSocketAddrs};
use std::ops::Deref;
use std::panic::{RefUnwindSafe, UnwindSafe};
use std::sync::Arc;
use std::sync::atomic::{AtomicBool, Ordering};
use std::time::Duration;

const MOST_NODES: u8 = 32;

fn disabled<T>() -> Result<T, Error> {
    let fault = "the program was built without failpoints";
    Err(Error::new(ErrorKind::Disabled, fault))
}

fn disabled_at<T>(name: &str) -> Result<T, Error> {
    disabled().map_err(|error| error.at_point(name))
}

pub struct Registry {
    made: Builder,
    /// It orders no memory access.
    is_closed: AtomicBool,
}

impl Registry {
    pub fn builder() -> Builder {
        Builder::default()
    }

    pub fn open(number: u8, nodes: u8, cap: u64) -> Result<Registry, Error> {
        let builder = Registry::builder().node(number).nodes(nodes);
        builder.cap(cap).build()
    }

    pub(crate) fn built(made: Builder) -> Result<Registry, Error> {
        if made.number >= made.nodes || made.nodes > MOST_NODES {
            return Err(Error::new(ErrorKind::BadConfig, "N21 BadConfig"));
        }
        if let How::To(recorder) = &made.recording.0 {
            recorder.open(made.number, made.nodes)?;
        }
        Ok(Registry {
            made,
            is_closed: AtomicBool::new(false),
        })
    }

    pub(crate) fn is_node(&self, number: u8, nodes: u8) -> bool {
        (self.made.number, self.made.nodes) == (number, nodes)
    }

    // Returns what a node without a point says.
    fn tell<T>(&self, nothing: T) -> Result<T, Error> {
        match self.is_closed.load(Ordering::Relaxed) {
            true => Err(Error::new(ErrorKind::Closed, "the registry is closed")),
            false => Ok(nothing),
        }
    }

    pub fn set(&self, name: &str, _actions: &str) -> Result<Stamp, Error> {
        disabled_at(name)
    }

    pub fn set_callback(
        &self,
        name: &str,
        _run: impl Fn() + Send + Sync + 'static,
    ) -> Result<Stamp, Error> {
        disabled_at(name)
    }

    pub fn remove(&self, name: &str) -> Result<Stamp, Error> {
        disabled_at(name)
    }

    pub fn load(&self, text: &str) -> Result<u16, Error> {
        match text {
            "" => self.tell(0),
            _ => disabled(),
        }
    }

    pub fn load_env(&self) -> Result<u16, Error> {
        match std::env::var_os("FAILPOINTS") {
            Some(text) if !text.is_empty() => {
                disabled().map_err(|error| error.at_variable("FAILPOINTS", &text))
            }
            Some(_) | None => Ok(0),
        }
    }

    pub(crate) fn begin_with_env(&self) -> Result<(), Error> {
        self.load_env().map(drop)
    }

    pub(crate) fn clear(&self) -> Result<(), Error> {
        Ok(())
    }

    pub(crate) fn points(&self) -> Vec<(String, String)> {
        Vec::new()
    }

    pub(crate) fn recorded(&self) -> Result<(), Error> {
        Ok(())
    }

    pub fn pass(&self, name: &str) -> Result<Passed, Error> {
        let passed = self.tell(Passed::Unset);
        passed.map_err(|error| error.at_point(name))
    }

    pub fn eval(&self, _name: &str) -> Option<Option<String>> {
        None
    }

    pub fn is_set(&self, _name: &str) -> bool {
        false
    }

    pub fn shift(&self, name: &str, _term: u8, _to: u8, _amount: u64) -> Result<u64, Error> {
        disabled_at(name)
    }

    pub fn grant(&self, name: &str, _term: u8, _amount: u64) -> Result<u64, Error> {
        disabled_at(name)
    }

    pub fn spread(&self, name: &str) -> Result<u64, Error> {
        disabled_at(name)
    }

    pub fn set_spread(&self, name: &str, _actions: &str) -> Result<Stamp, Error> {
        disabled_at(name)
    }

    pub fn share(&self) -> Result<u64, Error> {
        self.tell(0)
    }

    pub fn emit(&self, _to: u8) -> Result<Vec<u8>, Error> {
        disabled()
    }

    pub fn deliver(&self, _message: &[u8]) -> Result<bool, Error> {
        disabled()
    }

    pub fn answer(&self, _method: &str, _path: &str, _body: &[u8]) -> Result<Reply, Error> {
        self.tell(()).and_then(|()| disabled())
    }

    pub fn answer_then<T>(
        &self,
        _method: &str,
        _path: &str,
        _body: &[u8],
        _send: impl FnOnce(Reply) -> T,
    ) -> Result<T, Error> {
        self.tell(()).and_then(|()| disabled())
    }

    pub fn list(&self) -> Result<String, Error> {
        self.tell(String::new())
    }

    pub fn spent(&self, name: &str, _term: u8) -> Result<u128, Error> {
        self.tell(0).map_err(|error| error.at_point(name))
    }

    pub fn hits(&self, name: &str) -> Result<u128, Error> {
        self.tell(0).map_err(|error| error.at_point(name))
    }

    pub fn rights(&self, name: &str, _term: u8, _of: u8) -> Result<i64, Error> {
        self.tell(0).map_err(|error| error.at_point(name))
    }

    pub fn version(&self) -> Result<u64, Error> {
        self.tell(0)
    }

    pub fn known(&self, _from: u8) -> Result<u64, Error> {
        self.tell(0)
    }

    pub fn acked(&self, _to: u8) -> Result<u64, Error> {
        self.tell(0)
    }

    pub fn calls(&self) -> Result<u64, Error> {
        self.tell(0)
    }

    pub fn close(&self) {
        self.is_closed.store(true, Ordering::Relaxed);
    }
}

impl UnwindSafe for Registry {}
impl RefUnwindSafe for Registry {}

impl fmt::Debug for Registry {
    fn fmt(&self, f: &mut fmt::Formatter<'_>) -> fmt::Result {
        f.debug_struct("Registry")
            .field("node", &self.made.number)
            .field("nodes", &self.made.nodes)
            .field("cap", &self.made.cap)
            .finish_non_exhaustive()
    }
}

pub fn write_drill(registries: &[&Registry], out: &mut impl Write) -> io::Result<()> {
    Builder::judge_cluster(registries.iter().map(|registry| &registry.made))?;
    writeln!(out, "{{\"failreg\":\"drill\",\"version\":1}}")?;
    for registry in registries {
        writeln!(out, "{{\"trace\":{}}}", registry.made.number)?;
    }
    out.flush()
}

/// There is none.
#[derive(Debug)]
pub struct Gossip(Never);

/// There is none.
#[derive(Debug)]
pub struct Serving(Never);

/// There is none.
#[derive(Debug)]
pub struct Served {
    pub(crate) registry: Arc<Registry>,
    pub(crate) serving: Serving,
}

#[derive(Debug)]
enum Never {}

impl Gossip {
    pub fn peers(&self) -> Vec<PeerNews> {
        match self.0 {}
    }

    pub fn share(self) -> Gossip {
        match self.0 {}
    }

    pub fn stop(self) {
        match self.0 {}
    }
}

impl Serving {
    pub fn addr(&self) -> SocketAddr {
        match self.0 {}
    }

    pub fn stop(self) {
        match self.0 {}
    }
}

impl Served {
    pub fn registry(&self) -> &Arc<Registry> {
        &self.registry
    }

    pub fn serving(&self) -> &Serving {
        &self.serving
    }
}

impl Deref for Served {
    type Target = Registry;

    fn deref(&self) -> &Registry {
        &self.registry
    }
}

pub fn gossip(
    _registry: impl Deref<Target = Registry> + Send + 'static,
    _peers: &[Peer],
    _every: Duration,
) -> Result<Gossip, Error> {
    disabled()
}

// No variable may name a peer.
pub(crate) fn others(_: &[Peer], _: u8, _: u8, _: bool) -> Result<Vec<Peer>, Error> {
    Ok(Vec::new())
}

pub(crate) fn listen(
    _addr: impl ToSocketAddrs + fmt::Debug,
    _has_key: bool,
) -> Result<TcpListener, Error> {
    disabled()
}

pub(crate) fn serve_at(
    _registry: impl Deref<Target = Registry> + Send + 'static,
    _listener: TcpListener,
) -> Result<Serving, Error> {
    disabled()
}

pub fn serve(
    _registry: impl Deref<Target = Registry> + Send + 'static,
    _addr: impl ToSocketAddrs + fmt::Debug,
) -> Result<Serving, Error> {
    disabled()
}
