//! What the lock of a registry guards.

use crate::builder::Builder;
use crate::error::{Error, ErrorKind};
use crate::kept::Kept;
use crate::memory::short_text;
use crate::node::Node;
use crate::told::Stamp;
use crate::unsent::Unsent;
use std::collections::{HashMap, HashSet};
use std::hash::{BuildHasher, Hasher, RandomState};
use std::sync::Arc;
use std::sync::atomic::{AtomicU64, Ordering};

pub(crate) type Callback = Arc<dyn Fn() + Send + Sync>;

/// What the lock of a registry guards.
pub(crate) struct State {
    pub(crate) node: Node,
    /// Unique among the program's nodes.
    pub(crate) id: u64,
    /// The points that are set; `None` if the allocation of the set failed, and the node itself has
    /// to be queried.
    pub(crate) names: Option<HashSet<String>>,
    /// The closure that an evaluation of a point calls while it is set under this version.
    pub(crate) callbacks: HashMap<String, (Stamp, Callback)>,
    pub(crate) kept: Kept,
    /// How often the lock was taken since the node discarded its call history: at least as often as
    /// it was called.
    turns: u32,
    /// Whether no configuration changes any more.
    pub(crate) is_over: bool,
    /// Whether the loss of the node's state was reported.
    pub(crate) has_forgotten: bool,
    /// Whether calls are rejected until a message from each other node has arrived.
    pub(crate) waits: bool,
    pub(crate) unsent: Unsent,
}

/// The most calls in a node's history, so that memory doesn't grow with evaluations.
pub(crate) const MOST_KEPT: u32 = 1024;

// Returns a seed that differs from run to run.
fn seed_of_this_run() -> [u8; 32] {
    let mut seed = [0; 32];
    for part in seed.chunks_exact_mut(8) {
        part.copy_from_slice(&RandomState::new().build_hasher().finish().to_le_bytes());
    }
    seed
}

fn id_of_a_node() -> u64 {
    /// The number of nodes that the program has opened, which numbers them. It orders no memory
    /// access.
    static NODES: AtomicU64 = AtomicU64::new(0);
    NODES.fetch_add(1, Ordering::Relaxed)
}

// The error of a call that waits for a node.
fn not_heard(node: u8) -> Error {
    let fault = short_text(format_args!("not heard yet: node {node}"));
    Error::new(ErrorKind::NotHeard, fault)
}

impl State {
    pub(crate) fn of(made: &Builder) -> Result<State, Error> {
        let seed = made.seed.unwrap_or_else(seed_of_this_run);
        let mut node = Node::open(made.number, made.nodes, made.cap, &seed)?;
        let kept = Kept::of(made, &mut node)?;
        if made.hears_first {
            node.hear_first();
        }
        let waits = node.awaited().is_some();
        Ok(State {
            node,
            id: id_of_a_node(),
            names: Some(HashSet::new()),
            callbacks: HashMap::new(),
            kept,
            turns: 0,
            is_over: false,
            has_forgotten: false,
            waits,
            unsent: Unsent::default(),
        })
    }

    /// Whether calls are accepted yet: they may wait for a message from a node.
    pub(crate) fn has_heard(&mut self) -> Result<(), Error> {
        let awaited = self.waits.then(|| self.node.awaited()).flatten();
        awaited.map_or(Ok(()), |node| Err(not_heard(node)))
    }

    /// Notes that a message came. Returns whether calls were waiting for it.
    pub(crate) fn has_begun(&mut self) -> bool {
        let was_waiting = self.waits;
        self.waits = was_waiting && self.node.awaited().is_some();
        was_waiting && !self.waits
    }

    pub(crate) fn is_set(&mut self, name: &str) -> bool {
        match &self.names {
            Some(names) => names.contains(name),
            None => self.node.is_set(name).unwrap_or(false),
        }
    }

    /// Returns whether an evaluation is recorded nowhere, calls nothing and waits for nobody.
    #[inline]
    pub(crate) fn only_evaluates(&self) -> bool {
        self.kept.records_nothing() && self.callbacks.is_empty() && !self.waits
    }

    /// The closure that an evaluation of the point under this version calls, if there is one.
    pub(crate) fn callback(&self, name: &str, stamp: Stamp) -> Option<Callback> {
        let (since, run) = self.callbacks.get(name)?;
        (*since == stamp).then(|| run.clone())
    }

    /// Discards the node's call history every so many calls, unless a call of it is still to be
    /// recorded: nothing else here reads it again.
    pub(crate) fn forget_if_many(&mut self) {
        self.turns = self.turns.saturating_add(1);
        if self.turns >= MOST_KEPT && !self.kept.needs_history() {
            self.node.forget();
            self.turns = 0;
        }
    }

    /// Removes and returns the callbacks of points that have another configuration by now, or none.
    pub(crate) fn callbacks_over(&mut self) -> Vec<Callback> {
        let State {
            node, callbacks, ..
        } = self;
        let is_over = |(name, (stamp, _)): &(&String, &(Stamp, Callback))| {
            matches!(node.is_pause_over(name, *stamp), Ok(true))
        };
        let over: Vec<String> = callbacks
            .iter()
            .filter(is_over)
            .map(|(name, _)| name.clone())
            .collect();
        let taken = over.iter().filter_map(|name| callbacks.remove(name));
        taken.map(|(_, run)| run).collect()
    }

    pub(crate) fn all_callbacks(&mut self) -> Vec<Callback> {
        self.callbacks.drain().map(|(_, (_, run))| run).collect()
    }
}
