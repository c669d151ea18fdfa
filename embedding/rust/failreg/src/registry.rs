//! A node that threads share.

use crate::builder::{Builder, How, OnForgotten};
use crate::error::{Error, ErrorKind};
use crate::kept::Kept;
use crate::key::Key;
use crate::node::Node;
use crate::points::{Shown, names_in};
use crate::receipts;
use crate::state::{Callback, State};
use crate::told::{Passed, Stamp};
use std::collections::HashSet;
use std::fmt;
use std::io::{self, Write};
use std::panic::{RefUnwindSafe, UnwindSafe};
use std::sync::{Arc, Condvar, Mutex, MutexGuard, TryLockError};

/// How often a thread finds the lock taken and pauses before it sleeps. A call holds the lock for
/// less time than a thread takes to fall asleep and wake up. Each try slows the thread that holds
/// the lock, so each pause is longer than the one before.
const PAUSES: [u32; 9] = [64, 128, 256, 512, 1024, 2048, 4096, 8192, 16384];

/// One node of a cluster, for any number of threads. No other node of the cluster has its number,
/// and none had it before, not even in an earlier run of the program, unless the node resumes from
/// its journal ([`Builder::recording`]).
///
/// Without the feature `failpoints` no point is ever set, and calls that would change the node
/// return [`Disabled`](ErrorKind::Disabled).
///
/// # Errors
/// Each call that changes the node can return [`CapReached`](ErrorKind::CapReached),
/// [`OutOfMemory`](ErrorKind::OutOfMemory) and [`Closed`](ErrorKind::Closed); with
/// [`hear_first`](Builder::hear_first) also [`NotHeard`](ErrorKind::NotHeard), and with a journal
/// or a recorder [`NotRecorded`](ErrorKind::NotRecorded) and
/// [`RecordingFailed`](ErrorKind::RecordingFailed). The methods list the others. An error means
/// that nothing changed, except `NotRecorded`.
pub struct Registry {
    /// The points that are set, for threads that read them without the lock. Written under the
    /// lock.
    pub(crate) shown: Shown,
    /// Guards the node and everything that changes together with it.
    state: Mutex<State>,
    /// Notified under the lock of each change of configurations, and of the end of all changes.
    pub(crate) changed: Condvar,
    /// Whether the node resumed from a journal with calls.
    has_resumed: bool,
    pub(crate) made: Builder,
    /// The key that clients must present, and that the node sends to its peers.
    pub(crate) key: Option<Key>,
}

impl Registry {
    /// Returns a builder for a registry with more options than its number, cluster size and call
    /// limit:
    ///
    /// ```
    /// use failreg::{OnRefusal, Registry};
    ///
    /// let node = Registry::builder()
    ///     .node(1)
    ///     .nodes(3)
    ///     .cap(1_000_000)
    ///     .seed([7; 32])
    ///     .on_refusal(OnRefusal::Panic)
    ///     .build()?;
    /// assert_eq!(node.calls()?, 0);
    /// # Ok::<(), failreg::Error>(())
    /// ```
    pub fn builder() -> Builder {
        Builder::default()
    }

    /// Opens node `number` of a cluster of `nodes` (1 to 32), which accepts `cap` calls in its
    /// life.
    ///
    /// # Errors
    /// [`BadConfig`](ErrorKind::BadConfig) or [`OutOfMemory`](ErrorKind::OutOfMemory).
    pub fn open(number: u8, nodes: u8, cap: u64) -> Result<Registry, Error> {
        Registry::builder()
            .node(number)
            .nodes(nodes)
            .cap(cap)
            .build()
    }

    pub(crate) fn built(made: Builder) -> Result<Registry, Error> {
        let key = match &made.key_file {
            Some(path) => Some(Key::read(path)?),
            None => None,
        };
        let mut state = State::of(&made)?;
        let has_resumed = state.node.calls()? > 0;
        let registry = Registry {
            shown: Shown::new(),
            state: Mutex::new(state),
            changed: Condvar::new(),
            has_resumed,
            made,
            key,
        };
        if has_resumed {
            drop(registry.settings_changed(&mut registry.lock()));
        }
        Ok(registry)
    }

    pub(crate) fn is_node(&self, number: u8, nodes: u8) -> bool {
        (self.made.number, self.made.nodes) == (number, nodes)
    }

    // A poisoned lock is as good as any: a panic leaves no call half done.
    pub(crate) fn lock(&self) -> MutexGuard<'_, State> {
        let mut state = self.wait_for_lock();
        state.forget_if_many();
        state
    }

    fn wait_for_lock(&self) -> MutexGuard<'_, State> {
        for pauses in PAUSES {
            match self.state.try_lock() {
                Ok(state) => return state,
                Err(TryLockError::Poisoned(poisoned)) => return poisoned.into_inner(),
                Err(TryLockError::WouldBlock) => {}
            }
            (0..pauses).for_each(|_| std::hint::spin_loop());
        }
        self.state
            .lock()
            .unwrap_or_else(|poisoned| poisoned.into_inner())
    }

    // Makes an evaluation, and records it with `keep`. It may have to wait for messages from other
    // nodes.
    fn make<T>(
        &self,
        state: &mut State,
        make: impl FnOnce(&mut Node) -> Result<T, Error>,
        keep: impl FnOnce(&mut Kept, &mut Node, &T) -> Result<(), Error>,
    ) -> Result<T, Error> {
        state.has_heard()?;
        self.may_be_called(state)?;
        self.make_now(state, make, keep)
    }

    // Like `make`, for a call that is no evaluation and is given this many bytes. There is room for
    // its line before it is made.
    fn call<T>(
        &self,
        state: &mut State,
        given: usize,
        make: impl FnOnce(&mut Node) -> Result<T, Error>,
    ) -> Result<T, Error> {
        state.has_heard()?;
        self.call_at_once(state, given, make, Kept::keep)
    }

    // Like `call`, for a call that waits for nobody.
    fn call_at_once<T>(
        &self,
        state: &mut State,
        given: usize,
        make: impl FnOnce(&mut Node) -> Result<T, Error>,
        keep: impl FnOnce(&mut Kept, &mut Node) -> Result<(), Error>,
    ) -> Result<T, Error> {
        self.may_be_called(state)?;
        state.kept.make_room(given)?;
        self.make_now(state, make, |kept, node, _| keep(kept, node))
    }

    fn make_now<T>(
        &self,
        state: &mut State,
        make: impl FnOnce(&mut Node) -> Result<T, Error>,
        keep: impl FnOnce(&mut Kept, &mut Node, &T) -> Result<(), Error>,
    ) -> Result<T, Error> {
        let answer = make(&mut state.node);
        match &answer {
            Ok(value) => self.keep(state, |kept, node| keep(kept, node, value))?,
            Err(error) if error.kind() == ErrorKind::CapReached => self.end(state),
            Err(_) => {}
        }
        answer
    }

    /// Whether the node accepts calls: none any more after one couldn't be written, and none as long
    /// as memory for the line of one is refused.
    pub(crate) fn may_be_called(&self, state: &mut State) -> Result<(), Error> {
        let State { kept, node, .. } = state;
        let may = kept.catch_up(node);
        self.end_unless(state, may)
    }

    /// Records an accepted call, if recording is on. If it can't be written, the node accepts no
    /// further call.
    pub(crate) fn keep(
        &self,
        state: &mut State,
        keep: impl FnOnce(&mut Kept, &mut Node) -> Result<(), Error>,
    ) -> Result<(), Error> {
        let kept = keep(&mut state.kept, &mut state.node);
        self.end_unless(state, kept)
    }

    /// Writes what waits to be written. Errors: the recording lacks a call.
    pub(crate) fn flush(&self, state: &mut State) -> Result<(), Error> {
        let State { kept, node, .. } = state;
        let flushed = kept.flush(node);
        self.end_unless(state, flushed)
    }

    fn end_unless(&self, state: &mut State, recorded: Result<(), Error>) -> Result<(), Error> {
        // Memory may be there the next time.
        let is_lost = |error: &Error| error.kind() != ErrorKind::OutOfMemory;
        if recorded.as_ref().is_err_and(is_lost) {
            self.end(state);
        }
        recorded
    }

    /// Writes what waits to be written, if the node records. Errors: the recording lacks a call.
    pub(crate) fn recorded(&self) -> Result<(), Error> {
        self.flush(&mut self.lock())
    }

    // Makes calls that are no evaluations and are given a text of this length, and records each of
    // them, even if a later one is rejected.
    fn make_several<T>(
        &self,
        state: &mut State,
        given: usize,
        make: impl FnOnce(&mut Node) -> Result<T, Error>,
    ) -> Result<T, Error> {
        state.has_heard()?;
        self.may_be_called(state)?;
        state.kept.make_room(given)?;
        let before = state.node.calls()?;
        let answer = make(&mut state.node);
        self.keep(state, |kept, node| kept.keep_since(node, before))?;
        if answer.is_err() && state.node.calls()? >= self.made.cap {
            self.end(state);
        }
        answer
    }

    // Makes a call that changes which points are set, and publishes the change.
    fn change<T>(
        &self,
        given: usize,
        make: impl FnOnce(&mut Node) -> Result<T, Error>,
    ) -> Result<T, Error> {
        let mut state = self.lock();
        let answer = self.call(&mut state, given, make)?;
        let over = self.settings_changed(&mut state);
        drop(state);
        // Without the lock: dropping a closure's captures may call the registry.
        drop(over);
        Ok(answer)
    }

    // No configuration changes any more: the points do nothing, and no thread stays paused.
    pub(crate) fn end(&self, state: &mut State) {
        state.is_over = true;
        self.show(state, Some(HashSet::new()));
        self.changed.notify_all();
    }

    fn show(&self, state: &mut State, names: Option<HashSet<String>>) {
        if names.is_none() || names != state.names {
            state.names = names;
            self.shown.show(state.names.as_ref());
        }
    }

    // Publishes which points are set after a change. Returns the callbacks that ended with it.
    pub(crate) fn settings_changed(&self, state: &mut State) -> Vec<Callback> {
        let list = state.node.list().ok();
        state.kept.learn(list.as_deref());
        // If the node's points do nothing any more, or not yet, it publishes none, whatever it
        // learns.
        let names = match state.is_over || state.waits {
            true => Some(HashSet::new()),
            false => list.and_then(|list| names_in(&list).ok()),
        };
        self.show(state, names);
        self.changed.notify_all();
        state.callbacks_over()
    }

    /// Sets a point to an action string, such as `20%3*print(hi)->off`: terms joined by `->`, of
    /// which an evaluation runs the first that is due. A term is `[p%][n*]action[(argument)]`: a
    /// chance, a count for all nodes together, and one of the actions `off`, `return`, `sleep`,
    /// `panic`, `print`, `pause`, `yield` and `delay`.
    ///
    /// # Errors
    /// [`BadName`](ErrorKind::BadName), [`BadText`](ErrorKind::BadText),
    /// [`TooManyPoints`](ErrorKind::TooManyPoints), or [`NumberFull`](ErrorKind::NumberFull).
    pub fn set(&self, name: &str, actions: &str) -> Result<Stamp, Error> {
        let set = self.change(actions.len(), |node| node.set(name, actions));
        set.map_err(|error| error.at_point(name))
    }

    /// Sets a point to a closure instead of an action: a thread that evaluates the point by
    /// `fail_point!` or [`eval`](Registry::eval) calls it, without a lock. The closure belongs to
    /// this process: for other nodes, and for [`pass`](Registry::pass), the point is set to `off`.
    /// The next configuration of the point ends it.
    ///
    /// # Errors
    /// Those of [`set`](Registry::set).
    pub fn set_callback(
        &self,
        name: &str,
        run: impl Fn() + Send + Sync + 'static,
    ) -> Result<Stamp, Error> {
        let run: Callback = Arc::new(run);
        let mut state = self.lock();
        let set = self.call(&mut state, 0, |node| node.set(name, "off"));
        let stamp = set.map_err(|error| error.at_point(name))?;
        let over = self.settings_changed(&mut state);
        state.callbacks.insert(name.to_string(), (stamp, run));
        drop(state);
        drop(over);
        Ok(stamp)
    }

    /// Removes a point.
    ///
    /// # Errors
    /// [`BadName`](ErrorKind::BadName), [`TooManyPoints`](ErrorKind::TooManyPoints), or
    /// [`NumberFull`](ErrorKind::NumberFull).
    pub fn remove(&self, name: &str) -> Result<Stamp, Error> {
        let removed = self.change(0, |node| node.remove(name));
        removed.map_err(|error| error.at_point(name))
    }

    /// Sets the points of a string `name=actions;name=actions`, all or none. Returns the number of
    /// its entries.
    ///
    /// # Errors
    /// Those of [`set`](Registry::set).
    pub fn load(&self, text: &str) -> Result<u16, Error> {
        self.load_bytes(text.as_bytes())
    }

    fn load_bytes(&self, text: &[u8]) -> Result<u16, Error> {
        self.change(text.len(), |node| node.load(text))
    }

    /// Loads the environment variable FAILPOINTS, if it is set. Returns the number of its entries.
    ///
    /// # Errors
    /// Those of [`set`](Registry::set).
    pub fn load_env(&self) -> Result<u16, Error> {
        match std::env::var_os("FAILPOINTS") {
            Some(text) => self
                .load_bytes(text.as_encoded_bytes())
                .map_err(|error| error.at_variable("FAILPOINTS", &text)),
            None => Ok(0),
        }
    }

    /// Loads FAILPOINTS, unless the node resumed from its journal, which has its points.
    pub(crate) fn begin_with_env(&self) -> Result<(), Error> {
        match self.has_resumed {
            true => Ok(()),
            false => self.load_env().map(drop),
        }
    }

    /// Removes all points. The node of a one-node cluster that records nothing restarts: with its
    /// whole call limit, all its names, and without the memory that it used. A closed registry
    /// stays closed.
    pub(crate) fn clear(&self) -> Result<(), Error> {
        let mut state = self.lock();
        if state.node.is_closed() {
            return Ok(());
        }
        let is_recording = !matches!(self.made.recording.0, How::Off);
        if self.made.nodes > 1 || is_recording {
            let (removed, over) = self.remove_all(&mut state);
            drop(state);
            drop(over);
            return removed;
        }
        let mut fresh = State::of(&self.made)?;
        fresh.unsent = std::mem::take(&mut state.unsent);
        let was = std::mem::replace(&mut *state, fresh);
        self.shown.show(state.names.as_ref());
        self.changed.notify_all();
        drop(state);
        drop(was);
        Ok(())
    }

    fn remove_all(&self, state: &mut State) -> (Result<(), Error>, Vec<Callback>) {
        let list = match state.node.list() {
            Ok(list) => list,
            Err(error) => return (Err(error), Vec::new()),
        };
        let names = match names_in(&list) {
            Ok(names) => names,
            Err(refused) => return (Err(refused.into()), Vec::new()),
        };
        let removed = names.iter().try_for_each(|name| {
            let removed = self.call(state, 0, |node| node.remove(name));
            removed.map(drop)
        });
        match state.is_over {
            true => (removed, Vec::new()),
            false => (removed, self.settings_changed(state)),
        }
    }

    /// Evaluates a point, set or not, and leaves its action to the caller.
    ///
    /// # Errors
    /// [`BadName`](ErrorKind::BadName).
    pub fn pass(&self, name: &str) -> Result<Passed, Error> {
        let mut state = self.lock_to_evaluate();
        let passed = self.pass_in(&mut state, name, |node| node.pass(name));
        drop(state);
        passed.map_err(|error| error.at_point(name))
    }

    pub(crate) fn pass_in(
        &self,
        state: &mut State,
        name: &str,
        make: impl FnOnce(&mut Node) -> Result<Passed, Error>,
    ) -> Result<Passed, Error> {
        self.make(state, make, |kept, node, passed| {
            kept.keep_pass(node, name, passed)
        })
    }

    /// Returns whether a point is set. This is no evaluation.
    pub fn is_set(&self, name: &str) -> bool {
        self.shown.may_be_set(name) && self.lock().is_set(name)
    }

    /// Transfers rights of a counted term, by its number from 0, to another node, which can use
    /// them when it has received a message that shows the transfer. Returns the total transferred
    /// there under this configuration.
    ///
    /// # Errors
    /// [`BadName`](ErrorKind::BadName), [`NotSet`](ErrorKind::NotSet),
    /// [`BadArgument`](ErrorKind::BadArgument), [`TooFewRights`](ErrorKind::TooFewRights), or
    /// [`NumberFull`](ErrorKind::NumberFull).
    pub fn shift(&self, name: &str, term: u8, to: u8, amount: u64) -> Result<u64, Error> {
        let make = |node: &mut Node| node.shift(name, term, to, amount);
        let total = self.call(&mut self.lock(), 0, make);
        total.map_err(|error| error.at_point(name))
    }

    /// Adds rights beyond the count at this node. Returns the total granted here under this
    /// configuration.
    ///
    /// # Errors
    /// [`BadName`](ErrorKind::BadName), [`NotSet`](ErrorKind::NotSet),
    /// [`BadArgument`](ErrorKind::BadArgument), or [`NumberFull`](ErrorKind::NumberFull).
    pub fn grant(&self, name: &str, term: u8, amount: u64) -> Result<u64, Error> {
        let make = |node: &mut Node| node.grant(name, term, amount);
        let total = self.call(&mut self.lock(), 0, make);
        total.map_err(|error| error.at_point(name))
    }

    /// Divides the node's rights to a point evenly among all nodes: each other node gets an equal
    /// share, the nodes that follow this one get one more if some are left over, and this node
    /// keeps its own share. Returns how many it keeps, of all terms. If the call limit leaves no
    /// room for all transfers, none is made; if an allocation fails, the transfers before that are
    /// made.
    ///
    /// # Errors
    /// [`BadName`](ErrorKind::BadName), [`NotSet`](ErrorKind::NotSet), or
    /// [`NumberFull`](ErrorKind::NumberFull).
    pub fn spread(&self, name: &str) -> Result<u64, Error> {
        let kept = self.make_several(&mut self.lock(), 0, |node| node.spread(name));
        kept.map_err(|error| error.at_point(name))
    }

    /// Sets a point, as [`set`](Registry::set) does, and divides its rights evenly, as
    /// [`spread`](Registry::spread) does; no evaluation comes between. The call limit must leave
    /// room for both, with a transfer of each of 16 terms to each other node, or nothing is done.
    ///
    /// # Errors
    /// Those of [`set`](Registry::set).
    pub fn set_spread(&self, name: &str, actions: &str) -> Result<Stamp, Error> {
        let mut state = self.lock();
        let set = self.make_several(&mut state, actions.len(), |node| {
            node.set_spread(name, actions)
        });
        let over = self.settings_changed(&mut state);
        drop(state);
        // Without the lock: dropping a closure's captures may call the registry.
        drop(over);
        set.map_err(|error| error.at_point(name))
    }

    /// Moves spare rights of this node to nodes that ran out: nodes that evaluated since the last
    /// call and have no right, as far as this node knows. A node that evaluated in the last ten
    /// rounds keeps one. Returns the number of transfers. A program with a transport of its own
    /// calls it before each round of messages; with [`gossip`](crate::gossip), use
    /// [`Gossip::share`](crate::Gossip::share) instead.
    pub fn share(&self) -> Result<u64, Error> {
        self.make_several(&mut self.lock(), 0, Node::share)
    }

    /// Makes a message to another node, with the changes that it isn't known to have. If memory for
    /// it is refused, the call may count against the call limit.
    ///
    /// # Errors
    /// [`BadArgument`](ErrorKind::BadArgument).
    pub fn emit(&self, to: u8) -> Result<Vec<u8>, Error> {
        let make = |node: &mut Node| node.emit(to);
        self.call_at_once(&mut self.lock(), 0, make, Kept::keep_message)?
    }

    /// Accepts a message from another node. Returns whether this one learned anything.
    ///
    /// # Errors
    /// [`BadMessage`](ErrorKind::BadMessage), [`WrongReceiver`](ErrorKind::WrongReceiver),
    /// [`Forgotten`](ErrorKind::Forgotten), [`Overspent`](ErrorKind::Overspent), or
    /// [`TooManyPoints`](ErrorKind::TooManyPoints).
    pub fn deliver(&self, message: &[u8]) -> Result<bool, Error> {
        let mut state = self.lock();
        let make = |node: &mut Node| node.deliver(message);
        let made = self.call_at_once(&mut state, message.len(), make, Kept::keep);
        let has_begun = state.has_begun();
        let is_news = matches!(made, Ok(true)) || has_begun;
        let over = is_news.then(|| self.settings_changed(&mut state));
        drop(state);
        drop(over);
        if let Err(error) = &made {
            self.meet_forgotten(error);
        }
        made
    }

    /// Applies `on_forgotten` to a message that was rejected because others know more of this node
    /// than it does. Call it without the lock: a closure may call the registry.
    pub(crate) fn meet_forgotten(&self, error: &Error) {
        if error.kind() != ErrorKind::Forgotten {
            return;
        }
        match &self.made.on_forgotten {
            OnForgotten::Stop => self.stop_forgotten(error),
            OnForgotten::Ignore => {}
            OnForgotten::Call(told) => told(error),
        }
    }

    fn stop_forgotten(&self, error: &Error) {
        let mut state = self.lock();
        if std::mem::replace(&mut state.has_forgotten, true) {
            return;
        }
        self.end(&mut state);
        drop(state);
        let number = self.made.number;
        let fault = error.fault();
        eprintln!(
            "failreg: peers have newer state of node {number} ({fault}): it restarted without its journal, \
             or a second process runs under its number. Its failpoints do nothing from now on. End the \
             other process, restart with FAILREG_RECORD, or use a number that was never used."
        );
    }

    /// Returns the points that are set, as a FAILPOINTS string for [`load`](Registry::load).
    pub fn list(&self) -> Result<String, Error> {
        self.lock().node.list()
    }

    /// Returns the points that are set, each with its action string, or `callback`.
    pub(crate) fn points(&self) -> Vec<(String, String)> {
        let state = &mut *self.lock();
        let list = state.node.list().unwrap_or_default();
        let points = list.split(';').filter_map(|entry| entry.split_once('='));
        points
            .map(|(name, actions)| match state.callbacks.contains_key(name) {
                true => (name.to_string(), "callback".to_string()),
                false => (name.to_string(), actions.to_string()),
            })
            .collect()
    }

    /// Returns how often a term ran on all nodes under this configuration, as far as this node
    /// knows.
    pub fn spent(&self, name: &str, term: u8) -> Result<u128, Error> {
        let spent = self.lock().node.spent(name, term);
        spent.map_err(|error| error.at_point(name))
    }

    /// Returns how often a point was evaluated on all nodes while it was set, as far as this node
    /// knows.
    pub fn hits(&self, name: &str) -> Result<u128, Error> {
        let hits = self.lock().node.hits(name);
        hits.map_err(|error| error.at_point(name))
    }

    /// Returns the rights that node `of` has left of a counted term, as far as this node knows.
    pub fn rights(&self, name: &str, term: u8, of: u8) -> Result<i64, Error> {
        let rights = self.lock().node.rights(name, term, of);
        rights.map_err(|error| error.at_point(name))
    }

    /// Returns how many accepted calls changed what the node knows.
    pub fn version(&self) -> Result<u64, Error> {
        self.lock().node.version()
    }

    /// Returns the version of another node that this node has everything of.
    pub fn known(&self, from: u8) -> Result<u64, Error> {
        self.lock().node.known(from)
    }

    /// Returns the version of this node that another one acknowledged.
    pub fn acked(&self, to: u8) -> Result<u64, Error> {
        self.lock().node.acked(to)
    }

    /// Returns how many calls the node has accepted of its call limit.
    pub fn calls(&self) -> Result<u64, Error> {
        self.lock().node.calls()
    }

    /// Closes the node, frees its memory, and closes its journal, which may then be opened again.
    /// From then on the points do nothing, paused threads continue, and calls return
    /// [`ErrorKind::Closed`].
    pub fn close(&self) {
        let mut state = self.lock();
        state.node.close();
        state.kept.close();
        self.end(&mut state);
        let over = state.all_callbacks();
        drop(state);
        drop(over);
    }
}

// An action or a closure panics without the lock: no call is left half done.
impl UnwindSafe for Registry {}
impl RefUnwindSafe for Registry {}

impl fmt::Debug for Registry {
    fn fmt(&self, f: &mut fmt::Formatter<'_>) -> fmt::Result {
        f.debug_struct("Registry")
            .field("node", &self.made.number)
            .field("nodes", &self.made.nodes)
            .field("cap", &self.made.cap)
            .finish_non_exhaustive()
    }
}

/// Writes a recording of a cluster, which `failreg audit` reads: of all its nodes, in the order of
/// their numbers, each recording receipts since it was opened ([`Builder::recording`]).
///
/// # Errors
/// Those of `out`, and [`InvalidInput`](io::ErrorKind::InvalidInput) for registries that aren't all
/// nodes of one cluster or don't record.
pub fn write_drill(registries: &[&Registry], out: &mut impl Write) -> io::Result<()> {
    Builder::judge_cluster(registries.iter().map(|registry| &registry.made))?;
    let states: Vec<_> = registries.iter().map(|registry| registry.lock()).collect();
    let recorded: Option<Vec<_>> = states.iter().map(|state| state.kept.receipts()).collect();
    receipts::write(&recorded.unwrap_or_default(), out)
}
