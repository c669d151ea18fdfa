//! Responses that aren't sent yet to requests that changed configurations: evaluations wait for them.

use crate::registry::Registry;
use crate::state::State;
use std::collections::TryReserveError;
use std::sync::MutexGuard;
use std::time::{Duration, Instant};

/// How long an evaluation waits at most, from the request on.
const TIME_TO_SEND: Duration = Duration::from_secs(1);

/// The responses that aren't sent yet.
#[derive(Default)]
pub(crate) struct Unsent {
    /// Their numbers, each with the time at which evaluations no longer wait for it.
    responses: Vec<(u64, Instant)>,
    next: u64,
}

impl Unsent {
    /// Makes room for one more response.
    pub(crate) fn make_room(&mut self) -> Result<(), TryReserveError> {
        self.responses.try_reserve(1)
    }

    // Adds a response, for which there is room, and returns its number.
    fn add(&mut self) -> u64 {
        let number = self.next;
        self.next += 1;
        self.responses
            .push((number, Instant::now() + TIME_TO_SEND));
        number
    }

    fn remove(&mut self, number: u64) {
        self.responses.retain(|(other, _)| *other != number);
    }

    // How long an evaluation that waits until `end` at the latest still waits; `None` if it doesn't.
    fn time_left(&self, end: Instant) -> Option<Duration> {
        let last = self.responses.iter().map(|(_, until)| *until).max()?;
        let left = last.min(end).saturating_duration_since(Instant::now());
        (!left.is_zero()).then_some(left)
    }
}

/// A response to a request that changed configurations, until it is dropped: it was sent, or can't
/// be.
#[must_use = "evaluations wait until it is dropped"]
pub(crate) struct Sending<'a> {
    registry: &'a Registry,
    number: u64,
}

impl Drop for Sending<'_> {
    fn drop(&mut self) {
        self.registry.lock().unsent.remove(self.number);
        self.registry.changed.notify_all();
    }
}

impl Registry {
    /// Lets evaluations wait for a response, for which there is room.
    pub(crate) fn sending(&self, state: &mut State) -> Sending<'_> {
        Sending {
            registry: self,
            number: state.unsent.add(),
        }
    }

    /// Takes the lock for an evaluation, once the responses are sent to all requests that changed
    /// configurations, but waits one second at most.
    pub(crate) fn lock_to_evaluate(&self) -> MutexGuard<'_, State> {
        let state = self.lock();
        match state.unsent.responses.is_empty() {
            true => state,
            false => self.wait_until_sent(state),
        }
    }

    fn wait_until_sent<'a>(&'a self, mut state: MutexGuard<'a, State>) -> MutexGuard<'a, State> {
        let end = Instant::now() + TIME_TO_SEND;
        while let Some(left) = state.unsent.time_left(end) {
            let waited = self.changed.wait_timeout(state, left);
            state = waited.unwrap_or_else(|poisoned| poisoned.into_inner()).0;
        }
        state
    }
}
