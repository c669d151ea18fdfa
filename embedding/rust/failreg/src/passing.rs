//! Evaluations that carry out their actions, as fail-rs does.

use crate::error::Error;
use crate::node::{Evaluated, Plain};
use crate::points::Site;
use crate::registry::Registry;
use crate::state::State;
use crate::told::{Passed, Stamp, Task};
use std::sync::MutexGuard;
use std::time::{Duration, Instant};

impl Registry {
    /// Evaluates a point if it is set, and carries out its action as fail-rs does. Returns the
    /// argument of `return`, if that is the action. A point that isn't set isn't evaluated.
    #[inline]
    pub fn eval(&self, name: &str) -> Option<Option<String>> {
        if !self.shown.may_be_set(name) {
            return None;
        }
        self.eval_set(name)
    }

    fn eval_set(&self, name: &str) -> Option<Option<String>> {
        let mut state = self.lock_to_evaluate();
        if !state.is_set(name) {
            return None;
        }
        let passed = self.pass_in(&mut state, name, |node| node.pass(name));
        self.obey(state, name, passed)
    }

    /// Evaluates the point of a site, whose name is always this one, with the site's cache.
    #[doc(hidden)]
    #[inline]
    pub fn eval_at(&self, site: &Site, name: &str) -> Option<Option<String>> {
        if !self.shown.may_be_set_at(site) {
            return None;
        }
        self.eval_set_at(site, name)
    }

    fn eval_set_at(&self, site: &Site, name: &str) -> Option<Option<String>> {
        let mut state = self.lock_to_evaluate();
        if !self.shown.is_set_at(site, || state.is_set(name)) {
            return None;
        }
        match site.point_of(state.id) {
            Some(point) if state.only_evaluates() => self.eval_plain(state, name, point),
            _ => {
                let passed = self.pass_at(&mut state, name, site);
                self.obey(state, name, passed)
            }
        }
    }

    // Evaluates a point by its number, at a registry that does nothing else for an evaluation.
    #[inline]
    fn eval_plain(
        &self,
        mut state: MutexGuard<'_, State>,
        name: &str,
        point: u32,
    ) -> Option<Option<String>> {
        let evaluated = state.node.evaluate_at(point);
        match evaluated.plain() {
            Some(Plain::Nothing) => None,
            Some(Plain::Return) => Some(None),
            None => self.obey_evaluated(state, name, &evaluated),
        }
    }

    // Carries out an evaluation whose result needs more.
    #[cold]
    fn obey_evaluated(
        &self,
        mut state: MutexGuard<'_, State>,
        name: &str,
        evaluated: &Evaluated,
    ) -> Option<Option<String>> {
        let passed = self.pass_in(&mut state, name, |node| node.result_of(evaluated));
        self.obey(state, name, passed)
    }

    // Evaluates the point of a site by its cached number.
    fn pass_at(&self, state: &mut State, name: &str, site: &Site) -> Result<Passed, Error> {
        let point = match site.point_of(state.id) {
            Some(point) => point,
            None => {
                let point = state.node.point(name)?;
                site.has_point(state.id, point);
                point
            }
        };
        self.pass_in(state, name, |node| node.pass_at(point))
    }

    // Carries out the result of an evaluation, or `on_refusal` if it was rejected, without the
    // lock.
    fn obey(
        &self,
        state: MutexGuard<'_, State>,
        name: &str,
        passed: Result<Passed, Error>,
    ) -> Option<Option<String>> {
        let id = state.id;
        match passed {
            Ok(Passed::Unset | Passed::NoTerm { .. }) => None,
            Ok(Passed::Act { stamp, task, .. }) => {
                let callback = state.callback(name, stamp);
                drop(state);
                if let Some(run) = callback {
                    run();
                    return None;
                }
                self.carry_out(name, id, stamp, task)
            }
            Err(error) => {
                drop(state);
                // At the call limit this is the first and only report: no name is published as set
                // any more.
                self.made.on_refusal.meet(&error.at_point(name));
                None
            }
        }
    }

    fn carry_out(&self, name: &str, id: u64, stamp: Stamp, task: Task) -> Option<Option<String>> {
        match task {
            Task::Off => {}
            Task::Return(argument) => return Some(argument),
            Task::Sleep(time) => std::thread::sleep(time),
            Task::Panic(Some(text)) => panic!("{text}"),
            Task::Panic(None) => panic!("failpoint {name} panic"),
            Task::Print(Some(text)) => eprintln!("{text}"),
            Task::Print(None) => eprintln!("failpoint {name} executed."),
            Task::Pause => self.wait_out(name, id, stamp),
            Task::Yield => std::thread::yield_now(),
            Task::Delay(time) => keep_busy(time),
        }
        None
    }

    // Waits until the point isn't set under this version any more, the node is another one, or no
    // configuration changes any more.
    fn wait_out(&self, name: &str, id: u64, stamp: Stamp) {
        let mut state = self.lock();
        while state.id == id
            && !state.is_over
            && matches!(state.node.is_pause_over(name, stamp), Ok(false))
        {
            state = self
                .changed
                .wait(state)
                .unwrap_or_else(|poisoned| poisoned.into_inner());
        }
    }
}

fn keep_busy(time: Duration) {
    let begun = Instant::now();
    while begun.elapsed() < time {
        std::hint::spin_loop();
    }
}
