//! HTTP requests to a registry, whoever received them.

use crate::error::{Error, ErrorKind};
use crate::heads::MAX_BODY;
use crate::node::MOST_FETCHED;
use crate::registry::Registry;
use crate::state::State;
use crate::told::Reply;
use crate::unsent::Sending;
use std::collections::TryReserveError;

/// The status of a request whose memory is refused, without a body. Nothing has changed.
const NO_MEMORY: Reply = Reply {
    status: 503,
    body: Vec::new(),
};

// Returns a response that has no body yet, with room for that of any response to a call.
fn room_for_reply() -> Result<Reply, TryReserveError> {
    let mut reply = NO_MEMORY;
    reply.body.try_reserve_exact(MOST_FETCHED)?;
    Ok(reply)
}

impl State {
    // Makes room for the line of a call that is given this many bytes, and for what its response
    // needs.
    fn make_room(&mut self, given: usize) -> Result<(), Error> {
        self.kept.make_room(given)?;
        Ok(self.unsent.make_room()?)
    }
}

impl Registry {
    /// Handles an HTTP request as a served node does: for a program with an HTTP server of its own,
    /// which passes the requests below a path of its choice. `path` is the path of the request
    /// line, without the `?` and what follows it:
    ///
    /// | Request | Body | Response |
    /// |---|---|---|
    /// | `PUT /fail/<name>` | an action string | the new version, such as `1.0` |
    /// | `DELETE /fail/<name>` | | the version of the removal |
    /// | `GET /fail` | | the points that are set, as a FAILPOINTS string for [`load`](Registry::load) |
    /// | `POST /load` | a FAILPOINTS string | the number of its entries |
    /// | `POST /shift/<name>/<term>/<to>/<amount>` | | the total transferred there |
    /// | `POST /grant/<name>/<term>/<amount>` | | the total granted |
    /// | `PUT /spread/<name>` | an action string | the new version, whose rights are divided evenly among all nodes ([`set_spread`](Registry::set_spread)) |
    /// | `POST /spread/<name>` | | how many rights the node keeps after its rights are divided evenly ([`spread`](Registry::spread)) |
    /// | `GET /report` | | what the node knows, as JSON |
    /// | `GET /status` | | the node, its calls, what each node has of each count, and the messages from each other node, as a JSON object with the members `node` and `peers`, to which a program may add more |
    /// | `POST /gossip` | a message from another node | `changed` or `same` |
    /// | `POST /hello` | the number of another node, which requests a message | `telling`: [`gossip`](crate::gossip) sends one, even without changes |
    ///
    /// A request has the same effects as the registry's call: threads see new configurations,
    /// pauses end, and a registry that records has recorded an accepted call before this returns. A
    /// body has at most 64 MiB, or the response is 413. While calls wait for messages from other
    /// nodes ([`Builder::hear_first`](crate::Builder::hear_first)), the response is 503 to requests
    /// that change the node.
    ///
    /// # Errors
    /// [`Closed`](crate::ErrorKind::Closed) or [`Disabled`](crate::ErrorKind::Disabled); if the
    /// registry records, [`NotRecorded`](crate::ErrorKind::NotRecorded) or, except for a `GET`,
    /// [`RecordingFailed`](crate::ErrorKind::RecordingFailed). A request that the node rejects
    /// returns a [`Reply`], such as 409 and `N6 NotSet`.
    pub fn answer(&self, method: &str, path: &str, body: &[u8]) -> Result<Reply, Error> {
        self.answer_then(method, path, body, |reply| reply)
    }

    /// Handles an HTTP request as [`answer`](Registry::answer) does, sends the response by `send`,
    /// without a lock, and returns what that returns. Points that the request sets act once `send`
    /// has returned: until then evaluations wait, but at most 1 second from the request on. So the
    /// client receives the response, even if the action ends the program.
    ///
    /// # Errors
    /// Those of [`answer`](Registry::answer), without a call of `send`.
    pub fn answer_then<T>(
        &self,
        method: &str,
        path: &str,
        body: &[u8],
        send: impl FnOnce(Reply) -> T,
    ) -> Result<T, Error> {
        let (reply, sending) = self.answer_sending(method, path, body)?;
        let sent = send(reply);
        drop(sending);
        Ok(sent)
    }

    /// Handles an HTTP request. If it changed configurations, evaluations wait until what stands
    /// beside the response is dropped.
    pub(crate) fn answer_sending(
        &self,
        method: &str,
        path: &str,
        body: &[u8],
    ) -> Result<(Reply, Option<Sending<'_>>), Error> {
        // Before the call, so that one that was made is answered; and below, so that it is recorded.
        let Ok(mut reply) = room_for_reply() else {
            return Ok((NO_MEMORY, None));
        };
        let mut state = self.lock();
        // Waiting lines are written before the response shows their calls.
        match self.flush(&mut state) {
            Err(error) if error.kind() == ErrorKind::OutOfMemory => return Ok((NO_MEMORY, None)),
            flushed if method != "GET" => flushed?,
            Ok(()) | Err(_) => {}
        }
        let may_call = method != "GET" && body.len() <= MAX_BODY;
        if may_call && state.make_room(body.len()).is_err() {
            return Ok((NO_MEMORY, None));
        }
        let before = state.node.calls()?;
        let answered = state.node.reply_to(method, path, body, &mut reply.body)?;
        reply.status = answered.status;
        state.waits = state.waits && !answered.has_heard_all;
        let (mut over, mut sending) = (Vec::new(), None);
        if state.node.calls()? > before {
            self.keep(&mut state, |kept, node| kept.keep_since(node, before))?;
            if answered.changes_settings || answered.has_heard_all {
                over = self.settings_changed(&mut state);
                sending = Some(self.sending(&mut state));
            }
        } else if answered.is_at_cap() && before >= self.made.cap {
            self.end(&mut state);
        }
        drop(state);
        // Without the lock: dropping a closure's captures may call the registry.
        drop(over);
        if let Some(error) = answered.forgotten(&reply.body) {
            self.meet_forgotten(&error);
        }
        Ok((reply, sending))
    }
}
