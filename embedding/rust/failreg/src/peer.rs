//! The other nodes of a cluster, as a program names them and sees what was sent to them.

use std::net::SocketAddr;
use std::time::SystemTime;

/// Another node of the cluster, and the address at which it is served.
#[derive(Clone, Copy, Debug, PartialEq, Eq, Hash)]
pub struct Peer {
    /// The node's number.
    pub node: u8,
    /// The node's address: a loopback address, unless there is a key.
    pub addr: SocketAddr,
}

impl Peer {
    /// Returns the peer with this number and address.
    pub fn new(node: u8, addr: impl Into<SocketAddr>) -> Peer {
        Peer {
            node,
            addr: addr.into(),
        }
    }
}

/// A message that failed.
#[derive(Clone, Debug, PartialEq, Eq)]
pub struct Failure {
    /// When it failed.
    pub at: SystemTime,
    /// Why: the error of its socket, the response of the peer, or why there is no message for it.
    pub what: String,
}

/// What was sent to a peer.
#[derive(Clone, Debug, PartialEq, Eq)]
#[non_exhaustive]
pub struct PeerNews {
    /// The peer.
    pub peer: Peer,
    /// When it last accepted a message, if it ever did.
    pub told: Option<SystemTime>,
    /// How many messages it accepted.
    pub messages: u64,
    /// The last failure. It stays after later successes.
    pub failure: Option<Failure>,
    /// How many messages failed.
    pub failures: u64,
}
