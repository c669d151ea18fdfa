//! Messages posted to another served node.

use crate::digest;
use crate::http::{read_by, write_by};
use crate::key::Key;
use crate::memory::Fixed;
use std::fmt::{self, Write};
use std::io::{self, ErrorKind};
use std::net::{SocketAddr, TcpStream};
use std::time::Instant;

/// More bytes than a request's head has, with the longest key.
const ROOM_OF_FRONT: usize = 4_096;

/// How many bytes of a response are read: more than any response to a message has.
const ROOM_OF_REPLY: usize = 8_192;

/// Where messages are posted to.
pub const MESSAGES: &str = "/gossip";

/// What a peer responds to a message.
pub struct PeerReply {
    /// Its status, if it is a response of HTTP.
    pub status: Option<u16>,
    bytes: [u8; ROOM_OF_REPLY],
    length: usize,
}

impl PeerReply {
    /// Returns what follows the head.
    pub fn body(&self) -> &[u8] {
        const END: &[u8] = b"\r\n\r\n";
        let bytes = &self.bytes[..self.length];
        let place = bytes.windows(END.len()).position(|it| it == END);
        place.map_or(&[], |place| &bytes[place + END.len()..])
    }
}

/// Posts a body to a path of the node at this address, with the key, if there is one. Returns the
/// response. It takes no memory.
pub fn post(
    stream: &TcpStream,
    (addr, path): (SocketAddr, &str),
    key: Option<&Key>,
    body: &[u8],
    end: Instant,
) -> io::Result<PeerReply> {
    let front =
        front_of((addr, path), key, body).map_err(|_| io::Error::from(ErrorKind::InvalidInput))?;
    write_by(stream, [front.bytes(), body], end)?;
    let (mut bytes, mut length) = ([0; ROOM_OF_REPLY], 0);
    while length < 12 {
        match read_by(stream, &mut bytes[length..], end)? {
            0 => break,
            read => length += read,
        }
    }
    let status = status_of(&bytes[..length]);
    // Why the message was rejected, if the response is readable.
    while status == Some(400) && length < bytes.len() {
        match read_by(stream, &mut bytes[length..], end) {
            Ok(0) | Err(_) => break,
            Ok(read) => length += read,
        }
    }
    Ok(PeerReply {
        status,
        bytes,
        length,
    })
}

fn front_of(
    (addr, path): (SocketAddr, &str),
    key: Option<&Key>,
    body: &[u8],
) -> Result<Fixed<ROOM_OF_FRONT>, fmt::Error> {
    let mut front = Fixed::new();
    // The scope of an address is valid only on this machine.
    let host = SocketAddr::new(addr.ip(), addr.port());
    write!(front, "POST {path} HTTP/1.1\r\nhost: {host}\r\n")?;
    if let Some(key) = key {
        key.write_field(&mut front)?;
    }
    if path == MESSAGES {
        digest::write_fields(&mut front, key, body)?;
    }
    let length = body.len();
    write!(
        front,
        "connection: close\r\ncontent-length: {length}\r\n\r\n"
    )?;
    Ok(front)
}

// Returns the status of a response that starts like this.
fn status_of(line: &[u8]) -> Option<u16> {
    let digits = line.strip_prefix(b"HTTP/1.")?.get(2..5)?;
    std::str::from_utf8(digits).ok()?.parse().ok()
}

#[cfg(test)]
mod tests {
    use super::*;

    #[test]
    fn a_reply_has_a_status() {
        assert_eq!(status_of(b"HTTP/1.1 200 OK"), Some(200));
        assert_eq!(status_of(b"HTTP/1.0 409"), Some(409));
        for none in [
            "",
            "HTTP/1.1 20",
            "HTTP/2 200 OK",
            "HTTP/1.1 abc",
            "220 hello",
        ] {
            assert_eq!(status_of(none.as_bytes()), None, "{none:?}");
        }
    }
}
