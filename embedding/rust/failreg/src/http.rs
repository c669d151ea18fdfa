//! The subset of HTTP/1.1 that a served node supports: one request per connection, with a
//! Content-Length or a chunked body.

use crate::bodies::{Body, Needed};
use crate::chunks::{ChunkFault, Chunks};
use crate::date::date_of;
use crate::heads::{
    Fault, Head, LONG_HEAD, LONG_TARGET, Length, MAX_BODY, MAX_HEAD, NO_MEMORY, head_of, methods_at,
};
use crate::key::Key;
use crate::lines::Lines;
use crate::memory::Fixed;
use crate::page::POLICY;
use crate::tags::Tag;
use std::fmt::{self, Write as _};
use std::io::{self, ErrorKind, IoSlice, Read, Write};
use std::net::{Shutdown, SocketAddr, TcpStream};
use std::time::{Duration, Instant, SystemTime};

/// How many bytes of a head are read at once, and the room for a short head and any head, with what
/// follows it.
const PIECE_OF_HEAD: usize = 4_096;
const ROOM_OF_SHORT_HEAD: usize = 3 * PIECE_OF_HEAD;
const ROOM_OF_HEAD: usize = MAX_HEAD + PIECE_OF_HEAD;

/// More bytes than the head of a response has.
const ROOM_OF_FRONT: usize = 2_048;

/// The bytes of a request's head, and those that were read with it. Only a long head takes memory
/// of the heap.
pub struct HeadRoom {
    short: [u8; ROOM_OF_SHORT_HEAD],
    long: Vec<u8>,
}

impl HeadRoom {
    /// Returns room for a head.
    pub const fn new() -> HeadRoom {
        HeadRoom {
            short: [0; ROOM_OF_SHORT_HEAD],
            long: Vec::new(),
        }
    }

    fn bytes(&self) -> &[u8] {
        match self.long.as_slice() {
            [] => &self.short,
            long => long,
        }
    }

    // Returns room for the next piece after this many bytes.
    fn next_piece(&mut self, length: usize) -> Result<&mut [u8], Fault> {
        if self.long.is_empty() && length + PIECE_OF_HEAD > self.short.len() {
            let mut long = piece_of(ROOM_OF_HEAD)?;
            long[..length].copy_from_slice(&self.short[..length]);
            self.long = long;
        }
        let bytes = match self.long.as_mut_slice() {
            [] => &mut self.short,
            long => long,
        };
        Ok(&mut bytes[length..length + PIECE_OF_HEAD])
    }
}

/// How many bytes of a body are read at once; as many are reserved before any arrive.
const PIECE: usize = 65_536;

const HEAD_TIME: Duration = Duration::from_secs(2);
const WHOLE_TIME: Duration = Duration::from_secs(10);

/// How long a client may continue sending ignored bytes, so that it gets to reading the response.
const DRAIN_TIME: Duration = Duration::from_secs(1);

// Returns what follows the empty lines at the start of a head (RFC 9112, section 2.2).
fn rest_of_empty_lines(mut bytes: &[u8]) -> &[u8] {
    while let Some(rest) = bytes.strip_prefix(b"\r\n") {
        bytes = rest;
    }
    bytes
}

// Returns room for this many bytes of a body.
fn piece_of(size: usize) -> Result<Vec<u8>, Fault> {
    let mut piece = Vec::new();
    piece.try_reserve_exact(size).map_err(|_| NO_MEMORY)?;
    piece.resize(size, 0);
    Ok(piece)
}

/// A connection with a client, which has a time limit for its request and the response.
pub struct Connection<'a> {
    stream: &'a TcpStream,
    begun: Instant,
    /// The bytes that were read after the head.
    rest: &'a [u8],
    /// Whether the client sent more than the request.
    has_more: bool,
    /// Whether the request has the method `HEAD`.
    is_head: bool,
}

impl<'a> Connection<'a> {
    /// Returns a connection whose time starts now.
    pub fn new(stream: &'a TcpStream) -> Connection<'a> {
        Connection {
            stream,
            begun: Instant::now(),
            rest: &[],
            has_more: false,
            is_head: false,
        }
    }

    /// Returns when its time is over.
    pub fn end(&self) -> Instant {
        self.begun + WHOLE_TIME
    }

    fn read_by(&mut self, into: &mut [u8], deadline: Instant) -> Result<usize, Fault> {
        match read_by(self.stream, into, deadline)? {
            0 => Err(Fault::Gone),
            read => Ok(read),
        }
    }

    /// Reads the head of the request, which must have the key, if there is one.
    pub fn read_head(
        &mut self,
        room: &'a mut HeadRoom,
        addr: SocketAddr,
        key: Option<&Key>,
    ) -> Result<Head<'a>, Fault> {
        let (mut lines, mut length, mut end) = (Lines::of_head(), 0, 0);
        while !lines.is_over() {
            let read = self.read_by(room.next_piece(length)?, self.begun + HEAD_TIME)?;
            let bytes = &room.bytes()[..length + read];
            self.is_head = rest_of_empty_lines(bytes).starts_with(b"HEAD ");
            end += lines.take(&bytes[length..])?;
            length += read;
            if end > MAX_HEAD || (length >= MAX_HEAD && !lines.is_over()) {
                let first = rest_of_empty_lines(&bytes[..MAX_HEAD]);
                return Err(if first.contains(&b'\n') {
                    LONG_HEAD
                } else {
                    LONG_TARGET
                });
            }
        }
        let room: &'a HeadRoom = room;
        let (head, rest) = room.bytes()[..length].split_at(end);
        self.rest = rest;
        head_of(rest_of_empty_lines(&head[..end - 2]), addr, key)
    }

    /// Reads the body of a head, and returns bytes that the node handles as it would handle the
    /// body. Memory grows as what is needed of it arrives. The bytes after it are no request of
    /// this connection.
    pub fn read_body(&mut self, head: &Head<'_>) -> Result<Vec<u8>, Fault> {
        let body = Body::new(Needed::of(head));
        let body = match head.length {
            Length::Told(told) => self.read_told(body, told as usize, head.is_expecting)?,
            Length::Chunks => self.read_chunks(body, head)?,
        };
        Ok(body.into_bytes())
    }

    fn send_continue(&self, is_expecting: bool) -> io::Result<()> {
        match is_expecting {
            true => write_by(
                self.stream,
                [b"HTTP/1.1 100 Continue\r\n\r\n", b""],
                self.end(),
            ),
            false => Ok(()),
        }
    }

    fn read_told(
        &mut self,
        mut body: Body,
        length: usize,
        is_expecting: bool,
    ) -> Result<Body, Fault> {
        let (front, behind) = self.rest.split_at(length.min(self.rest.len()));
        self.has_more = !behind.is_empty();
        body.take(front).map_err(|_| NO_MEMORY)?;
        if body.len() == length {
            return Ok(body);
        }
        self.send_continue(is_expecting)?;
        // One byte more, to detect a body that is longer than its length.
        let mut piece = piece_of((length - body.len() + 1).min(PIECE))?;
        while body.len() < length {
            let left = length - body.len();
            piece.truncate(left + 1);
            let read = self.read_by(&mut piece, self.end())?;
            self.has_more = read > left;
            body.take(&piece[..read.min(left)]).map_err(|_| NO_MEMORY)?;
        }
        Ok(body)
    }

    fn read_chunks(&mut self, body: Body, head: &Head<'_>) -> Result<Body, Fault> {
        let mut chunks = Chunks::new(body, MAX_BODY);
        let rest = self.rest;
        self.send_continue(head.is_expecting)?;
        let (mut taken, mut piece) = (chunks.take(rest), Vec::new());
        loop {
            match taken {
                Ok(Some(behind)) => {
                    self.has_more = behind > 0;
                    return Ok(chunks.into_body());
                }
                Ok(None) => {}
                Err(ChunkFault::Bad) => return Err(Fault::Gone),
                Err(ChunkFault::TooLong) => return Err(head.too_long()),
                Err(ChunkFault::NoMemory) => return Err(NO_MEMORY),
            }
            if piece.is_empty() {
                piece = piece_of(PIECE)?;
            }
            let read = self.read_by(&mut piece, self.end())?;
            taken = chunks.take(&piece[..read]);
        }
    }

    /// Writes the response, the connection's last, to a request with this head. A response to
    /// `HEAD`, or to a client that has the body, has no body.
    pub fn write(&mut self, head: &Head<'_>, status: u16, body: &[u8]) -> io::Result<()> {
        let tag = head.tag_of(status, body);
        let is_there = tag.is_some_and(|tag| head.has(&tag));
        let status = if is_there { 304 } else { status };
        let response = Response {
            version: head.version(),
            status,
            path: head.path,
            methods: methods_at(head.path),
            tag,
        };
        self.write_response(&response, body)
    }

    /// Writes the response, the connection's last, to a request that doesn't reach the node.
    pub fn write_fault(
        &mut self,
        status: u16,
        text: &str,
        methods: Option<&'static str>,
    ) -> io::Result<()> {
        let response = Response {
            version: "HTTP/1.1",
            status,
            path: "",
            methods,
            tag: None,
        };
        self.write_response(&response, text.as_bytes())
    }

    fn write_response(&mut self, response: &Response<'_>, body: &[u8]) -> io::Result<()> {
        let front = response
            .front(body.len(), SystemTime::now())
            .map_err(|_| io::Error::from(ErrorKind::OutOfMemory))?;
        let has_body = !self.is_head && response.status != 304;
        let body = if has_body { body } else { &[] };
        write_by(self.stream, [front.bytes(), body], self.end())?;
        self.stream.shutdown(Shutdown::Write)
    }

    /// Returns whether the client sends more than its request.
    pub fn has_more(&self) -> bool {
        self.has_more
    }

    /// Reads the rest of an incomplete request for a while: unread bytes would end the connection
    /// before the client has the response.
    pub fn drain(&mut self) {
        let end = self.end().min(Instant::now() + DRAIN_TIME);
        let Ok(mut piece) = piece_of(PIECE) else {
            return;
        };
        while let Ok(1..) = read_by(self.stream, &mut piece, end) {}
    }
}

/// A response, without its body.
struct Response<'a> {
    version: &'static str,
    status: u16,
    path: &'a str,
    /// The methods of the path, if it exists.
    methods: Option<&'static str>,
    /// The tag of its body, if it has one.
    tag: Option<Tag>,
}

impl Response<'_> {
    // Returns its head at this time. It takes no memory, so that a call that was made is always
    // answered.
    fn front(&self, length: usize, now: SystemTime) -> Result<Fixed<ROOM_OF_FRONT>, fmt::Error> {
        let mut front = Fixed::new();
        let Response {
            version, status, ..
        } = self;
        write!(front, "{version} {status} {}\r\n", reason(*status))?;
        if *status != 304 {
            self.write_labels(&mut front)?;
        }
        if let Some(tag) = &self.tag {
            write!(front, "etag: {}\r\n", tag.text()?)?;
        }
        if let Some(date) = date_of(now) {
            write!(front, "date: {date}\r\n")?;
        }
        front.write_str("connection: close\r\n")?;
        if *status != 304 {
            write!(front, "content-length: {length}\r\n")?;
        }
        front.write_str("\r\n")?;
        Ok(front)
    }

    // Writes the fields of a body's type, so that no browser guesses; of the allowed methods, if
    // another was sent; and of how to send the key, if it is missing.
    fn write_labels(&self, out: &mut impl fmt::Write) -> fmt::Result {
        let content = match self.path {
            "/report" | "/status" if self.status == 200 => "application/json",
            "/" if self.status == 200 => "text/html; charset=utf-8",
            _ => "text/plain; charset=utf-8",
        };
        write!(
            out,
            "content-type: {content}\r\nx-content-type-options: nosniff\r\n"
        )?;
        if self.path == "/" && self.status == 200 {
            write!(
                out,
                "content-security-policy: {POLICY}\r\ncache-control: no-store\r\n\
                 referrer-policy: no-referrer\r\n"
            )?;
        }
        if let Some(methods) = self.methods.filter(|_| self.status == 405) {
            write!(out, "allow: {methods}\r\n")?;
        }
        match self.status {
            401 => out.write_str("www-authenticate: Bearer\r\n"),
            _ => Ok(()),
        }
    }
}

fn left_until(deadline: Instant) -> io::Result<Duration> {
    let left = deadline.saturating_duration_since(Instant::now());
    match left.is_zero() {
        true => Err(ErrorKind::TimedOut.into()),
        false => Ok(left),
    }
}

// Reads once, before the deadline.
pub(crate) fn read_by(
    mut stream: &TcpStream,
    into: &mut [u8],
    deadline: Instant,
) -> io::Result<usize> {
    loop {
        stream.set_read_timeout(Some(left_until(deadline)?))?;
        match stream.read(into) {
            Err(error) if error.kind() == ErrorKind::Interrupted => {}
            read => return read,
        }
    }
}

// Writes two pieces before the deadline, together if the system takes them so.
pub(crate) fn write_by(
    mut stream: &TcpStream,
    pieces: [&[u8]; 2],
    deadline: Instant,
) -> io::Result<()> {
    let mut slices = pieces.map(IoSlice::new);
    let mut left = &mut slices[..];
    // Without the pieces that are empty.
    IoSlice::advance_slices(&mut left, 0);
    while !left.is_empty() {
        stream.set_write_timeout(Some(left_until(deadline)?))?;
        match stream.write_vectored(left) {
            Ok(0) => return Err(ErrorKind::WriteZero.into()),
            Ok(written) => IoSlice::advance_slices(&mut left, written),
            Err(error) if error.kind() == ErrorKind::Interrupted => {}
            Err(error) => return Err(error),
        }
    }
    Ok(())
}

fn reason(status: u16) -> &'static str {
    match status {
        200 => "OK",
        304 => "Not Modified",
        400 => "Bad Request",
        401 => "Unauthorized",
        403 => "Forbidden",
        404 => "Not Found",
        405 => "Method Not Allowed",
        409 => "Conflict",
        413 => "Payload Too Large",
        414 => "URI Too Long",
        431 => "Request Header Fields Too Large",
        501 => "Not Implemented",
        _ => "Service Unavailable",
    }
}

#[cfg(test)]
mod tests {
    use super::*;
    use std::net::{Ipv4Addr, TcpListener};

    // The head of the response to an HTTP/1.1 request with these fields after its Host, at the start
    // of 1970, and the body of a response that has one.
    fn replied(line: &str, fields: &str, status: u16, body: &str) -> String {
        let text = format!("{line} HTTP/1.1\r\nHost: localhost\r\n{fields}");
        let addr = (Ipv4Addr::LOCALHOST, 7070).into();
        let head = head_of(text.as_bytes(), addr, None).unwrap();
        let (listener, stream) = connected();
        let mut connection = Connection::new(&stream);
        connection.is_head = head.method == "HEAD";
        connection.write(&head, status, body.as_bytes()).unwrap();
        received(listener, stream)
    }

    fn refused(status: u16, body: &str, methods: Option<&'static str>, is_head: bool) -> String {
        let (listener, stream) = connected();
        let mut connection = Connection::new(&stream);
        connection.is_head = is_head;
        connection.write_fault(status, body, methods).unwrap();
        received(listener, stream)
    }

    fn connected() -> (TcpListener, TcpStream) {
        let listener = TcpListener::bind((Ipv4Addr::LOCALHOST, 0)).unwrap();
        let stream = TcpStream::connect(listener.local_addr().unwrap()).unwrap();
        (listener, stream)
    }

    // What was written to a stream, with the date of the start of 1970.
    fn received(listener: TcpListener, stream: TcpStream) -> String {
        let mut text = String::new();
        let (mut other, _) = listener.accept().unwrap();
        other.read_to_string(&mut text).unwrap();
        drop(stream);
        let (front, rest) = text.split_once("\r\ndate: ").unwrap();
        let rest = rest.split_once("\r\n").unwrap().1;
        format!("{front}\r\ndate: Thu, 01 Jan 1970 00:00:00 GMT\r\n{rest}")
    }

    const END: &str = "date: Thu, 01 Jan 1970 00:00:00 GMT\r\nconnection: close\r\n";

    #[test]
    fn a_reply_says_what_its_body_is() {
        let head = "HTTP/1.1 200 OK\r\ncontent-type: application/json\r\n\
            x-content-type-options: nosniff\r\n";
        let wanted = format!("{head}{END}content-length: 2\r\n\r\n[]");
        assert_eq!(replied("GET /report", "", 200, "[]"), wanted);
        for path in ["/fail", "/fail/"] {
            let reply = replied(&format!("DELETE {path}"), "", 405, "bad method");
            assert!(reply.contains("\r\nallow: GET\r\n"), "{reply}");
        }
        assert!(!replied("DELETE /fail", "", 409, "N6 NotSet").contains("allow"));
        let without_body = replied("HEAD /report", "", 405, "bad method");
        assert!(
            without_body.ends_with("content-length: 10\r\n\r\n"),
            "{without_body}"
        );
        let no_key = refused(401, "no key", None, false);
        assert!(
            no_key.starts_with("HTTP/1.1 401 Unauthorized\r\n"),
            "{no_key}"
        );
        assert!(
            no_key.contains("\r\nwww-authenticate: Bearer\r\n")
                && no_key.ends_with("\r\n\r\nno key"),
            "{no_key}"
        );
        let other = refused(405, "bad method", Some("PUT, POST"), true);
        assert!(
            other.contains("\r\nallow: PUT, POST\r\n") && other.ends_with("length: 10\r\n\r\n"),
            "{other}"
        );
    }

    #[test]
    fn who_has_the_status_is_told_its_tag_alone() {
        let tag = "\"44136fa355b3678a1146ad16f7e8649e94fb4fc21fe77e8310c060f61caaff8a\"";
        let ask = |line: &str, fields: &str, status| replied(line, fields, status, "{}");
        let whole = ask("GET /status", "", 200);
        assert!(whole.contains(&format!("\r\netag: {tag}\r\n")) && whole.ends_with("{}"));
        let unchanged = format!("HTTP/1.1 304 Not Modified\r\netag: {tag}\r\n{END}\r\n");
        for fields in [
            format!("If-None-Match: {tag}\r\n"),
            "if-none-match:*\r\n".into(),
            format!("If-None-Match: \"a\"\r\nIf-None-Match: \"b\", W/{tag}\r\n"),
        ] {
            assert_eq!(ask("GET /status", &fields, 200), unchanged, "{fields}");
            assert_eq!(ask("GET /status?all", &fields, 200), unchanged, "{fields}");
            for (line, status) in [
                ("GET /report", 200),
                ("GET /fail", 200),
                ("GET /status", 503),
            ] {
                let told = ask(line, &fields, status);
                assert!(
                    !told.contains("etag") && told.ends_with("{}"),
                    "{line} {fields}"
                );
            }
        }
        for fields in [
            "If-None-Match: \"a\"\r\n",
            "If-None-Match:\r\n",
            "If-Match: *\r\n",
        ] {
            assert_eq!(ask("GET /status", fields, 200), whole, "{fields}");
        }
    }
}
