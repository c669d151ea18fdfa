//! Heads of requests: their fields, and the checks of access.

use crate::access::{is_own_page, is_this_machine};
use crate::digest::{agrees, code_of, digest_of};
use crate::key::{Key, is_same};
use crate::lines::{Target, elements, is_token, trimmed};
use crate::posting::MESSAGES;
use crate::tags::{Tag, is_in, tag_of};
use std::io;
use std::net::SocketAddr;

/// The longest head, in bytes.
pub(crate) const MAX_HEAD: usize = 65_536;

/// The longest body, in bytes: that of the longest message.
pub(crate) const MAX_BODY: usize = 67_108_864;

/// Why a request doesn't reach the node.
#[derive(Debug, PartialEq, Eq)]
pub enum Fault {
    /// It gets this response.
    Reply(u16, &'static str),
    /// Its path has only these methods.
    OtherMethod(&'static str),
    /// The client is gone or too slow.
    Gone,
}

impl From<io::Error> for Fault {
    fn from(_: io::Error) -> Fault {
        Fault::Gone
    }
}

/// A message isn't as it was sent.
pub(crate) const BAD_DIGEST: Fault = Fault::Reply(400, "bad digest");
/// An allocation for the request failed. The response takes none.
pub(crate) const NO_MEMORY: Fault = Fault::Reply(503, "");
const BAD_LINE: Fault = Fault::Reply(400, "bad request line: send it as GET /fail HTTP/1.1");
const BAD_FIELD: Fault = Fault::Reply(400, "bad field: send each as Name: value, ended by CR LF");
const BAD_LENGTH: Fault = Fault::Reply(400, "bad Content-Length: send one, of digits alone");
const NO_KEY: Fault = Fault::Reply(
    401,
    "missing or wrong key: send Authorization: Bearer and the key in hex",
);
const BAD_HOST: Fault = Fault::Reply(400, "bad Host: send one");
const FOREIGN_HOST: Fault = Fault::Reply(
    403,
    "the Host header names another machine: use localhost, 127.0.0.1 or [::1]",
);
const FOREIGN_ORIGIN: Fault = Fault::Reply(
    403,
    "the Origin header names another site: send no Origin header",
);
const BAD_CODING: Fault = Fault::Reply(
    400,
    "bad Transfer-Encoding: send Content-Length, or chunks alone",
);
pub(crate) const LONG_TARGET: Fault =
    Fault::Reply(414, "too long a path: a head has 65536 bytes at most");
const OTHER_CODING: Fault = Fault::Reply(
    501,
    "unsupported Transfer-Encoding: send Content-Length or only chunked",
);
pub(crate) const LONG_HEAD: Fault = Fault::Reply(431, "too long a head: send at most 65536 bytes");

/// How a body is sent.
#[derive(Clone, Copy, Debug, PartialEq, Eq)]
pub enum Length {
    /// With this many bytes.
    Told(u64),
    /// In chunks.
    Chunks,
}

/// The head of a request, which lies in the bytes that were read.
#[derive(Debug, PartialEq, Eq)]
pub struct Head<'h> {
    pub method: &'h str,
    /// The path, without a `?` and what follows it.
    pub path: &'h str,
    pub length: Length,
    pub is_expecting: bool,
    /// The fields, one per line.
    fields: &'h [u8],
    /// Whether the request is HTTP/1.0.
    is_old: bool,
}

impl Head<'_> {
    /// Returns whether the body may be longer than this.
    pub fn may_exceed(&self, bytes: usize) -> bool {
        match self.length {
            Length::Told(told) => told > bytes as u64,
            Length::Chunks => true,
        }
    }

    /// Returns the response to a body that is longer than any request's may be.
    pub fn too_long(&self) -> Fault {
        match methods_at(self.path) {
            None => Fault::Reply(404, "not found"),
            Some(methods) if methods.split(", ").any(|it| it == self.method) => {
                Fault::Reply(413, "too long")
            }
            Some(methods) => Fault::OtherMethod(methods),
        }
    }

    /// Returns the tag of a response with this status, if it has one: clients poll the node's
    /// status, which mostly stays the same.
    pub fn tag_of(&self, status: u16, body: &[u8]) -> Option<Tag> {
        (self.path == "/status" && status == 200).then(|| tag_of(body))
    }

    /// Returns whether the client has the body with this tag.
    pub fn has(&self, tag: &Tag) -> bool {
        fields(self.fields).any(|field| {
            field
                .is_some_and(|(name, value)| name == Name::IfNoneMatch && is_in(tag.bytes(), value))
        })
    }

    /// Returns whether this is a message of another node.
    pub fn is_message(&self) -> bool {
        (self.method, self.path) == ("POST", MESSAGES)
    }

    /// Returns whether a body is as it was sent, by the digests in the head. With a key the head has
    /// to have the body's authentication code.
    pub fn is_intact(&self, key: Option<&Key>, body: &[u8]) -> bool {
        let values = |wanted| {
            let all = fields(self.fields).flatten();
            all.filter_map(move |(name, value)| (name == wanted).then_some(value))
        };
        let mut digests = values(Name::ContentDigest).peekable();
        if digests.peek().is_some() {
            let digest = digest_of(body);
            if !digests.all(|value| agrees(value, digest.bytes())) {
                return false;
            }
        }
        let mut codes = values(Name::FailregMac);
        match (key, codes.next(), codes.next()) {
            (None, _, _) => true,
            (Some(key), Some(code), None) => is_same(code, code_of(key, body).bytes()),
            (Some(_), _, _) => false,
        }
    }

    /// Returns the HTTP version of the response.
    pub fn version(&self) -> &'static str {
        match self.is_old {
            true => "HTTP/1.0",
            false => "HTTP/1.1",
        }
    }
}

/// Returns the methods of a path, if the path exists.
pub(crate) fn methods_at(path: &str) -> Option<&'static str> {
    if matches!(path, "/" | "/fail/") {
        return Some("GET");
    }
    let (mut parts, mut count) = ([""; 5], 0);
    for part in path.strip_prefix('/')?.split('/') {
        if part.is_empty() {
            return None;
        }
        *parts.get_mut(count)? = part;
        count += 1;
    }
    match parts[..count] {
        ["fail"] | ["report"] | ["status"] => Some("GET"),
        ["fail", _] => Some("PUT, DELETE"),
        ["spread", _] => Some("PUT, POST"),
        ["load"] | ["gossip"] | ["hello"] | ["grant", _, _, _] | ["shift", _, _, _, _] => {
            Some("POST")
        }
        _ => None,
    }
}

// Returns the method, the target and the version of a line such as `PUT /fail/a HTTP/1.1`.
fn request_line(line: &[u8]) -> Option<(&str, Target<'_>, &str)> {
    let (method, rest) = std::str::from_utf8(line).ok()?.split_once(' ')?;
    let (target, version) = rest.split_once(' ')?;
    Some((method, Target::of(target)?, version))
}

/// The names of fields, as far as they matter.
#[derive(Clone, Copy, Debug, PartialEq, Eq)]
enum Name {
    Authorization,
    ContentDigest,
    ContentLength,
    Expect,
    FailregMac,
    Host,
    IfNoneMatch,
    Origin,
    TransferEncoding,
    Other,
}

const NAMES: [(&[u8], Name); 9] = [
    (b"authorization", Name::Authorization),
    (b"content-digest", Name::ContentDigest),
    (b"content-length", Name::ContentLength),
    (b"expect", Name::Expect),
    (b"failreg-mac", Name::FailregMac),
    (b"host", Name::Host),
    (b"if-none-match", Name::IfNoneMatch),
    (b"origin", Name::Origin),
    (b"transfer-encoding", Name::TransferEncoding),
];

impl Name {
    fn of(name: &[u8]) -> Name {
        let known = NAMES.iter().find(|it| it.0.eq_ignore_ascii_case(name));
        known.map_or(Name::Other, |it| it.1)
    }
}

fn field(line: &[u8]) -> Option<(Name, &[u8])> {
    let colon = line.iter().position(|b| *b == b':')?;
    Some((Name::of(&line[..colon]), trimmed(&line[colon + 1..])))
}

// Returns the fields of these lines: `None` for a line without a colon.
fn fields(lines: &[u8]) -> impl Iterator<Item = Option<(Name, &[u8])>> + Clone {
    let lines = lines.split_inclusive(|b| *b == b'\n');
    lines.map(|line| {
        let line = line.strip_suffix(b"\n").unwrap_or(line);
        field(line.strip_suffix(b"\r").unwrap_or(line))
    })
}

// Returns a 64-bit length.
fn length_of(value: &[u8]) -> Option<u64> {
    let is_number = !value.is_empty() && value.iter().all(u8::is_ascii_digit);
    let digits = std::str::from_utf8(value).ok().filter(|_| is_number)?;
    digits.parse().ok()
}

/// What the fields `Transfer-Encoding` of a head come to.
#[derive(Clone, Copy, Debug, Default, PartialEq, Eq)]
enum Coding {
    #[default]
    None,
    /// Chunks are the last coding.
    Chunks,
    Other,
    /// The last element of the list is empty: another one has to follow.
    Blank,
    Bad,
}

impl Coding {
    fn and(self, element: &[u8]) -> Coding {
        match self {
            // The end of the body would be unknown, or it would be in chunks twice.
            Coding::Chunks | Coding::Bad => Coding::Bad,
            _ if element.eq_ignore_ascii_case(b"chunked") => Coding::Chunks,
            _ if is_token(element) => Coding::Other,
            _ if element.is_empty() => Coding::Blank,
            _ => Coding::Bad,
        }
    }
}

/// The fields of a head.
#[derive(Default)]
struct Fields<'h> {
    length: Option<u64>,
    coding: Coding,
    /// How many codings the body has.
    codings: usize,
    host: Option<&'h [u8]>,
    is_expecting: bool,
    /// How many credentials the request has, and whether one lacks the key.
    credentials: usize,
    lacks_key: bool,
}

impl<'h> Fields<'h> {
    // Reads the fields of a head, one per line.
    fn of(lines: &'h [u8], key: Option<&Key>) -> Result<Fields<'h>, Fault> {
        let mut all = Fields::default();
        for field in fields(lines) {
            let (name, value) = field.ok_or(BAD_FIELD)?;
            all.take(name, value, key)?;
        }
        Ok(all)
    }

    fn take(&mut self, name: Name, value: &'h [u8], key: Option<&Key>) -> Result<(), Fault> {
        match name {
            Name::Authorization => {
                self.credentials += 1;
                self.lacks_key |= !key.is_some_and(|key| key.is_in(value));
            }
            Name::ContentLength => {
                let told = length_of(value).ok_or(BAD_LENGTH)?;
                if self.length.replace(told).is_some_and(|other| other != told) {
                    return Err(BAD_LENGTH);
                }
            }
            Name::TransferEncoding => {
                for coding in elements(value) {
                    self.codings += 1;
                    self.coding = self.coding.and(coding);
                }
            }
            Name::Host if self.host.replace(value).is_some() => return Err(BAD_HOST),
            Name::Expect => {
                let is_known = |it: &[u8]| it.eq_ignore_ascii_case(b"100-continue");
                self.is_expecting |= elements(value).any(is_known);
            }
            Name::ContentDigest
            | Name::FailregMac
            | Name::Host
            | Name::IfNoneMatch
            | Name::Origin
            | Name::Other => {}
        }
        Ok(())
    }

    // Returns how the body is sent. HTTP/1.0 has no chunks, and a tunnel no body.
    fn length(&self, method: &str, is_old: bool) -> Result<Length, Fault> {
        match (self.coding, self.length) {
            (Coding::None, Some(1..)) if method == "CONNECT" => Err(BAD_LENGTH),
            (Coding::None, told) => Ok(Length::Told(told.unwrap_or(0))),
            (Coding::Chunks, None) if !is_old && method != "CONNECT" => Ok(Length::Chunks),
            _ => Err(BAD_CODING),
        }
    }
}

/// Who may send requests to a node that is served at this address.
struct Access<'k> {
    addr: SocketAddr,
    /// With a key it decides about access, rather than the machine's name.
    key: Option<&'k Key>,
}

impl Access<'_> {
    // Rejects a request of somebody without access, or from a page of another host than the
    // requested one. The page is for all who have a key to enter, because it asks for it.
    fn judge(
        &self,
        fields: &Fields<'_>,
        lines: &[u8],
        host: Option<&[u8]>,
        is_page: bool,
    ) -> Result<(), Fault> {
        let has_key = !fields.lacks_key && fields.credentials == 1;
        if self.key.is_some() && !is_page && !has_key {
            return Err(NO_KEY);
        }
        if self.key.is_none() && !host.is_none_or(is_this_machine) {
            return Err(FOREIGN_HOST);
        }
        if !self.is_own_page(lines, host) {
            return Err(FOREIGN_ORIGIN);
        }
        // Only the chunked coding is supported.
        match fields.codings > 1 {
            true => Err(OTHER_CODING),
            false => Ok(()),
        }
    }

    fn is_own_page(&self, lines: &[u8], host: Option<&[u8]>) -> bool {
        let (port, is_keyed) = (self.addr.port(), self.key.is_some());
        let mut origins = fields(lines).flatten();
        origins
            .all(|(name, value)| name != Name::Origin || is_own_page(value, host, port, is_keyed))
    }
}

/// Reads a whole head, whose lines are those of [`Lines`](crate::lines::Lines) without the empty
/// ones, for a node that is served at this address, with this key, if there is one.
pub(crate) fn head_of<'h>(
    bytes: &'h [u8],
    addr: SocketAddr,
    key: Option<&Key>,
) -> Result<Head<'h>, Fault> {
    let end = bytes.iter().position(|b| *b == b'\n').ok_or(BAD_LINE)?;
    let (first, lines) = bytes.split_at(end + 1);
    let first = first.strip_suffix(b"\r\n").ok_or(BAD_LINE)?;
    let (method, target, version) = request_line(first).ok_or(BAD_LINE)?;
    let is_old = version == "HTTP/1.0";
    let fields = Fields::of(lines, key)?;
    if !is_old && fields.host.is_none() {
        return Err(BAD_HOST);
    }
    let length = fields.length(method, is_old)?;
    let host = target.host.map(str::as_bytes).or(fields.host);
    let is_page = (method, target.path) == ("GET", "/");
    Access { addr, key }.judge(&fields, lines, host, is_page)?;
    let head = Head {
        method,
        path: target.path,
        length,
        is_expecting: fields.is_expecting && !is_old,
        fields: lines,
        is_old,
    };
    match head.length {
        Length::Told(told) if told > MAX_BODY as u64 => Err(head.too_long()),
        Length::Told(_) | Length::Chunks => Ok(head),
    }
}

#[cfg(test)]
mod tests {
    use super::*;
    use crate::lines::Lines;
    use std::net::Ipv4Addr;

    const ADDR: SocketAddr = SocketAddr::new(std::net::IpAddr::V4(Ipv4Addr::LOCALHOST), 7070);

    /// A head, without the bytes in which it lies.
    #[derive(Debug, PartialEq)]
    struct Read {
        method: String,
        path: String,
        length: Length,
        is_expecting: bool,
        is_old: bool,
    }

    // A head of HTTP/1.1 with these fields after its Host.
    fn read_line(line: &str, fields: &str) -> Result<Read, u16> {
        read(&format!("{line}\r\nHost: localhost:7070\r\n{fields}"))
    }

    fn read(text: &str) -> Result<Read, u16> {
        read_with(text, None)
    }

    fn read_with(text: &str, key: Option<&Key>) -> Result<Read, u16> {
        let status = |fault| match fault {
            Fault::Reply(status, _) => status,
            Fault::OtherMethod(_) => 405,
            Fault::Gone => 0,
        };
        let mut lines = Lines::of_head();
        lines
            .take(format!("{text}\r\n").as_bytes())
            .map_err(status)?;
        assert!(lines.is_over(), "{text:?}");
        let head = head_of(text.as_bytes(), ADDR, key).map_err(status)?;
        Ok(Read {
            method: head.method.into(),
            path: head.path.into(),
            length: head.length,
            is_expecting: head.is_expecting,
            is_old: head.is_old,
        })
    }

    #[test]
    fn who_has_no_key_is_told_that() {
        let key = Key::of(&[0xab; 32]).unwrap();
        let has = format!("Authorization: Bearer {}\r\n", "ab".repeat(32));
        let near = format!("Authorization: Bearer {}ac\r\n", "ab".repeat(31));
        let twice = format!("{has}{has}");
        let read = |line: &str, fields: &str| {
            let text = format!("{line} HTTP/1.1\r\n{fields}");
            read_with(&text, Some(&key)).map(|head| head.path)
        };
        for host in ["localhost", "10.0.0.2:7070", "failreg.example.org"] {
            let fields = format!("Host: {host}\r\n{has}");
            assert_eq!(read("GET /fail", &fields), Ok("/fail".into()), "{host}");
        }
        for credentials in ["", &near, &twice, "Authorization: Bearer \r\n"] {
            for (line, fields) in [
                ("GET /fail", "Host: localhost\r\n"),
                ("GET /nope", "Host: example.org\r\n"),
                ("POST /load", "Host: a\r\nOrigin: http://example.org\r\n"),
                ("POST /load", "Host: a\r\nContent-Length: 67108865\r\n"),
                (
                    "POST /load",
                    "Host: a\r\nTransfer-Encoding: gzip, chunked\r\n",
                ),
                ("POST http://a/load", "Host: a\r\n"),
            ] {
                for fields in [
                    format!("{fields}{credentials}"),
                    format!("{credentials}{fields}"),
                ] {
                    assert_eq!(read(line, &fields), Err(401), "{line} {fields}");
                }
            }
        }
        // Only what is no request is another error.
        for fields in [
            "",
            "Host: a\r\nHost: a\r\n",
            "Host: a\r\nContent-Length: ?\r\n",
        ] {
            assert_eq!(read("POST /load", fields), Err(400), "{fields}");
        }
        for scheme in ["bearer ", "BEARER ", "Bearer   "] {
            let fields = format!("Host: a\r\n{}", has.replace("Bearer ", scheme));
            assert!(read("GET /fail", &fields).is_ok(), "{fields}");
        }
        // The page, which asks for the key, needs none; other paths and methods do.
        assert_eq!(read("GET /", "Host: a\r\n"), Ok("/".into()));
        let origin = "Host: a\r\nOrigin: http://example.org\r\n";
        assert_eq!(read("GET /", origin), Err(403));
        for line in ["GET //", "POST /", "HEAD /"] {
            assert_eq!(read(line, "Host: a\r\n"), Err(401), "{line}");
        }
        // With the key the same rules hold, except for the requested name.
        for (origin, may) in [
            ("http://a:7070", true),
            ("https://a:7070", true),
            ("http://127.0.0.1:7070", true),
            ("http://a:7071", false),
            ("http://a", false),
            ("http://a:70700", false),
            ("ftp://a:7070", false),
            ("null", false),
        ] {
            for fields in [
                format!("Host: a:7070\r\nOrigin: {origin}\r\n{has}"),
                format!("{has}Origin: {origin}\r\nHost: a:7070\r\n"),
            ] {
                assert_eq!(read("POST /load", &fields).is_ok(), may, "{origin}");
            }
        }
        let origins = format!("Host: a\r\nOrigin: http://a\r\nOrigin: http://b\r\n{has}");
        assert_eq!(read("POST /load", &origins), Err(403));
        assert_eq!(read("GET /fail", &has), Err(400), "no Host");
        // Without a key nobody needs one.
        assert!(read_line("GET /fail HTTP/1.1", &near).is_ok());
    }

    #[test]
    fn a_head_is_read() {
        let head = read_line(
            "PUT /fail/a?x=1 HTTP/1.1",
            "Content-Length:  12\t\r\nExpect: 100-Continue\r\nX: \r\n",
        );
        let wanted = Read {
            method: "PUT".into(),
            path: "/fail/a".into(),
            length: Length::Told(12),
            is_expecting: true,
            is_old: false,
        };
        assert_eq!(head, Ok(wanted));
        // HTTP/1.0 has no Host and no interim responses, and no length means no body.
        let old = read("GET / HTTP/1.0\r\nExpect: 100-continue\r\n");
        let old = old.map(|head| (head.length, head.is_old, head.is_expecting));
        assert_eq!(old, Ok((Length::Told(0), true, false)));
        let longest = format!("Content-Length: {MAX_BODY}\r\n");
        let length = read_line("POST /load HTTP/1.1", &longest).map(|head| head.length);
        assert_eq!(length, Ok(Length::Told(MAX_BODY as u64)));
        let chunks = read_line("POST /load HTTP/1.1", "transfer-encoding: Chunked\r\n");
        assert_eq!(chunks.map(|head| head.length), Ok(Length::Chunks));
        for lengths in [
            "Content-Length: 3\r\nContent-Length: 3\r\n",
            "content-length: 03\r\n",
        ] {
            let length = read_line("POST /load HTTP/1.1", lengths).map(|head| head.length);
            assert_eq!(length, Ok(Length::Told(3)), "{lengths}");
        }
        for (expectation, is_expecting) in [
            ("a miracle", false),
            ("", false),
            ("100-continued", false),
            ("more, 100-CONTINUE", true),
        ] {
            let fields = format!("Expect: {expectation}\r\n");
            let head = read_line("POST /load HTTP/1.1", &fields);
            assert_eq!(
                head.map(|head| head.is_expecting),
                Ok(is_expecting),
                "{fields}"
            );
        }
    }

    #[test]
    fn the_host_of_an_absolute_url_counts() {
        let read = |url: &str, fields: &str| {
            let head = read(&format!("PUT {url} HTTP/1.1\r\n{fields}"));
            head.map(|head| head.path)
        };
        let foreign = "Host: example.org\r\n";
        assert_eq!(read("http://[::1]/fail/p?x", foreign), Ok("/fail/p".into()));
        assert_eq!(
            read("http://example.org/fail/p", "Host: localhost\r\n"),
            Err(403)
        );
        assert_eq!(
            read("http://u@localhost/fail/p", "Host: localhost\r\n"),
            Err(403)
        );
        assert_eq!(read("http://localhost/fail/p", ""), Err(400));
        for (origin, status) in [
            ("http://localhost", None),
            ("http://example.org", Some(403)),
        ] {
            let fields = format!("{foreign}Origin: {origin}\r\n");
            assert_eq!(
                read("http://localhost/fail/p", &fields).err(),
                status,
                "{origin}"
            );
        }
    }

    #[test]
    fn what_is_no_head_is_refused() {
        for line in [
            "",
            "GET",
            "GET /",
            "GET / HTTP/2",
            "GET / HTTP/1.1 ",
            "GET  / HTTP/1.1",
            " GET / HTTP/1.1",
            "GET x/y HTTP/1.1",
            "GET http:/fail HTTP/1.1",
            "G(T / HTTP/1.1",
            "GET /a<b HTTP/1.1",
            "GET /\0 HTTP/1.1",
            "GET /\r HTTP/1.1",
        ] {
            assert_eq!(read_line(line, ""), Err(400), "{line:?}");
        }
        for fields in [
            " X: y\r\n",
            "X : y\r\n",
            "X\r\n",
            ": y\r\n",
            "X: y\rz\r\n",
            "X: \0\r\n",
            "Content-Length: +1\r\n",
            "Content-Length: -1\r\n",
            "Content-Length:\r\n",
            "Content-Length: 1, 1\r\n",
            "Content-Length: 0x1\r\n",
            "Content-Length: 1\r\ncontent-length: 2\r\n",
            "Content-Length: \x0c1\r\n",
            "Content-Length: \u{a0}1\r\n",
            "Host: localhost\r\n",
        ] {
            assert_eq!(read_line("GET / HTTP/1.1", fields), Err(400), "{fields:?}");
        }
        assert_eq!(read("GET / HTTP/1.1\r\n"), Err(400), "no Host");
        assert_eq!(
            read("CONNECT a:1 HTTP/1.0\r\nContent-Length: 1\r\n"),
            Err(400)
        );
    }

    #[test]
    fn what_is_not_taken_has_its_status() {
        for (fields, status) in [
            ("Transfer-Encoding: gzip, chunked\r\n", 501),
            (
                "Transfer-Encoding: gzip\r\nTransfer-Encoding: chunked\r\n",
                501,
            ),
            ("Transfer-Encoding: , chunked\r\n", 501),
            ("Transfer-Encoding: gzip\r\n", 400),
            ("Transfer-Encoding: chunked, chunked\r\n", 400),
            ("Transfer-Encoding: gzip, chunked, chunked\r\n", 400),
            ("Transfer-Encoding: chunked,\r\n", 400),
            ("Transfer-Encoding: chunked;q=1\r\n", 400),
            ("Transfer-Encoding: \x0cchunked\r\n", 400),
            ("Transfer-Encoding: \u{a0}chunked\r\n", 400),
            ("Transfer-Encoding: \r\n", 400),
            ("Transfer-Encoding: chunked\r\nContent-Length: 1\r\n", 400),
            ("Content-Length: 67108865\r\n", 413),
            ("Content-Length: 18446744073709551615\r\n", 413),
            ("Content-Length: 18446744073709551616\r\n", 400),
            ("Origin: http://example.org\r\n", 403),
            ("Origin: null\r\n", 403),
            ("Origin: http://127.0.0.1:7071\r\n", 403),
            ("Origin: https://127.0.0.1:7070\r\n", 403),
            ("Origin: http://127.0.0.1:70700\r\n", 403),
            ("Origin: http://localhost\r\n", 403),
            ("Origin: https://localhost:7070\r\n", 403),
        ] {
            let answered = read_line("POST /load HTTP/1.1", fields);
            assert_eq!(answered, Err(status), "{fields:?}");
        }
        for origin in ["127.0.0.1:7070", "localhost:7070"] {
            let fields = format!("Origin: http://{origin}\r\n");
            assert!(
                read_line("GET /report HTTP/1.1", &fields).is_ok(),
                "{origin}"
            );
        }
        let old = read("PUT /fail/a HTTP/1.0\r\nTransfer-Encoding: chunked\r\n");
        assert_eq!(old, Err(400), "HTTP/1.0 has no chunks");
    }

    #[test]
    fn a_path_has_methods() {
        let long = "Content-Length: 67108865\r\n";
        for (line, status) in [
            ("GET /fail", 413),
            ("POST /fail", 405),
            ("PUT /fail/a", 413),
            ("DELETE /fail/a", 413),
            ("GET /fail/a", 405),
            ("POST /shift/a/0/1/1", 413),
            ("POST /grant/a/0/1", 413),
            ("POST /grant/a/0", 404),
            ("POST /gossip", 413),
            ("GET /report", 413),
            ("GET /status", 413),
            ("POST /status", 405),
            ("PUT /spread/a", 413),
            ("POST /spread/a", 413),
            ("DELETE /spread/a", 405),
            ("PUT /spread/", 404),
            ("PUT /fail/", 405),
            ("GET /fail/", 413),
            ("GET /fail//", 404),
            ("GET /", 413),
            ("POST /", 405),
            ("GET //", 404),
            ("PUT /fail/a/b", 404),
        ] {
            let answered = read_line(&format!("{line} HTTP/1.1"), long);
            assert_eq!(answered, Err(status), "{line:?}");
        }
    }
}
