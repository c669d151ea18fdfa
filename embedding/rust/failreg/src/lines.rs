//! Lines of heads and of trailers (RFC 9112, sections 2.2 to 5).

use crate::bodies::TextCheck;
use crate::heads::Fault;

/// The most fields of a head, and of a trailer.
const MAX_FIELDS: usize = 100;

const BAD_FIRST: Fault = Fault::Reply(400, "bad request line: send it as GET /fail HTTP/1.1");
const BAD_FIELD: Fault = Fault::Reply(400, "bad field: send each as Name: value, ended by CR LF");
const BARE_NEWLINE: Fault = Fault::Reply(400, "bad newline: end each line by CR LF");
const MANY_FIELDS: Fault = Fault::Reply(431, "too many fields: send at most 100");

/// The most bytes of a URL's scheme, and the most colons in a row of an IPv6 address.
const MAX_SCHEME: usize = 64;
const MAX_COLONS: usize = 8;

/// How a first line ends, without its last digit.
const VERSION: &[u8] = b"HTTP/1.";

/// What the next byte belongs to.
#[derive(Clone, Copy, Debug, PartialEq, Eq)]
enum Place {
    /// An empty line before the first one, or the method.
    Before,
    BeforeCr,
    Method,
    /// The target, and whether it has a byte.
    Target(bool),
    /// The version, of which this many bytes were read.
    Version(usize),
    VersionEnd,
    /// A newline, which a CR is before.
    Newline,
    Field,
    Name,
    Value,
    LastNewline,
    End,
}

/// The lines of a head or of a trailer, as far as they have arrived. They are read a byte at a time,
/// so that a wrong one is rejected at once, and none is read twice.
#[derive(Clone, Copy, Debug)]
pub struct Lines {
    place: Place,
    fields: usize,
    /// Whether a newline has no CR before it. The sender gets the error once all has arrived.
    has_bare_newline: bool,
    /// Whether the target is UTF-8.
    target: TextCheck,
}

impl Lines {
    /// Returns the lines of a head before its first byte.
    pub fn of_head() -> Lines {
        Lines::at(Place::Before)
    }

    /// Returns the lines of a trailer before its first byte.
    pub fn of_trailer() -> Lines {
        Lines::at(Place::Field)
    }

    fn at(place: Place) -> Lines {
        Lines {
            place,
            fields: 0,
            has_bare_newline: false,
            target: TextCheck::default(),
        }
    }

    /// Returns whether all has arrived.
    pub fn is_over(&self) -> bool {
        self.place == Place::End
    }

    /// Takes bytes, up to the last one that belongs to the lines, and returns how many it took.
    pub fn take(&mut self, bytes: &[u8]) -> Result<usize, Fault> {
        for (at, byte) in bytes.iter().enumerate() {
            self.place = self.after(*byte)?;
            match (self.is_over(), self.has_bare_newline) {
                (true, true) => return Err(BARE_NEWLINE),
                (true, false) => return Ok(at + 1),
                (false, _) => {}
            }
        }
        Ok(bytes.len())
    }

    fn after(&mut self, byte: u8) -> Result<Place, Fault> {
        match self.place {
            Place::Before
            | Place::BeforeCr
            | Place::Method
            | Place::Target(_)
            | Place::Version(_)
            | Place::VersionEnd => self.after_first(byte).ok_or(BAD_FIRST),
            Place::Newline => (byte == b'\n').then_some(Place::Field).ok_or(BAD_FIELD),
            Place::Field | Place::Name | Place::Value => {
                let place = self.after_field(byte).ok_or(BAD_FIELD)?;
                match self.fields > MAX_FIELDS {
                    true => Err(MANY_FIELDS),
                    false => Ok(place),
                }
            }
            Place::LastNewline => (byte == b'\n').then_some(Place::End).ok_or(BAD_FIELD),
            Place::End => Ok(Place::End),
        }
    }

    // Returns what follows a byte of the first line, or of empty lines before it.
    fn after_first(&mut self, byte: u8) -> Option<Place> {
        match (self.place, byte) {
            (Place::Before, b'\r') => Some(Place::BeforeCr),
            (Place::Before, b'\n') => Some(self.after_bare_newline(Place::Before)),
            (Place::BeforeCr, b'\n') => Some(Place::Before),
            (Place::Before | Place::Method, _) if is_token_byte(byte) => Some(Place::Method),
            (Place::Method, b' ') => Some(Place::Target(false)),
            (Place::Target(true), b' ') if self.target.is_text() => Some(Place::Version(0)),
            (Place::Target(_), b'!'..=b'~' | 0x80..) => {
                self.target.take(&[byte]);
                Some(Place::Target(true))
            }
            (Place::Version(read), _) if VERSION.get(read) == Some(&byte) => {
                Some(Place::Version(read + 1))
            }
            (Place::Version(read), b'0' | b'1') if read == VERSION.len() => Some(Place::VersionEnd),
            (Place::VersionEnd, b'\r') => Some(Place::Newline),
            (Place::VersionEnd, b'\n') => Some(self.after_bare_newline(Place::Field)),
            _ => None,
        }
    }

    // Returns what follows a byte of a field, or of the line after the last one.
    fn after_field(&mut self, byte: u8) -> Option<Place> {
        match (self.place, byte) {
            (Place::Field, b'\r') => Some(Place::LastNewline),
            (Place::Field, b'\n') => Some(self.after_bare_newline(Place::End)),
            (Place::Field | Place::Name, _) if is_token_byte(byte) => Some(Place::Name),
            (Place::Name, b':') => Some(Place::Value),
            (Place::Value, _) if is_text_byte(byte) => Some(Place::Value),
            (Place::Value, b'\r') => {
                self.fields += 1;
                Some(Place::Newline)
            }
            (Place::Value, b'\n') => {
                self.fields += 1;
                Some(self.after_bare_newline(Place::Field))
            }
            _ => None,
        }
    }

    fn after_bare_newline(&mut self, place: Place) -> Place {
        self.has_bare_newline = true;
        place
    }
}

fn is_token_byte(byte: u8) -> bool {
    byte.is_ascii_alphanumeric() || b"!#$%&'*+-.^_`|~".contains(&byte)
}

/// Returns whether a byte may be in the value of a field.
pub fn is_text_byte(byte: u8) -> bool {
    matches!(byte, b'\t' | b' '..=b'~' | 0x80..)
}

/// Returns whether bytes are a token.
pub fn is_token(bytes: &[u8]) -> bool {
    !bytes.is_empty() && bytes.iter().all(|byte| is_token_byte(*byte))
}

/// Returns bytes without the spaces and tabs at both ends.
pub fn trimmed(mut bytes: &[u8]) -> &[u8] {
    while let [b' ' | b'\t', rest @ ..] | [rest @ .., b' ' | b'\t'] = bytes {
        bytes = rest;
    }
    bytes
}

/// Returns the elements of a value that is a list.
pub fn elements(value: &[u8]) -> impl Iterator<Item = &[u8]> {
    value.split(|byte| *byte == b',').map(trimmed)
}

/// What a request asks for.
#[derive(Debug, PartialEq, Eq)]
pub struct Target<'h> {
    /// The path, without a `?` and what follows it. A target that is no path has none of this node's.
    pub path: &'h str,
    /// The host of an absolute URL, which counts in place of the `Host` (section 3.2.2).
    pub host: Option<&'h str>,
}

impl Target<'_> {
    /// Returns a target, if it is one: a path, an absolute URL, or the name of a host, as for CONNECT.
    pub fn of(text: &str) -> Option<Target<'_>> {
        if text.starts_with('/') {
            let path = path_of(text)?;
            return Some(Target { path, host: None });
        }
        let Some((_, rest)) = text.split_once("://").filter(|(it, _)| is_scheme(it)) else {
            let named = Target {
                path: text,
                host: None,
            };
            return is_authority(text).then_some(named);
        };
        let end = rest.find(['/', '?', '#']).unwrap_or(rest.len());
        let (host, rest) = rest.split_at(end);
        let path = match path_of(rest)? {
            "" => "/",
            path => path,
        };
        is_authority(host).then_some(Target {
            path,
            host: Some(host),
        })
    }
}

// Returns the path that a text begins with, which a query and a fragment may follow. Each has only
// bytes that clients send in it.
fn path_of(text: &str) -> Option<&str> {
    let text = text.split('#').next()?;
    let (path, query) = text.split_once('?').unwrap_or((text, ""));
    let are_fit = !path.contains(['<', '>', '`']) && !query.contains(['<', '>', '"']);
    are_fit.then_some(path)
}

fn is_scheme(text: &str) -> bool {
    let is_part = |byte: u8| byte.is_ascii_alphanumeric() || b"+-.~".contains(&byte);
    text.len() <= MAX_SCHEME && text.bytes().all(is_part)
}

// Returns whether a text is a host, with or without a user and a port. Whether the node has this host
// is judged later: here it is only told from other targets.
fn is_authority(text: &str) -> bool {
    let is_part =
        |byte: u8| byte.is_ascii_alphanumeric() || b"!$%&'()*+,-.:;=@[]_~".contains(&byte);
    let (mut opened, mut closed, mut colons, mut has_percent) = (false, false, 0, false);
    for byte in text.bytes() {
        match byte {
            b'%' => has_percent = true,
            b':' => colons += 1,
            b'[' if has_percent || opened => return false,
            b'[' => opened = true,
            b']' if !opened || closed => return false,
            // An address in brackets and a user have colons of their own.
            b']' | b'@' => {
                closed |= byte == b']';
                (colons, has_percent) = (0, false);
            }
            _ if is_part(byte) => {}
            _ => return false,
        }
        if colons > MAX_COLONS {
            return false;
        }
    }
    let is_whole = opened == closed && colons <= 1 && !has_percent;
    is_whole && !text.is_empty() && !text.ends_with('@')
}

#[cfg(test)]
mod tests {
    use super::*;

    // How many bytes are taken of these, and whether that is all, in pieces of this size.
    fn taken(mut lines: Lines, text: &[u8], piece: usize) -> Result<(usize, bool), u16> {
        let mut all = 0;
        for part in text.chunks(piece) {
            let taken = lines.take(part).map_err(|fault| match fault {
                Fault::Reply(status, _) => status,
                Fault::OtherMethod(_) | Fault::Gone => 0,
            })?;
            all += taken;
            if lines.is_over() {
                break;
            }
        }
        Ok((all, lines.is_over()))
    }

    #[test]
    fn a_head_ends_at_its_empty_line_in_whatever_pieces_it_comes() {
        for text in [
            "GET / HTTP/1.1\r\nHost: a\r\n\r\n",
            "\r\n\r\nGET http://a/ HTTP/1.0\r\n\r\n",
            "G!T * HTTP/1.1\r\nX:\r\ny: \t\u{e9} \r\n\r\n",
        ] {
            let more = format!("{text}GET");
            for piece in 1..=more.len() {
                let all = taken(Lines::of_head(), more.as_bytes(), piece);
                assert_eq!(all, Ok((text.len(), true)), "{text:?} by {piece}");
            }
            for end in 0..text.len() {
                let part = taken(Lines::of_head(), &text.as_bytes()[..end], 3);
                assert_eq!(part, Ok((end, false)), "{text:?} up to {end}");
            }
        }
    }

    #[test]
    fn a_wrong_byte_is_rejected_at_once() {
        for bad in [
            " ",
            "\0",
            "\r\r",
            "(",
            "GET\t",
            "GET  ",
            "GET /\u{e9}\t",
            "GET /\t",
            "GET /\r",
            "GET / HTTP/2",
            "GET / HTTP/1.2",
            "GET / HTTP/1.1 ",
            "GET / HTTP/1.1\r\r",
            "GET / HTTP/1.1\r\n ",
            "GET / HTTP/1.1\r\n:",
            "GET / HTTP/1.1\r\nX ",
            "GET / HTTP/1.1\r\nX\r",
            "GET / HTTP/1.1\r\nX: \0",
            "GET / HTTP/1.1\r\nX: a\rb",
            "GET / HTTP/1.1\r\nX: a\r\n\rb",
        ] {
            let all_but_one = &bad.as_bytes()[..bad.len() - 1];
            assert!(taken(Lines::of_head(), all_but_one, 1).is_ok(), "{bad:?}");
            assert_eq!(
                taken(Lines::of_head(), bad.as_bytes(), 1),
                Err(400),
                "{bad:?}"
            );
        }
        for bare in [
            "\nGET / HTTP/1.1\r\n\r\n",
            "GET / HTTP/1.1\n\r\n",
            "GET / HTTP/1.1\r\n\n",
        ] {
            let part = &bare.as_bytes()[..bare.len() - 1];
            assert!(taken(Lines::of_head(), part, 1).is_ok(), "{bare:?}");
            assert_eq!(
                taken(Lines::of_head(), bare.as_bytes(), 1),
                Err(400),
                "{bare:?}"
            );
        }
    }

    #[test]
    fn a_trailer_has_fields_alone() {
        let many = |count| format!("{}\r\n", "X: y\r\n".repeat(count));
        assert_eq!(taken(Lines::of_trailer(), b"\r\n", 1), Ok((2, true)));
        let most = many(MAX_FIELDS);
        assert_eq!(
            taken(Lines::of_trailer(), most.as_bytes(), 7),
            Ok((most.len(), true))
        );
        let more = many(MAX_FIELDS + 1);
        assert_eq!(taken(Lines::of_trailer(), more.as_bytes(), 7), Err(431));
        assert_eq!(taken(Lines::of_trailer(), b"X\r\n\r\n", 1), Err(400));
    }

    #[test]
    fn a_target_has_a_path() {
        for (text, path, host) in [
            ("/", "/", None),
            ("/fail?x?y#z", "/fail", None),
            ("/a\"{}|\\^\u{e9}", "/a\"{}|\\^\u{e9}", None),
            ("/a?`", "/a", None),
            ("http://a/fail?x", "/fail", Some("a")),
            ("HTTPS://u:p@[::1]:80#f", "/", Some("u:p@[::1]:80")),
            ("x+y-1.z://a:1?q", "/", Some("a:1")),
            ("*", "*", None),
            ("fail", "fail", None),
            ("a:80", "a:80", None),
            ("http:", "http:", None),
        ] {
            assert_eq!(Target::of(text), Some(Target { path, host }), "{text}");
        }
        for text in [
            "",
            "?x",
            "#x",
            "fail/p",
            "a:b:c",
            "a@",
            "a]",
            "[::1",
            "a]b[",
            "[a%b]c%d",
            "1:2:3:4:5:6:7:8:9:10@a",
            "a%20b",
            "http:/fail",
            "http://",
            "http:///fail",
            "http://?x",
            "a_b://a/fail",
            "/a<b",
            "/a`b",
            "/?\"",
            "\u{e9}",
        ] {
            assert_eq!(Target::of(text), None, "{text}");
        }
    }

    #[test]
    fn values_are_trimmed_of_spaces_and_tabs() {
        for (value, wanted) in [
            (" \ta b\t ", "a b"),
            ("\t", ""),
            ("\x0ca", "\x0ca"),
            ("", ""),
        ] {
            assert_eq!(trimmed(value.as_bytes()), wanted.as_bytes());
        }
        assert!(elements(b"a ,, b").eq([&b"a"[..], b"", b"b"]));
    }
}
