//! Bodies of requests, as far as their routes need them.

use crate::heads::Head;
use crate::memory::extend;
use std::collections::TryReserveError;

/// The longest action string and FAILPOINTS string, in bytes.
const MAX_ACTIONS: usize = 1_024;
const MAX_SETTING: usize = 65_536;

/// The most bytes of a character but the last.
const MOST_PENDING: usize = 3;

/// More digits than a node's number has.
const MOST_DIGITS: usize = 4;

/// What a route needs of a body.
#[derive(Clone, Copy, Debug, PartialEq, Eq)]
pub enum Needed {
    /// Nothing.
    Nothing,
    /// A text of at most this many bytes, or that it is longer, or no text.
    Text(usize),
    /// A number of a node.
    Number,
    /// All of it.
    Whole,
}

impl Needed {
    /// Returns what the route of a request needs.
    pub fn of(head: &Head<'_>) -> Needed {
        let mut parts = head.path.split('/').skip(1);
        match (head.method, parts.next(), parts.next()) {
            ("PUT", Some("fail" | "spread"), Some(_)) => Needed::Text(MAX_ACTIONS),
            ("POST", Some("load"), None) => Needed::Text(MAX_SETTING),
            ("POST", Some("gossip"), None) => Needed::Whole,
            ("POST", Some("hello"), None) => Needed::Number,
            _ => Needed::Nothing,
        }
    }
}

/// A body, as far as it has arrived: how long it is, and what is needed of it.
pub struct Body {
    needed: Needed,
    kept: Vec<u8>,
    length: usize,
    text: TextCheck,
}

impl Body {
    pub fn new(needed: Needed) -> Body {
        Body {
            needed,
            kept: Vec::new(),
            length: 0,
            text: TextCheck::default(),
        }
    }

    /// Returns how many bytes have arrived.
    pub fn len(&self) -> usize {
        self.length
    }

    /// Adds bytes.
    pub fn take(&mut self, bytes: &[u8]) -> Result<(), TryReserveError> {
        match self.needed {
            Needed::Nothing => {}
            Needed::Text(most) => {
                self.text.take(bytes);
                // One byte more says that the text is too long, and three end its last character.
                let left = most + 1 + MOST_PENDING - self.kept.len();
                extend(&mut self.kept, first(bytes, left))?;
            }
            Needed::Number => self.take_number(bytes)?,
            Needed::Whole => extend(&mut self.kept, bytes)?,
        }
        self.length += bytes.len();
        Ok(())
    }

    // Adds the digits of a number, without the zeros before it.
    fn take_number(&mut self, bytes: &[u8]) -> Result<(), TryReserveError> {
        if bytes.is_empty() {
            return Ok(());
        }
        let is_number = |kept: &[u8]| !kept.is_empty() && kept != b"0";
        let bytes = match is_number(&self.kept) {
            true => bytes,
            false => {
                let zeros = bytes.iter().take_while(|byte| **byte == b'0').count();
                self.kept.clear();
                match zeros == bytes.len() {
                    true => first(bytes, 1),
                    false => &bytes[zeros..],
                }
            }
        };
        let left = MOST_DIGITS - self.kept.len();
        extend(&mut self.kept, first(bytes, left))
    }

    /// Returns bytes that the node handles as it would handle the whole body.
    pub fn into_bytes(mut self) -> Vec<u8> {
        match self.needed {
            Needed::Text(_) if !self.text.is_text() => {
                // It is empty if no byte came, which is a text.
                self.kept.truncate(1);
                self.kept.fill(0xff);
            }
            Needed::Text(_) => {
                let text = std::str::from_utf8(&self.kept);
                let whole = text.map_or_else(|error| error.valid_up_to(), str::len);
                self.kept.truncate(whole);
            }
            Needed::Nothing | Needed::Number | Needed::Whole => {}
        }
        self.kept
    }
}

fn first(bytes: &[u8], most: usize) -> &[u8] {
    &bytes[..most.min(bytes.len())]
}

/// Whether bytes are UTF-8, in whatever pieces they come.
#[derive(Clone, Copy, Debug)]
pub struct TextCheck {
    is_valid: bool,
    /// The start of a character whose end hasn't arrived.
    pending: [u8; MOST_PENDING + 1],
    length: usize,
}

impl Default for TextCheck {
    fn default() -> TextCheck {
        TextCheck {
            is_valid: true,
            pending: [0; MOST_PENDING + 1],
            length: 0,
        }
    }
}

impl TextCheck {
    pub fn is_text(&self) -> bool {
        self.is_valid && self.length == 0
    }

    pub fn take(&mut self, mut bytes: &[u8]) {
        while self.is_valid && self.length > 0 {
            let Some((first, rest)) = bytes.split_first() else {
                return;
            };
            self.pending[self.length] = *first;
            self.length += 1;
            bytes = rest;
            self.judge_pending();
        }
        if let Err(error) = std::str::from_utf8(bytes) {
            let rest = &bytes[error.valid_up_to()..];
            self.is_valid &= error.error_len().is_none();
            if self.is_valid {
                self.pending[..rest.len()].copy_from_slice(rest);
                self.length = rest.len();
            }
        }
    }

    // The bytes that are pending are the start of a character, a whole one, or none.
    fn judge_pending(&mut self) {
        match std::str::from_utf8(&self.pending[..self.length]) {
            Ok(_) => self.length = 0,
            Err(error) => self.is_valid = error.error_len().is_none(),
        }
    }
}

#[cfg(test)]
mod tests {
    use super::*;

    // What is kept of a body that comes in pieces of this size.
    fn kept(needed: Needed, bytes: &[u8], piece: usize) -> Vec<u8> {
        let mut body = Body::new(needed);
        for part in bytes.chunks(piece) {
            body.take(part).unwrap();
        }
        assert_eq!(body.len(), bytes.len());
        body.into_bytes()
    }

    #[test]
    fn a_text_is_kept_as_far_as_it_may_be_long() {
        for (text, most, wanted) in [
            ("", 4, ""),
            ("abcd", 4, "abcd"),
            ("abcdefgh", 4, "abcdefgh"),
            ("abcdefghi", 4, "abcdefgh"),
            ("abcdef\u{20ac}", 4, "abcdef"),
            ("abcdefg\u{e9}", 4, "abcdefg"),
            ("abcd\u{1f680}x", 4, "abcd\u{1f680}"),
        ] {
            for piece in 1..=text.len().max(1) {
                let kept = kept(Needed::Text(most), text.as_bytes(), piece);
                assert_eq!(kept, wanted.as_bytes(), "{text} by {piece}");
                assert_eq!(kept.len() > most, text.len() > most);
            }
        }
    }

    #[test]
    fn what_is_no_text_is_none_wherever_the_fault_lies() {
        let long = "\u{20ac}".repeat(10);
        for bad in [
            &b"\xff"[..],
            b"\xe2\x82",
            b"\xe2\x82x",
            b"\xed\xa0\x80",
            b"\xf5\x80\x80\x80",
            b"abcdefghijk\xf0\x9f\x9a",
            b"abcdefghijk\x80",
            &long.as_bytes()[..29],
            &long.as_bytes()[1..],
        ] {
            for piece in 1..=bad.len() {
                assert_eq!(
                    kept(Needed::Text(4), bad, piece),
                    b"\xff",
                    "{bad:?} by {piece}"
                );
            }
        }
    }

    #[test]
    fn a_number_is_kept_without_its_zeros() {
        for (text, wanted) in [
            ("", ""),
            ("0", "0"),
            ("000000", "0"),
            ("2", "2"),
            ("0000000031", "31"),
            ("1000", "1000"),
            ("12345678", "1234"),
            ("00x", "x"),
            ("+2", "+2"),
            ("20 ", "20 "),
        ] {
            for piece in 1..=text.len().max(1) {
                let kept = kept(Needed::Number, text.as_bytes(), piece);
                assert_eq!(kept, wanted.as_bytes(), "{text} by {piece}");
            }
        }
        assert!(kept(Needed::Nothing, b"abc", 2).is_empty());
        assert_eq!(kept(Needed::Whole, b"abc", 2), b"abc");
    }
}
