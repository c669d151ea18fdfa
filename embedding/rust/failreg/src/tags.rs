//! Tags of bodies (`ETag`), so that a client isn't sent a body that it has.

use crate::memory::Fixed;
use crate::sha256::sha256;
use std::fmt::Write;

/// A tag: a SHA-256 in hex digits, between quotes.
pub(crate) type Tag = Fixed<66>;

/// Returns the tag of a body.
pub(crate) fn tag_of(body: &[u8]) -> Tag {
    let mut tag = Tag::new();
    // It has room for all of it.
    let _ = write!(tag, "\"");
    for byte in sha256(body) {
        let _ = write!(tag, "{byte:02x}");
    }
    let _ = write!(tag, "\"");
    tag
}

/// Returns whether a value of `If-None-Match` contains this tag.
pub(crate) fn is_in(tag: &[u8], list: &[u8]) -> bool {
    list.split(|byte| matches!(byte, b',' | b' ' | b'\t'))
        .any(|word| stands_for(word, tag))
}

// Returns whether a word of a list is this tag, its weak form, or `*`.
fn stands_for(word: &[u8], tag: &[u8]) -> bool {
    word == tag || word.strip_prefix(b"W/") == Some(tag) || word == b"*"
}

#[cfg(test)]
mod tests {
    use super::*;

    #[test]
    fn a_tag_is_that_of_its_body() {
        let digits = "ba7816bf8f01cfea414140de5dae2223b00361a396177a9cb410ff61f20015ad";
        assert_eq!(tag_of(b"abc").bytes(), format!("\"{digits}\"").as_bytes());
        assert_ne!(tag_of(b"abd").bytes(), tag_of(b"abc").bytes());
    }

    #[test]
    fn a_list_has_a_tag_as_a_word() {
        for list in [
            "\"a\"",
            "W/\"a\"",
            "*",
            "\"b\", \"a\"",
            "\"b\",\"a\"",
            "\"b\"\t\"a\"",
            " ,\"a\",, ",
            "\"b\",*",
            "W/\"b\", W/\"a\"",
        ] {
            assert!(is_in(b"\"a\"", list.as_bytes()), "{list}");
        }
        for list in [
            "",
            "a",
            "\"A\"",
            "\"b\"",
            "\"a",
            "a\"",
            "\"\"",
            "w/\"a\"",
            "W/W/\"a\"",
            "W/a",
            "W/*",
            "**",
            "\"a\"x",
            "\"a\";",
            "\"aa\"",
            "W/ b",
        ] {
            assert!(!is_in(b"\"a\"", list.as_bytes()), "{list}");
        }
        assert!(!is_in(b"\"a\"", b"\xff\"a\""));
    }
}
