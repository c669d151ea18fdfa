//! Memory for what peers and clients send. A refused allocation is an error here, so that none of
//! them can end the program.

use std::collections::TryReserveError;
use std::fmt;

/// Adds bytes.
pub fn extend(bytes: &mut Vec<u8>, more: &[u8]) -> Result<(), TryReserveError> {
    bytes.try_reserve(more.len())?;
    bytes.extend_from_slice(more);
    Ok(())
}

/// Returns a copy of a text.
pub fn copied(text: &str) -> Result<String, TryReserveError> {
    let mut copy = String::new();
    copy.try_reserve_exact(text.len())?;
    copy.push_str(text);
    Ok(copy)
}

/// Returns a text of at most 256 bytes, empty if it is longer or memory is refused.
pub fn short_text(parts: fmt::Arguments<'_>) -> String {
    let mut text = Fixed::<256>::new();
    let written = fmt::Write::write_fmt(&mut text, parts);
    let text = std::str::from_utf8(text.bytes()).ok();
    let text = text.filter(|_| written.is_ok()).unwrap_or_default();
    copied(text).unwrap_or_default()
}

/// Bytes that take no memory of the heap: at most `N`.
#[derive(Clone, Copy, Debug)]
pub struct Fixed<const N: usize> {
    bytes: [u8; N],
    length: usize,
}

impl<const N: usize> Fixed<N> {
    pub fn new() -> Fixed<N> {
        Fixed {
            bytes: [0; N],
            length: 0,
        }
    }

    pub fn bytes(&self) -> &[u8] {
        &self.bytes[..self.length]
    }

    /// Returns the bytes as a text. Only texts are written, so they are one.
    pub fn text(&self) -> Result<&str, fmt::Error> {
        std::str::from_utf8(self.bytes()).map_err(|_| fmt::Error)
    }
}

impl<const N: usize> fmt::Write for Fixed<N> {
    /// Fails, and adds nothing, if there is no room.
    fn write_str(&mut self, text: &str) -> fmt::Result {
        let end = self.length + text.len();
        let room = self.bytes.get_mut(self.length..end).ok_or(fmt::Error)?;
        room.copy_from_slice(text.as_bytes());
        self.length = end;
        Ok(())
    }
}

#[cfg(test)]
mod tests {
    use super::*;
    use std::fmt::Write;

    #[test]
    fn fixed_bytes_have_their_room() {
        let mut text = Fixed::<5>::new();
        assert!(write!(text, "a{}", 12).is_ok() && write!(text, "bcd").is_err());
        assert_eq!(text.bytes(), b"a12");
        assert!(write!(text, "bc").is_ok());
        assert_eq!(text.bytes(), b"a12bc");
    }

    #[test]
    fn a_short_text_is_whole_or_empty() {
        assert_eq!(short_text(format_args!("status {}", 400)), "status 400");
        let long = "a".repeat(257);
        assert_eq!(short_text(format_args!("{}", &long[1..])).len(), 256);
        assert_eq!(short_text(format_args!("{long}")), "");
    }
}
