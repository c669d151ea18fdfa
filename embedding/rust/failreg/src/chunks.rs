//! Chunked bodies (RFC 9112, section 7.1).

use crate::bodies::Body;
use crate::lines::{Lines, is_text_byte};

/// The most bytes of all extensions of a body, and of its trailer.
const MAX_EXTENSIONS: usize = 16_384;
const MAX_TRAILER: usize = 16_384;

/// Why a body is rejected.
#[derive(Debug, PartialEq, Eq)]
pub enum ChunkFault {
    /// It isn't a valid chunked body.
    Bad,
    /// It is too long.
    TooLong,
    /// An allocation for it failed.
    NoMemory,
}

/// What the next byte belongs to. A size is that of the chunk that follows.
#[derive(Clone, Copy)]
enum Place {
    /// The first digit of a size.
    Start,
    /// A digit of a size, or what ends it.
    Size(u64),
    /// Spaces after a size.
    Blank(u64),
    /// An extension.
    Extension(u64),
    /// The newline after a size.
    Newline(u64),
    /// A chunk with this many bytes left.
    Chunk(u64),
    /// The line end after a chunk.
    Behind,
    BehindCr,
    /// The trailer.
    Trailer,
    /// Nothing: the body is complete.
    End,
}

/// A chunked body, as far as it has arrived.
pub struct Chunks {
    body: Body,
    most: usize,
    place: Place,
    /// How many bytes the extensions and the trailer have so far.
    extensions: usize,
    trailer: usize,
    fields: Lines,
}

impl Chunks {
    /// Returns a body without a byte that may have this many.
    pub fn new(body: Body, most: usize) -> Chunks {
        Chunks {
            body,
            most,
            place: Place::Start,
            extensions: 0,
            trailer: 0,
            fields: Lines::of_trailer(),
        }
    }

    /// Adds bytes. Once the body is complete, returns how many of them follow it.
    pub fn take(&mut self, mut bytes: &[u8]) -> Result<Option<usize>, ChunkFault> {
        while let Some((first, rest)) = bytes.split_first() {
            bytes = match self.place {
                Place::End => break,
                Place::Chunk(left) => self.take_data(bytes, left)?,
                Place::Trailer => self.take_trailer(bytes)?,
                place => {
                    self.place = self.after(place, *first).ok_or(ChunkFault::Bad)?;
                    rest
                }
            };
        }
        Ok(matches!(self.place, Place::End).then_some(bytes.len()))
    }

    /// Returns the body, as far as it has arrived.
    pub fn into_body(self) -> Body {
        self.body
    }

    // Adds bytes of a chunk, and returns those after it.
    fn take_data<'b>(&mut self, bytes: &'b [u8], left: u64) -> Result<&'b [u8], ChunkFault> {
        let (part, rest) = bytes.split_at(left.min(bytes.len() as u64) as usize);
        if part.len() > self.most - self.body.len() {
            return Err(ChunkFault::TooLong);
        }
        self.body.take(part).map_err(|_| ChunkFault::NoMemory)?;
        self.place = match left - part.len() as u64 {
            0 => Place::Behind,
            left => Place::Chunk(left),
        };
        Ok(rest)
    }

    // Reads bytes of the trailer, and returns those after it.
    fn take_trailer<'b>(&mut self, bytes: &'b [u8]) -> Result<&'b [u8], ChunkFault> {
        let taken = self.fields.take(bytes).map_err(|_| ChunkFault::Bad)?;
        self.trailer += taken;
        let is_over = self.fields.is_over();
        if self.trailer > MAX_TRAILER || (self.trailer == MAX_TRAILER && !is_over) {
            return Err(ChunkFault::Bad);
        }
        if is_over {
            self.place = Place::End;
        }
        Ok(&bytes[taken..])
    }

    // Returns what follows a byte round a chunk.
    fn after(&mut self, place: Place, byte: u8) -> Option<Place> {
        match (place, byte) {
            (Place::Start, _) => digit(byte).map(Place::Size),
            // A size has 64 bits.
            (Place::Size(size), _) if byte.is_ascii_hexdigit() => {
                Some(Place::Size(size.checked_mul(16)? + digit(byte)?))
            }
            (Place::Size(size) | Place::Blank(size), b' ' | b'\t') => Some(Place::Blank(size)),
            (Place::Size(size) | Place::Blank(size), b';') => Some(Place::Extension(size)),
            (Place::Size(size) | Place::Blank(size) | Place::Extension(size), b'\r') => {
                Some(Place::Newline(size))
            }
            (Place::Extension(_), _) if is_text_byte(byte) => {
                self.extensions += 1;
                (self.extensions <= MAX_EXTENSIONS).then_some(place)
            }
            (Place::Newline(0), b'\n') => Some(Place::Trailer),
            (Place::Newline(size), b'\n') => Some(Place::Chunk(size)),
            (Place::Behind, b'\r') => Some(Place::BehindCr),
            (Place::BehindCr, b'\n') => Some(Place::Start),
            _ => None,
        }
    }
}

fn digit(byte: u8) -> Option<u64> {
    char::from(byte).to_digit(16).map(u64::from)
}

#[cfg(test)]
mod tests {
    use super::*;
    use crate::bodies::Needed;

    // The result for these bytes in pieces of this size.
    fn taken(text: &[u8], piece: usize) -> Result<Option<Vec<u8>>, ChunkFault> {
        let mut chunks = Chunks::new(Body::new(Needed::Whole), 10);
        for part in text.chunks(piece) {
            if chunks.take(part)?.is_some() {
                return Ok(Some(chunks.into_body().into_bytes()));
            }
        }
        Ok(None)
    }

    #[test]
    fn a_body_is_put_together_in_whatever_pieces_it_comes() {
        let zeros = "0".repeat(5_000);
        let extension = "x".repeat(MAX_EXTENSIONS);
        for (text, body) in [
            ("0\r\n\r\n", ""),
            ("3\r\noff\r\n0\r\n\r\n", "off"),
            (
                "1\r\no\r\n002;x=y\r\nff\r\n00\r\nA: b\r\nC: d\r\n\r\n",
                "off",
            ),
            (
                "a \r\n0123456789\r\n0\r\n\r\nGET / HTTP/1.1\r\n",
                "0123456789",
            ),
            ("2\r\n\r\n\r\n0\r\n\r\n", "\r\n"),
            (&format!("{zeros}3\r\noff\r\n{zeros}\t\r\n\r\n"), "off"),
            (&format!("3;{extension}\r\noff\r\n0\r\n\r\n"), "off"),
        ] {
            for piece in (1..=text.len()).step_by(1 + text.len() / 60) {
                let whole = Ok(Some(body.as_bytes().to_vec()));
                assert_eq!(taken(text.as_bytes(), piece), whole, "{text:?} by {piece}");
            }
        }
    }

    #[test]
    fn what_is_no_body_is_refused() {
        let extension = format!("1;{}\r\n", "x".repeat(MAX_EXTENSIONS + 1));
        let trailer = format!("0\r\nX: {}\r\n\r\n", "y".repeat(MAX_TRAILER - 6));
        for bad in [
            "\r\n",
            "x\r\n",
            "-1\r\n",
            "+1\r\n",
            "0x1\r\n",
            " 1\r\n",
            "1\n",
            "1\r\r\n",
            "1\x0c\r\n",
            "1 1\r\n",
            "1;\0\r\n",
            "1;x\ry\r\n",
            "3\r\nof\r\n0\r\n\r\n",
            "2\r\noff\r\n0\r\n\r\n",
            "10000000000000000\r\n",
            "0\r\nX\r\n",
            "0\r\nX : y\r\n",
            "0\r\n\n",
            &extension,
            &trailer,
        ] {
            for piece in [1, bad.len()] {
                assert_eq!(
                    taken(bad.as_bytes(), piece),
                    Err(ChunkFault::Bad),
                    "{bad:?}"
                );
            }
        }
        for long in ["b\r\n01234567890", "8\r\n01234567\r\n3\r\n012"] {
            assert_eq!(
                taken(long.as_bytes(), 1),
                Err(ChunkFault::TooLong),
                "{long:?}"
            );
        }
        for part in [
            "",
            "3\r\noff",
            "3\r\noff\r\n",
            "0\r\n",
            "0\r\nA: b\r\n",
            "b\r\n0123456789",
            "ffffffffffffffff\r\n",
        ] {
            assert_eq!(taken(part.as_bytes(), 1), Ok(None), "{part:?}");
        }
    }
}
