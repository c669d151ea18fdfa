//! The key that the nodes of a cluster and their clients share.

use crate::error::{Error, ErrorKind};
use std::fmt::{self, Write};
use std::fs::File;
use std::hint::black_box;
use std::io::{self, Read};
use std::path::Path;
use std::sync::Arc;

/// The length of a key in bytes: too long to guess, and short enough for the head of a request.
const LEAST: usize = 32;
const MOST: usize = 1_024;

/// The scheme of the `Authorization` field.
const SCHEME: &[u8] = b"Bearer ";

/// A key: the bytes of its file, and the same in lowercase hex, as requests contain it. It is never
/// printed.
#[derive(Clone)]
pub(crate) struct Key {
    bytes: Arc<[u8]>,
    hex: Arc<str>,
}

impl Key {
    /// Reads the key of a file that only its owner may read.
    pub(crate) fn read(path: &Path) -> Result<Key, Error> {
        let fault = |fault: String| Error::new(ErrorKind::BadKey, fault).at_key(path);
        let file = File::open(path).map_err(|error| fault(error.to_string()))?;
        if let Some(mode) = mode_for_others(&file).map_err(|error| fault(error.to_string()))? {
            return Err(fault(format!(
                "other users can access it: its mode is {mode:04o}"
            )));
        }
        let mut bytes = Vec::new();
        // One byte more, to detect a file that is too long.
        let most = MOST as u64 + 1;
        let read = file.take(most).read_to_end(&mut bytes);
        read.map_err(|error| fault(error.to_string()))?;
        Key::of(&bytes).ok_or_else(|| match bytes.len() {
            short @ ..LEAST => fault(format!("it has {short} bytes")),
            _ => fault(format!("it has more than {MOST} bytes")),
        })
    }

    /// Returns the key of these bytes, if their number is allowed.
    pub(crate) fn of(bytes: &[u8]) -> Option<Key> {
        if !(LEAST..=MOST).contains(&bytes.len()) {
            return None;
        }
        let mut hex = String::with_capacity(2 * bytes.len());
        for byte in bytes {
            write!(hex, "{byte:02x}").ok()?;
        }
        Some(Key {
            bytes: bytes.into(),
            hex: hex.into(),
        })
    }

    /// Returns the bytes of its file.
    pub(crate) fn bytes(&self) -> &[u8] {
        &self.bytes
    }

    /// Returns whether the value of an `Authorization` has this key, in the same time for all
    /// values of one length.
    pub(crate) fn is_in(&self, value: &[u8]) -> bool {
        let Some((scheme, mut told)) = value.split_at_checked(SCHEME.len()) else {
            return false;
        };
        // More spaces may follow the scheme (RFC 9110, section 11.4).
        while let [b' ', rest @ ..] = told {
            told = rest;
        }
        scheme.eq_ignore_ascii_case(SCHEME) && is_same(told, self.hex.as_bytes())
    }

    /// Writes the field of a request that presents the key.
    pub(crate) fn write_field(&self, out: &mut impl Write) -> fmt::Result {
        write!(out, "authorization: Bearer {}\r\n", self.hex)
    }
}

impl fmt::Debug for Key {
    fn fmt(&self, f: &mut fmt::Formatter<'_>) -> fmt::Result {
        f.write_str("Key(..)")
    }
}

/// Returns whether two texts are the same, after comparing all bytes wherever they first differ.
pub(crate) fn is_same(told: &[u8], wanted: &[u8]) -> bool {
    let differ = |all: u8, (a, b): (&u8, &u8)| black_box(all | (a ^ b));
    told.len() == wanted.len() && told.iter().zip(wanted).fold(0, differ) == 0
}

// Returns the mode of a file that others than its owner may use.
#[cfg(unix)]
fn mode_for_others(file: &File) -> io::Result<Option<u32>> {
    use std::os::unix::fs::PermissionsExt;
    let mode = file.metadata()?.permissions().mode() & 0o7777;
    Ok((mode & 0o077 != 0).then_some(mode))
}

// Other systems have no mode.
#[cfg(not(unix))]
fn mode_for_others(_: &File) -> io::Result<Option<u32>> {
    Ok(None)
}

#[cfg(test)]
mod tests {
    use super::*;

    #[test]
    fn a_key_is_in_its_own_value_alone() {
        let bytes: Vec<u8> = (0..32).map(|at| at * 8 + 7).collect();
        let key = Key::of(&bytes).unwrap();
        let hex: String = bytes.iter().map(|byte| format!("{byte:02x}")).collect();
        let mut field = String::new();
        key.write_field(&mut field).unwrap();
        assert_eq!(field, format!("authorization: Bearer {hex}\r\n"));
        let is_in = |value: &str| key.is_in(value.as_bytes());
        assert!(is_in(&format!("Bearer {hex}")) && is_in(&format!("bearer {hex}")));
        let upper = hex.to_ascii_uppercase();
        let (half, twice) = (&hex[..32], format!("{hex}{hex}"));
        for other in ["", half, &hex[1..], &twice, &upper, &format!("{hex} ")] {
            assert!(!is_in(&format!("Bearer {other}")), "{other:?}");
        }
        for other in [
            &hex,
            &format!("Basic {hex}"),
            &format!("Bearer{hex}"),
            "Bearer",
            "",
        ] {
            assert!(!is_in(other), "{other:?}");
        }
        // Each digit counts.
        for at in 0..hex.len() {
            let digit = if &hex[at..=at] == "0" { "1" } else { "0" };
            let near = format!("{}{digit}{}", &hex[..at], &hex[at + 1..]);
            assert!(!is_in(&format!("Bearer {near}")), "{at}");
        }
    }

    #[test]
    fn a_key_has_its_length_and_is_not_shown() {
        for (length, is_one) in [
            (0, false),
            (31, false),
            (32, true),
            (1_024, true),
            (1_025, false),
        ] {
            assert_eq!(Key::of(&vec![7; length]).is_some(), is_one, "{length}");
        }
        assert_eq!(format!("{:?}", Key::of(&[7; 32])), "Some(Key(..))");
    }

    #[cfg(unix)]
    #[test]
    fn a_file_that_others_may_use_has_no_key() {
        use std::os::unix::fs::PermissionsExt;
        let path = std::env::temp_dir().join(format!("failreg_key_{}", std::process::id()));
        std::fs::write(&path, [7; 32]).unwrap();
        for (mode, is_one) in [
            (0o600, true),
            (0o400, true),
            (0o640, false),
            (0o604, false),
            (0o620, false),
            (0o601, false),
        ] {
            std::fs::set_permissions(&path, PermissionsExt::from_mode(mode)).unwrap();
            let read = Key::read(&path);
            assert_eq!(read.is_ok(), is_one, "{mode:o}");
            if let Err(error) = read {
                let (kind, text) = (error.kind(), error.to_string());
                assert_eq!(kind, ErrorKind::BadKey);
                let told = format!("key {path:?}: other users can access it: its mode is ");
                assert!(text.starts_with(&format!("{told}{mode:04o}: ")), "{text}");
            }
        }
        std::fs::set_permissions(&path, PermissionsExt::from_mode(0o600)).unwrap();
        std::fs::write(&path, [7; 31]).unwrap();
        assert_eq!(Key::read(&path).unwrap_err().fault(), "it has 31 bytes");
        std::fs::write(&path, [7; 5_000]).unwrap();
        let fault = "it has more than 1024 bytes";
        assert_eq!(Key::read(&path).unwrap_err().fault(), fault);
        std::fs::remove_file(&path).unwrap();
        assert_eq!(Key::read(&path).unwrap_err().kind(), ErrorKind::BadKey);
    }
}
