//! Digests of messages, by which the receiver sees that a bit was changed on the way: a SHA-256
//! (RFC 9530) and, if the cluster has a key, an HMAC-SHA-256 (RFC 2104).

use crate::key::Key;
use crate::memory::Fixed;
use crate::sha256::{sha256, sha256_after};
use std::fmt::{self, Write};

/// The length of a block of SHA-256 in bytes.
const BLOCK: usize = 64;

/// What the value of `Content-Digest` begins with for a SHA-256.
const SHA_256: &[u8] = b"sha-256=";

const ALPHABET: &[u8; 64] = b"ABCDEFGHIJKLMNOPQRSTUVWXYZabcdefghijklmnopqrstuvwxyz0123456789+/";

// Writes bytes in Base64 (RFC 4648).
fn write_base64(out: &mut impl Write, bytes: &[u8]) -> fmt::Result {
    for part in bytes.chunks(3) {
        let mut whole = [0; 3];
        whole[..part.len()].copy_from_slice(part);
        let [a, b, c] = whole.map(u32::from);
        let bits = a << 16 | b << 8 | c;
        for place in 0..4 {
            let digit = ALPHABET[(bits >> (18 - 6 * place) & 63) as usize];
            let is_there = place <= part.len();
            out.write_char(if is_there { digit.into() } else { '=' })?;
        }
    }
    Ok(())
}

/// Returns the HMAC-SHA-256 of a message.
fn hmac_sha256(key: &[u8], message: &[u8]) -> [u8; 32] {
    let mut block = [0; BLOCK];
    match block.get_mut(..key.len()) {
        Some(front) => front.copy_from_slice(key),
        None => block[..32].copy_from_slice(&sha256(key)),
    }
    let inner = sha256_after(&block.map(|byte| byte ^ 0x36), message);
    sha256_after(&block.map(|byte| byte ^ 0x5c), &inner)
}

/// Returns the value of `Content-Digest` for a body.
pub(crate) fn digest_of(body: &[u8]) -> Fixed<64> {
    let mut digest = Fixed::new();
    // It has room for all of it.
    let _ = digest.write_str("sha-256=:");
    let _ = write_base64(&mut digest, &sha256(body));
    let _ = digest.write_str(":");
    digest
}

/// Returns the value of `Failreg-Mac` for a body.
pub(crate) fn code_of(key: &Key, body: &[u8]) -> Fixed<64> {
    let mut code = Fixed::new();
    for byte in hmac_sha256(key.bytes(), body) {
        // It has room for all of them.
        let _ = write!(code, "{byte:02x}");
    }
    code
}

/// Writes the fields of a message by which its receiver sees that it is intact.
pub(crate) fn write_fields(out: &mut impl Write, key: Option<&Key>, body: &[u8]) -> fmt::Result {
    write!(out, "content-digest: {}\r\n", digest_of(body).text()?)?;
    match key {
        Some(key) => write!(out, "failreg-mac: {}\r\n", code_of(key, body).text()?),
        None => Ok(()),
    }
}

/// Returns whether each SHA-256 in a value of `Content-Digest` is this one. Digests of other
/// algorithms say nothing.
pub(crate) fn agrees(value: &[u8], digest: &[u8]) -> bool {
    value
        .split(|byte| matches!(byte, b',' | b' ' | b'\t'))
        .all(|word| word == digest || !word.starts_with(SHA_256))
}

#[cfg(test)]
mod tests {
    use super::*;

    // The vectors of RFC 4231. The fifth has the first half of its code.
    #[test]
    fn messages_have_their_codes() {
        let numbers: Vec<u8> = (1..26).collect();
        let long = "This is a test using a larger than block-size key and a larger than block-size \
                    data. The key needs to be hashed before being used by the HMAC algorithm.";
        for (key, message, code) in [
            (
                &[0x0b; 20][..],
                &b"Hi There"[..],
                "b0344c61d8db38535ca8afceaf0bf12b881dc200c9833da726e9376c2e32cff7",
            ),
            (
                b"Jefe",
                b"what do ya want for nothing?",
                "5bdcc146bf60754e6a042426089575c75a003f089d2739839dec58b964ec3843",
            ),
            (
                &[0xaa; 20],
                &[0xdd; 50],
                "773ea91e36800e46854db8ebd09181a72959098b3ef8c122d9635514ced565fe",
            ),
            (
                &numbers,
                &[0xcd; 50],
                "82558a389a443c0ea4cc819899f2083a85f0faa3e578f8077a2e3ff46729665b",
            ),
            (
                &[0x0c; 20],
                b"Test With Truncation",
                "a3b6167473100ee06e0c796c2955552b",
            ),
            (
                &[0xaa; 131],
                b"Test Using Larger Than Block-Size Key - Hash Key First",
                "60e431591ee0b67f0d8a26aacbf5b77f8e0bc6213728c5140546040f0ee37f54",
            ),
            (
                &[0xaa; 131],
                long.as_bytes(),
                "9b09ffa71b942fcb27635fbcd5b0e944bfdc63644f0713938a7f51535c3a35e2",
            ),
        ] {
            let found: String = hmac_sha256(key, message)
                .iter()
                .map(|byte| format!("{byte:02x}"))
                .collect();
            assert!(found.starts_with(code), "{found}");
        }
    }

    // The example of RFC 9530.
    #[test]
    fn a_body_is_intact_by_its_digest_alone() {
        let digest = digest_of(b"{\"hello\": \"world\"}\n");
        let digest = digest.bytes();
        let own = "sha-256=:RK/0qy18MlBSVnWgjwz6lZEWjP/lF5HF9bvEF8FabDg=:";
        assert_eq!(digest, own.as_bytes());
        for (value, is_intact) in [
            (own.to_string(), true),
            (format!("sha-512=:AAAA:, {own}"), true),
            ("sha-512=:AAAA:".to_string(), true),
            (String::new(), true),
            (own.replace('R', "S"), false),
            (own[..own.len() - 1].to_string(), false),
            ("sha-256=".to_string(), false),
            (format!("{own}, sha-256=:AAAA:"), false),
        ] {
            assert_eq!(agrees(value.as_bytes(), digest), is_intact, "{value}");
        }
    }

    #[test]
    fn base64_has_its_padding() {
        for (bytes, text) in [
            ("", ""),
            ("f", "Zg=="),
            ("fo", "Zm8="),
            ("foo", "Zm9v"),
            ("foob", "Zm9vYg=="),
            ("foobar", "Zm9vYmFy"),
        ] {
            let mut out = String::new();
            write_base64(&mut out, bytes.as_bytes()).unwrap();
            assert_eq!(out, text);
        }
    }
}
