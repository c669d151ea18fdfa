//! Names of this machine, and the pages that may send requests.

use crate::memory::Fixed;
use std::fmt::Write;
use std::net::{Ipv4Addr, Ipv6Addr};

/// Returns whether a `Host` is this machine, with or without a port. A page with a domain name of
/// its own for this machine's address sends that name.
pub fn is_this_machine(host: &[u8]) -> bool {
    let Ok(host) = std::str::from_utf8(host) else {
        return false;
    };
    let (is_name, port) = match host.strip_prefix('[') {
        Some(rest) => match rest.split_once(']') {
            Some((ip, port)) => (
                ip.parse::<Ipv6Addr>().is_ok_and(|ip| ip.is_loopback()),
                port,
            ),
            None => return false,
        },
        None => {
            let (name, port) = host.split_at(host.find(':').unwrap_or(host.len()));
            let is_ip = name.parse::<Ipv4Addr>().is_ok_and(|ip| ip.is_loopback());
            (is_ip || name.eq_ignore_ascii_case("localhost"), port)
        }
    };
    let is_port =
        |port: &str| port.bytes().all(|b| b.is_ascii_digit()) && port.parse::<u16>().is_ok();
    is_name && (port.is_empty() || port.strip_prefix(':').is_some_and(is_port))
}

/// Returns whether an `Origin` is a page of the node itself: of 127.0.0.1 at its port, or of the
/// requested host, as a browser names it, or a TLS proxy in front of a node with a key.
pub fn is_own_page(origin: &[u8], host: Option<&[u8]>, port: u16, is_keyed: bool) -> bool {
    let mut own = Fixed::<32>::new();
    let is_at_port = write!(own, "http://127.0.0.1:{port}").is_ok() && origin == own.bytes();
    let is_of_host = |scheme: &[u8]| host.is_some() && origin.strip_prefix(scheme) == host;
    is_at_port || is_of_host(b"http://") || is_keyed && is_of_host(b"https://")
}

#[cfg(test)]
mod tests {
    use super::*;

    #[test]
    fn a_host_is_this_machine() {
        let hosts = [
            "localhost",
            "LOCALHOST:1",
            "127.0.0.1",
            "127.0.0.1:65535",
            "127.1.2.3:80",
            "[::1]",
            "[::1]:7070",
        ];
        let foreign = [
            "",
            ":7070",
            "example.org",
            "example.org:7070",
            "localhost.example.org",
            "127.0.0.1.example.org",
            "127.0.0.1:",
            "127.0.0.1:65536",
            "127.0.0.1:+1",
            "127.0.0.1:a",
            "10.0.0.1",
            "0.0.0.0",
            "[::1",
            "::1",
            "[::1]x",
            "[::2]:7070",
            "[127.0.0.1]",
            "localhost]",
            "\u{e9}",
        ];
        for host in hosts {
            assert!(is_this_machine(host.as_bytes()), "{host:?}");
        }
        for host in foreign {
            assert!(!is_this_machine(host.as_bytes()), "{host:?}");
        }
    }
}
