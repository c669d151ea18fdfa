//! A node among the others of its cluster: whom it hears, what is due for whom, and what a request changes.

use failreg_sys::*;

const SEED: [u8; 32] = [0; 32];

/// A time in milliseconds since 1970.
const NOW: u64 = 1_700_000_000_000;

fn opened(number: u8) -> failreg {
    let mut node = failreg::CLOSED;
    assert_eq!(failreg_open(&mut node, number, 3, 1000, &SEED), FAILREG_OK);
    node
}

fn fetched(node: &mut failreg) -> Vec<u8> {
    let mut bytes = vec![0; 4096];
    // SAFETY: the vector has so many bytes.
    let length = unsafe { failreg_fetch(node, bytes.as_mut_ptr(), bytes.len()) };
    bytes.truncate(length);
    bytes
}

/// Returns what a request changed, and the body of its response.
fn answered(
    node: &mut failreg,
    method: &str,
    path: &str,
    body: &[u8],
) -> (failreg_answered, String) {
    let mut told = failreg_answered::default();
    let (by, at, sent) = (method.as_ptr(), path.as_ptr(), body.as_ptr());
    let (by_len, at_len, sent_len) = (method.len(), path.len(), body.len());
    // SAFETY: two texts and bytes, each with its length.
    let status =
        unsafe { failreg_answer_at(node, by, by_len, at, at_len, sent, sent_len, NOW, &mut told) };
    assert_eq!(status, FAILREG_OK);
    (told, String::from_utf8(fetched(node)).unwrap())
}

fn due(node: &mut failreg, peer: u8) -> u8 {
    let mut due = 9;
    assert_eq!(failreg_due(node, peer, &mut due), FAILREG_OK);
    due
}

fn awaited(node: &mut failreg) -> u8 {
    let mut peer = 9;
    assert_eq!(failreg_awaited(node, &mut peer), FAILREG_OK);
    peer
}

fn message(from: &mut failreg, to: u8) -> Vec<u8> {
    assert_eq!(failreg_emit(from, to), FAILREG_OK);
    fetched(from)
}

/// Delivers a message of a transport at a time, and returns the status.
fn delivered(node: &mut failreg, message: &[u8], now: u64) -> u32 {
    let (at, len, mut changed) = (message.as_ptr(), message.len(), false);
    // SAFETY: bytes and how many they are.
    unsafe { failreg_deliver_at(node, at, len, now, &mut changed) }
}

#[test]
fn calls_of_requests_wait_for_the_other_nodes() {
    let (mut node, mut first, mut last) = (opened(1), opened(0), opened(2));
    assert_eq!(awaited(&mut node), FAILREG_NOBODY);
    assert_eq!(failreg_hear_first(&mut node), FAILREG_OK);
    assert_eq!(awaited(&mut node), 0);
    let (told, body) = answered(&mut node, "PUT", "/fail/a", b"off");
    assert_eq!(
        (told.status, told.fault, told.changes_settings),
        (503, 0, false)
    );
    assert!(
        body.starts_with("not heard yet: node 0: calls are accepted once "),
        "{body}"
    );
    // Reads, and what can't succeed later, don't wait.
    for (method, path, status) in [
        ("GET", "/fail", 200),
        ("POST", "/nowhere", 404),
        ("GET", "/load", 405),
    ] {
        assert_eq!(
            answered(&mut node, method, path, b"").0.status,
            status,
            "{path}"
        );
    }
    // By any transport.
    assert_eq!(
        delivered(&mut node, &message(&mut first, 1), NOW - 1),
        FAILREG_OK
    );
    assert_eq!(awaited(&mut node), 2);
    let (told, body) = answered(&mut node, "POST", "/gossip", &message(&mut last, 1));
    assert_eq!(
        (told.status, told.has_heard_all, body.as_str()),
        (200, true, "same")
    );
    assert_eq!(awaited(&mut node), FAILREG_NOBODY);
    let (told, body) = answered(&mut node, "PUT", "/fail/a", b"off");
    assert_eq!(
        (told.status, told.changes_settings, body.as_str()),
        (200, true, "1.1")
    );
    let refused = delivered(&mut node, b"FPG1\x02", NOW);
    assert_eq!(refused, FAILREG_E_BAD_MESSAGE);
    let (_, status) = answered(&mut node, "GET", "/status", b"");
    let (_, peers) = status.split_once(",\"peers\":").unwrap();
    assert_eq!(
        peers,
        "[{\"heard\":\"1699999999999\",\"node\":\"0\",\"refused\":{}},\
         {\"heard\":\"1700000000000\",\"node\":\"2\",\"refused\":{\"N16\":\"1\"}}]}"
    );
    for mut node in [node, first, last] {
        failreg_close(&mut node);
        assert_eq!(failreg_due(&mut node, 0, &mut 0), FAILREG_E_CLOSED);
    }
}

#[test]
fn a_node_is_told_what_is_due() {
    let mut node = opened(1);
    for peer in [0, 1, 2, 3, 255] {
        assert_eq!(due(&mut node, peer), FAILREG_DUE_NOTHING);
    }
    // A node that asks is sent the state, though nothing is new.
    assert_eq!(answered(&mut node, "POST", "/hello", b"1").0.status, 400);
    let (told, body) = answered(&mut node, "POST", "/hello", b"2");
    assert_eq!((told.status, body.as_str()), (200, "telling"));
    assert_eq!(
        (due(&mut node, 0), due(&mut node, 2)),
        (FAILREG_DUE_NOTHING, FAILREG_DUE_TELL)
    );
    assert_eq!(failreg_told(&mut node, 2), FAILREG_OK);
    assert_eq!(due(&mut node, 2), FAILREG_DUE_NOTHING);
    // News are due at once, unless the last message failed.
    assert!(
        answered(&mut node, "PUT", "/fail/a", b"2*off")
            .0
            .changes_settings
    );
    assert_eq!(
        (due(&mut node, 0), due(&mut node, 2)),
        (FAILREG_DUE_TELL, FAILREG_DUE_TELL)
    );
    assert_eq!(failreg_told(&mut node, 0), FAILREG_OK);
    assert_eq!(failreg_missed(&mut node, 2), FAILREG_OK);
    let (told, _) = answered(&mut node, "POST", "/shift/a/0/0/1", b"");
    assert_eq!((told.status, told.changes_settings), (200, false));
    assert_eq!(
        (due(&mut node, 0), due(&mut node, 2)),
        (FAILREG_DUE_TELL, FAILREG_DUE_NOTHING)
    );
    // The rest after a failure is twice as long as the last one, which had two rounds.
    let rounds: Vec<u8> = (0..4).map(|_| due(&mut node, 2)).collect();
    assert_eq!(rounds, [0, 0, 0, FAILREG_DUE_TELL]);
    let (told, _) = answered(&mut node, "POST", "/shift/a/0/0/2", b"");
    assert_eq!(
        (told.status, u32::from(told.fault)),
        (409, FAILREG_E_TOO_FEW_RIGHTS)
    );
    failreg_close(&mut node);
}

#[test]
fn a_node_that_is_waited_for_is_asked() {
    let mut node = opened(1);
    assert_eq!(failreg_hear_first(&mut node), FAILREG_OK);
    let rounds: Vec<u8> = (0..9).map(|_| due(&mut node, 2)).collect();
    assert_eq!(rounds, [2, 0, 0, 2, 0, 0, 0, 0, 2]);
    failreg_close(&mut node);
}

#[test]
fn lines_are_those_of_the_calls_from_a_number_on() {
    let mut node = opened(1);
    for (method, path) in [
        ("PUT", "/fail/a"),
        ("DELETE", "/fail/a"),
        ("PUT", "/fail/b"),
    ] {
        assert_eq!(answered(&mut node, method, path, b"off").0.status, 200);
    }
    let mut lines = Vec::new();
    for index in 1..3 {
        assert_eq!(failreg_entry(&mut node, index), FAILREG_OK);
        lines.extend(fetched(&mut node));
        lines.push(b'\n');
    }
    assert_eq!(failreg_part_lines(&mut node, 1), FAILREG_OK);
    assert_eq!(fetched(&mut node), lines);
    assert_eq!(failreg_part_lines(&mut node, 3), FAILREG_OK);
    assert_eq!(fetched(&mut node), b"");
    assert_eq!(failreg_part_lines(&mut node, 4), FAILREG_E_NO_ENTRY);
    assert_eq!(failreg_forget(&mut node), FAILREG_OK);
    assert_eq!(failreg_part_lines(&mut node, 1), FAILREG_E_NO_ENTRY);
    assert_eq!(failreg_part_lines(&mut node, 3), FAILREG_OK);
    failreg_close(&mut node);
}
