//! What messages tell of versions, and what a node learns of them.

use super::node::{FIRST_OF_TWO, SECOND_OF_TWO};
use super::stage::{Line, Step, Story, play};

/// Of node 0 to node 1, after node 0 set a to `off`.
const SETS_A: [u8; 54] = [
    0x46, 0x50, 0x47, 0x31, 0, 1, // magic, from, to
    0, 0, 0, 0, 0, 0, 0, 0, // base
    0, 0, 0, 0, 0, 0, 0, 1, // upto
    0, 0, 0, 0, 0, 0, 0, 0, // ack
    0, 1, // one name
    1, 0x61, // a
    0, 0, 0, 0, 0, 0, 0, 1, 0, // clock and node
    1, 0, 3, 0x6f, 0x66, 0x66, // set to three bytes
    0, 0, 0, 0, 0, // no cells
];

/// Of node 0 to node 1, once each knew the version of the other, after node 0 set b to `off`.
const SETS_B: [u8; 54] = [
    0x46, 0x50, 0x47, 0x31, 0, 1, // magic, from, to
    0, 0, 0, 0, 0, 0, 0, 1, // base
    0, 0, 0, 0, 0, 0, 0, 2, // upto
    0, 0, 0, 0, 0, 0, 0, 1, // ack
    0, 1, // one name
    1, 0x62, // b
    0, 0, 0, 0, 0, 0, 0, 2, 0, // clock and node
    1, 0, 3, 0x6f, 0x66, 0x66, // set to three bytes
    0, 0, 0, 0, 0, // no cells
];

const FIRST_EXCHANGE: &[Line] = &[
    (0, Step::Set("a", "off"), "1.0"),
    (0, Step::Version, "1"),
    (0, Step::Emit(1), "message 0"),
    (0, Step::IsMessage(0, &SETS_A), "true"),
    (0, Step::Version, "1"),
    (1, Step::Deliver(0), "changed"),
    (1, Step::Version, "1"),
    (1, Step::Known(0), "1"),
    (1, Step::Acked(0), "0"),
    (1, Step::Emit(0), "message 1"),
    (1, Step::Length(1), "54"),
    (0, Step::Deliver(1), "same"),
    (0, Step::Version, "1"),
    (0, Step::Known(1), "1"),
    (0, Step::Acked(1), "1"),
];

const SECOND_MESSAGE: &[Line] = &[
    (0, Step::Set("b", "off"), "2.0"),
    (0, Step::Emit(1), "message 2"),
    (0, Step::IsMessage(2, &SETS_B), "true"),
    (1, Step::Deliver(2), "changed"),
    (1, Step::Known(0), "2"),
    (1, Step::Acked(0), "1"),
    (1, Step::List, "a=off;b=off"),
];

const PASSES_LOST: &[Line] = &[
    (0, Step::Pass("a", &[]), "act 1.0 0 off"),
    // A message that is lost: what it told is told again.
    (0, Step::Emit(1), "message 2"),
    (0, Step::Length(2), "63"),
    (0, Step::Pass("a", &[]), "act 1.0 0 off"),
    (0, Step::Emit(1), "message 3"),
    (0, Step::Length(3), "63"),
    (1, Step::Deliver(3), "changed"),
    (1, Step::Hits("a"), "2"),
    (1, Step::Known(0), "3"),
    // The lost one comes after all, and tells nothing new.
    (1, Step::Deliver(2), "same"),
    (1, Step::Known(0), "3"),
    (1, Step::Version, "2"),
];

const NOTHING_LEFT_TO_TELL: &[Line] = &[
    (0, Step::Emit(1), "message 2"),
    (0, Step::Length(2), "32"),
    (1, Step::Deliver(2), "same"),
    (1, Step::Acked(0), "1"),
    (1, Step::Emit(0), "message 3"),
    (1, Step::Length(3), "32"),
    (0, Step::Deliver(3), "same"),
];

/// Of node 0 to node 1, with nothing to tell up to version 3.
const UPTO_3: [u8; 32] = [
    0x46, 0x50, 0x47, 0x31, 0, 1, // magic, from, to
    0, 0, 0, 0, 0, 0, 0, 0, // base
    0, 0, 0, 0, 0, 0, 0, 3, // upto
    0, 0, 0, 0, 0, 0, 0, 0, // ack
    0, 0, // no names
];

/// The same from version 1 up to version 5.
const FROM_1_UPTO_5: [u8; 32] = [
    0x46, 0x50, 0x47, 0x31, 0, 1, // magic, from, to
    0, 0, 0, 0, 0, 0, 0, 1, // base
    0, 0, 0, 0, 0, 0, 0, 5, // upto
    0, 0, 0, 0, 0, 0, 0, 0, // ack
    0, 0, // no names
];

const GAPS: &[Line] = &[
    // What lies before its base isn't known.
    (0, Step::DeliverAltered(&UPTO_3, 13, 14, 2), "same"),
    (0, Step::Known(0), "0"),
    (0, Step::DeliverBytes(&UPTO_3), "same"),
    (0, Step::Known(0), "3"),
    (0, Step::DeliverAltered(&UPTO_3, 13, 14, 2), "same"),
    (0, Step::Known(0), "3"),
    (0, Step::DeliverBytes(&FROM_1_UPTO_5), "same"),
    (0, Step::Known(0), "5"),
    // Nothing of this was acknowledged, and nothing changed.
    (0, Step::Acked(0), "0"),
    (0, Step::Version, "0"),
    (0, Step::Entries, "4"),
];

const STORIES: &[Story] = &[
    Story {
        title: "second message is the difference",
        nodes: &[FIRST_OF_TWO, SECOND_OF_TWO],
        names: &["a", "b"],
        parts: &[FIRST_EXCHANGE, SECOND_MESSAGE],
    },
    Story {
        title: "lost message is told again",
        nodes: &[FIRST_OF_TWO, SECOND_OF_TWO],
        names: &["a"],
        parts: &[FIRST_EXCHANGE, PASSES_LOST],
    },
    Story {
        title: "nothing left to tell",
        nodes: &[FIRST_OF_TWO, SECOND_OF_TWO],
        names: &["a"],
        parts: &[FIRST_EXCHANGE, NOTHING_LEFT_TO_TELL],
    },
    Story {
        title: "nothing is known over a gap",
        nodes: &[SECOND_OF_TWO],
        names: &[],
        parts: &[GAPS],
    },
];

#[test]
fn stories() {
    play(STORIES);
}
