//! Rights that are moved and granted.

use super::node::{FIRST_OF_TWO, SECOND_OF_TWO};
use super::stage::{Line, Step, Story, play};

const MOVES: &[Line] = &[
    (0, Step::Set("a", "off->3*yield"), "1.0"),
    (0, Step::Set("a", "3*yield"), "2.0"),
    (0, Step::Shift("a", 0, 1, 1), "1"),
    (0, Step::Shift("a", 0, 1, 1), "2"),
    (0, Step::Rights("a", 0, 0), "1"),
    (0, Step::Rights("a", 0, 1), "2"),
    (0, Step::Pass("a", &[]), "act 2.0 0 yield"),
    (0, Step::Pass("a", &[]), "none 2.0"),
    (0, Step::Shift("a", 0, 1, 1), "N11 TooFewRights have=0"),
    (0, Step::Rights("a", 0, 0), "0"),
    (0, Step::Rights("a", 0, 1), "2"),
    (0, Step::Entries, "6"),
];

const REFUSED_SHIFTS: &[Line] = &[
    (0, Step::Set("a", "2*off->yield"), "1.0"),
    (0, Step::Shift("a!", 9, 0, 0), "N2 BadName"),
    (0, Step::Shift("b", 9, 0, 0), "N6 NotSet"),
    (0, Step::Shift("a", 2, 0, 0), "N7 NoSuchTerm"),
    (0, Step::Shift("a", 1, 0, 0), "N8 NotCounted"),
    (0, Step::Shift("a", 0, 0, 0), "N9 BadNode"),
    (0, Step::Shift("a", 0, 2, 0), "N9 BadNode"),
    (0, Step::Shift("a", 0, 1, 0), "N10 ZeroAmount"),
    (0, Step::Shift("a", 0, 1, 3), "N11 TooFewRights have=2"),
    (
        0,
        Step::Shift("a", 0, 1, u64::MAX),
        "N11 TooFewRights have=2",
    ),
    (0, Step::Entries, "1"),
];

const ALL_AT_ONCE: &[Line] = &[
    (0, Step::Set("a", "18446744073709551615*off"), "1.0"),
    (0, Step::Shift("a", 0, 1, u64::MAX), "18446744073709551615"),
    (0, Step::Rights("a", 0, 0), "0"),
    // What doesn't fit is told as the nearest number that does.
    (0, Step::Rights("a", 0, 1), "9223372036854775807"),
    (0, Step::Pass("a", &[]), "none 1.0"),
];

const GRANTED_THERE: &[Line] = &[
    (0, Step::Set("a", "2*off"), "1.0"),
    (0, Step::Emit(1), "message 0"),
    (1, Step::Deliver(0), "changed"),
    (1, Step::Pass("a", &[]), "none 1.0"),
    (1, Step::Grant("a", 0, 3), "3"),
    (1, Step::Pass("a", &[]), "act 1.0 0 off"),
    (1, Step::Emit(0), "message 1"),
    (0, Step::Deliver(1), "changed"),
    (0, Step::Rights("a", 0, 0), "2"),
    (0, Step::Rights("a", 0, 1), "2"),
    (0, Step::Spent("a", 0), "1"),
    (0, Step::Hits("a"), "2"),
    (0, Step::Grant("a", 0, 0), "N10 ZeroAmount"),
    (0, Step::Grant("a", 1, 1), "N7 NoSuchTerm"),
    (0, Step::Grant("b", 0, 1), "N6 NotSet"),
    (
        1,
        Step::Grant("a", 0, 18_446_744_073_709_551_613),
        "N12 CellFull",
    ),
    (
        1,
        Step::Grant("a", 0, 18_446_744_073_709_551_612),
        "18446744073709551615",
    ),
];

const REFUSED_GRANTS: &[Line] = &[
    (0, Step::Set("a", "2*off->yield"), "1.0"),
    (0, Step::Grant("a!", 9, 0), "N2 BadName"),
    (0, Step::Grant("b", 9, 0), "N6 NotSet"),
    (0, Step::Grant("a", 2, 0), "N7 NoSuchTerm"),
    (0, Step::Grant("a", 1, 0), "N8 NotCounted"),
    (0, Step::Grant("a", 0, 0), "N10 ZeroAmount"),
    (0, Step::Entries, "1"),
    (0, Step::Version, "1"),
    (0, Step::Grant("a", 0, 1), "1"),
    (0, Step::Grant("a", 0, 4), "5"),
    (0, Step::Rights("a", 0, 0), "7"),
    (0, Step::Rights("a", 0, 1), "0"),
    (0, Step::Entries, "3"),
    (0, Step::Version, "3"),
];

/// Of node 0 to node 1, after node 0 set a to `2*off` and granted itself 3 of it.
const ONE_GRANT: [u8; 68] = [
    0x46, 0x50, 0x47, 0x32, 0, 1, // magic, from, to
    0, 0, 0, 0, 0, 0, 0, 0, // base
    0, 0, 0, 0, 0, 0, 0, 2, // upto
    0, 0, 0, 0, 0, 0, 0, 0, // ack
    0, 1, // one name
    1, 0x61, // a
    0, 0, 0, 0, 0, 0, 0, 1, 0, // clock and node
    1, 0, 5, 0x32, 0x2a, 0x6f, 0x66, 0x66, // set to five bytes
    0, 0, 0, 0, 0, // no hit, execution or shift cell
    0, 1, 0, 0, 0, 0, 0, 0, 0, 0, 0, 3, // one grant cell
];

/// The same, of which node 0 executed 6.
const ONE_TOO_MANY: [u8; 78] = [
    0x46, 0x50, 0x47, 0x32, 0, 1, // magic, from, to
    0, 0, 0, 0, 0, 0, 0, 0, // base
    0, 0, 0, 0, 0, 0, 0, 2, // upto
    0, 0, 0, 0, 0, 0, 0, 0, // ack
    0, 1, // one name
    1, 0x61, // a
    0, 0, 0, 0, 0, 0, 0, 1, 0, // clock and node
    1, 0, 5, 0x32, 0x2a, 0x6f, 0x66, 0x66, // set to five bytes
    0,    // no hit cell
    0, 1, 0, 0, 0, 0, 0, 0, 0, 0, 0, 6, // one execution cell
    0, 0, // no shift cell
    0, 1, 0, 0, 0, 0, 0, 0, 0, 0, 0, 3, // one grant cell
];

const TOLD: &[Line] = &[
    (0, Step::Set("a", "2*off"), "1.0"),
    (0, Step::Grant("a", 0, 3), "3"),
    (0, Step::Emit(1), "message 0"),
    (0, Step::IsMessage(0, &ONE_GRANT), "true"),
    (1, Step::DeliverBytes(&ONE_TOO_MANY), "N20 Overspent"),
    // Five are executed where two are counted and three granted.
    (1, Step::DeliverAltered(&ONE_TOO_MANY, 63, 64, 5), "changed"),
    (1, Step::Spent("a", 0), "5"),
    (1, Step::Deliver(0), "same"),
];

// The node at the last place stands for node 1 and has forgotten what it granted.
const FORGOTTEN: &[Line] = &[
    (0, Step::Set("a", "2*off"), "1.0"),
    (0, Step::Emit(1), "message 0"),
    (1, Step::Deliver(0), "changed"),
    (2, Step::Deliver(0), "changed"),
    (1, Step::Grant("a", 0, 1), "1"),
    (1, Step::Emit(0), "message 1"),
    (0, Step::Deliver(1), "changed"),
    (0, Step::Emit(1), "message 2"),
    (1, Step::Deliver(2), "same"),
    (2, Step::Deliver(2), "N18 OwnAhead"),
];

const STORIES: &[Story] = &[
    Story {
        title: "moves rights",
        nodes: &[FIRST_OF_TWO],
        names: &["a"],
        parts: &[MOVES],
    },
    Story {
        title: "refused shifts",
        nodes: &[FIRST_OF_TWO],
        names: &["a", "b"],
        parts: &[REFUSED_SHIFTS],
    },
    Story {
        title: "greatest amounts",
        nodes: &[FIRST_OF_TWO],
        names: &["a"],
        parts: &[ALL_AT_ONCE],
    },
    Story {
        title: "grants rights",
        nodes: &[FIRST_OF_TWO, SECOND_OF_TWO],
        names: &["a", "b"],
        parts: &[GRANTED_THERE],
    },
    Story {
        title: "refused grants",
        nodes: &[FIRST_OF_TWO],
        names: &["a", "b"],
        parts: &[REFUSED_GRANTS],
    },
    Story {
        title: "tells grants",
        nodes: &[FIRST_OF_TWO, SECOND_OF_TWO],
        names: &["a"],
        parts: &[TOLD],
    },
    Story {
        title: "refuses forgotten grant",
        nodes: &[FIRST_OF_TWO, SECOND_OF_TWO, SECOND_OF_TWO],
        names: &["a"],
        parts: &[FORGOTTEN],
    },
];

#[test]
fn stories() {
    play(STORIES);
}
