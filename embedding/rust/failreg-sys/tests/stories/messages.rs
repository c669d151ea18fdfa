use super::node::{Config, FIRST_OF_TWO, SECOND_OF_TWO};
use super::stage::{Line, Step, Story, play};

/// Of node 0 to node 1, with nothing to tell.
const EMPTY: [u8; 32] = [
    0x46, 0x50, 0x47, 0x31, 0, 1, // magic, from, to
    0, 0, 0, 0, 0, 0, 0, 0, // base
    0, 0, 0, 0, 0, 0, 0, 0, // upto
    0, 0, 0, 0, 0, 0, 0, 0, // ack
    0, 0, // no names
];

/// Of node 0 to node 1, after node 0 set a to `2*off` and passed it once.
const ONE_NAME: [u8; 75] = [
    0x46, 0x50, 0x47, 0x31, 0, 1, // magic, from, to
    0, 0, 0, 0, 0, 0, 0, 0, // base
    0, 0, 0, 0, 0, 0, 0, 2, // upto
    0, 0, 0, 0, 0, 0, 0, 0, // ack
    0, 1, // one name
    1, 0x61, // a
    0, 0, 0, 0, 0, 0, 0, 1, 0, // clock and node
    1, 0, 5, 0x32, 0x2a, 0x6f, 0x66, 0x66, // set to five bytes
    1, 0, 0, 0, 0, 0, 0, 0, 0, 1, // one hit cell
    0, 1, 0, 0, 0, 0, 0, 0, 0, 0, 0, 1, // one execution cell
    0, 0, // no shift cell
];

const NOTHING_TO_TELL: &[Line] = &[
    (0, Step::Emit(1), "message 0"),
    (0, Step::IsMessage(0, &EMPTY), "true"),
    (1, Step::Deliver(0), "same"),
    (0, Step::Entries, "1"),
    (1, Step::Entries, "1"),
];

const FEWER_OR_MORE: &[Line] = &[
    (
        0,
        Step::DeliverFirst(31, &EMPTY),
        "N16 BadMessage W2 Short offset=30",
    ),
    (
        0,
        Step::DeliverFirst(0, &EMPTY),
        "N16 BadMessage W2 Short offset=0",
    ),
    (
        0,
        Step::DeliverLonger(&EMPTY, 0),
        "N16 BadMessage W3 Long offset=32",
    ),
    (0, Step::View, ""),
    (0, Step::Entries, "0"),
];

const TELLS_A: &[Line] = &[
    (0, Step::Set("a", "2*off"), "1.0"),
    (0, Step::Pass("a", &[]), "act 1.0 0 off"),
    (0, Step::Emit(1), "message 0"),
    (0, Step::IsMessage(0, &ONE_NAME), "true"),
    (1, Step::Deliver(0), "changed"),
    // The same again tells nothing new.
    (1, Step::Deliver(0), "same"),
    (1, Step::View, "a=2*off | 1 0 0 1 1"),
];

const ALTERED_BYTES: &[Line] = &[
    (
        0,
        Step::DeliverAltered(&ONE_NAME, 52, 53, 1),
        "N18 OwnAhead",
    ),
    (
        0,
        Step::DeliverAltered(&ONE_NAME, 29, 30, 1),
        "N19 AckAhead",
    ),
    (
        0,
        Step::DeliverAltered(&ONE_NAME, 72, 73, 3),
        "N20 Overspent",
    ),
    (
        0,
        Step::DeliverAltered(&ONE_NAME, 72, 73, 0),
        "N16 BadMessage W10 ZeroCell offset=65",
    ),
    (
        0,
        Step::DeliverAltered(&ONE_NAME, 63, 64, 1),
        "N16 BadMessage W11 BadTerm offset=63",
    ),
    (
        0,
        Step::DeliverAltered(&ONE_NAME, 5, 6, 0),
        "N16 BadMessage W4 BadNode offset=5",
    ),
    (0, Step::View, ""),
    (0, Step::Entries, "0"),
];

/// Of node 0 to node 1: a is set to `2*off`, and five rights of it were moved to node 1. Node 0
/// never had so many.
const FORGED_SHIFT: [u8; 67] = [
    0x46, 0x50, 0x47, 0x31, 0, 1, // magic, from, to
    0, 0, 0, 0, 0, 0, 0, 0, // base
    0, 0, 0, 0, 0, 0, 0, 0, // upto
    0, 0, 0, 0, 0, 0, 0, 0, // ack
    0, 1, // one name
    1, 0x61, // a
    0, 0, 0, 0, 0, 0, 0, 1, 0, // clock and node
    1, 0, 5, 0x32, 0x2a, 0x6f, 0x66, 0x66, // set to five bytes
    0, 0, 0, // no hit or execution cell
    0, 1, 0, 0, 1, 0, 0, 0, 0, 0, 0, 0, 5, // one shift cell
];

// A term that is overspent stops messages of its name alone.
const OVERSPENT_BEFORE: &[Line] = &[
    (0, Step::DeliverBytes(&FORGED_SHIFT), "changed"),
    (0, Step::Pass("a", &[]), "act 1.0 0 off"),
    (0, Step::Pass("a", &[]), "act 1.0 0 off"),
    (0, Step::DeliverBytes(&FORGED_SHIFT), "same"),
    (0, Step::Pass("a", &[]), "act 1.0 0 off"),
    (0, Step::Spent("a", 0), "3"),
    (0, Step::DeliverBytes(&FORGED_SHIFT), "N20 Overspent"),
    (0, Step::DeliverBytes(&EMPTY), "same"),
];

const LAST_CLOCK: &[Line] = &[
    (0, Step::DeliverAltered(&ONE_NAME, 34, 42, 0xff), "changed"),
    (0, Step::Set("b", "off"), "N5 ClockFull"),
];

const FIRST_OF_THREE: Config = Config {
    node: 0,
    nodes: 3,
    trace_cap: 100,
};

const THIRD_OF_THREE: Config = Config {
    node: 2,
    nodes: 3,
    trace_cap: 100,
};

const OTHER_NODES: &[Line] = &[
    (0, Step::Emit(0), "N9 BadNode"),
    (0, Step::Emit(3), "N9 BadNode"),
    (0, Step::Emit(255), "N9 BadNode"),
    (0, Step::Entries, "0"),
    (0, Step::Emit(1), "message 0"),
    (1, Step::Deliver(0), "N17 NotForMe"),
    (1, Step::Entries, "0"),
];

const ONE_CALL: Config = Config {
    node: 0,
    nodes: 2,
    trace_cap: 1,
};

const NO_ROOM: &[Line] = &[
    (0, Step::Emit(1), "message 0"),
    // The first refusal that applies is the answer.
    (0, Step::Emit(1), "N1 TraceFull"),
    (0, Step::Emit(0), "N1 TraceFull"),
    (0, Step::DeliverBytes(&EMPTY), "N1 TraceFull"),
    (0, Step::DeliverBytes(&[]), "N1 TraceFull"),
];

const FORGOTTEN_STATE: &[Line] = &[
    (0, Step::Set("a", "2*off"), "1.0"),
    (0, Step::Pass("a", &[]), "act 1.0 0 off"),
    (0, Step::Pass("a", &[]), "act 1.0 0 off"),
    (0, Step::Emit(1), "message 0"),
    (1, Step::Deliver(0), "changed"),
    (1, Step::Emit(0), "message 1"),
    (0, Step::Deliver(1), "same"),
    // Another node 0, which has made none of these calls.
    (2, Step::Deliver(1), "N18 OwnAhead"),
];

/// Of node 1 to node 0, with nothing to tell since version 1, and with word of a version of node 0.
const ACKNOWLEDGES: [u8; 32] = [
    0x46, 0x50, 0x47, 0x31, 1, 0, // magic, from, to
    0, 0, 0, 0, 0, 0, 0, 1, // base
    0, 0, 0, 0, 0, 0, 0, 1, // upto
    0, 0, 0, 0, 0, 0, 0, 1, // ack
    0, 0, // no names
];

const FORGOTTEN_VERSION: &[Line] = &[
    (1, Step::Set("a", "off"), "1.1"),
    (1, Step::Emit(0), "message 0"),
    (0, Step::Deliver(0), "changed"),
    (0, Step::Emit(1), "message 1"),
    (1, Step::Deliver(1), "same"),
    (1, Step::Emit(0), "message 2"),
    (1, Step::IsMessage(2, &ACKNOWLEDGES), "true"),
    // Another node 0, which has made none of these calls.
    (2, Step::Deliver(2), "N19 AckAhead"),
    (2, Step::Entries, "0"),
    (0, Step::Deliver(2), "same"),
];

/// Of node 0 to node 1: z is set to `off`, and node 1 passed it once.
const HIT_OF_RECEIVER: [u8; 63] = [
    0x46, 0x50, 0x47, 0x31, 0, 1, // magic, from, to
    0, 0, 0, 0, 0, 0, 0, 0, // base
    0, 0, 0, 0, 0, 0, 0, 1, // upto
    0, 0, 0, 0, 0, 0, 0, 0, // ack
    0, 1, // one name
    1, 0x7a, // z
    0, 0, 0, 0, 0, 0, 0, 1, 0, // clock and node
    1, 0, 3, 0x6f, 0x66, 0x66, // set to three bytes
    1, 1, 0, 0, 0, 0, 0, 0, 0, 1, // one hit cell
    0, 0, 0, 0, // no other cells
];

const ONE_NAME_TOO_MANY: &[Line] = &[
    (0, Step::Set("z", "off"), "1.0"),
    (0, Step::Emit(1), "message 0"),
    (0, Step::Length(0), "54"),
    (1, Step::LoadNumbers(0, 256), "256"),
    (1, Step::Deliver(0), "N4 TooManyPoints"),
    // What else is wrong with a message comes first.
    (1, Step::DeliverBytes(&HIT_OF_RECEIVER), "N18 OwnAhead"),
    (1, Step::LoadNumbers(256, 257), "N4 TooManyPoints"),
    (1, Step::Entries, "1"),
    (1, Step::Remove("ff"), "257.1"),
    // A name that was removed is held for good.
    (1, Step::Deliver(0), "N4 TooManyPoints"),
];

const OLD_AND_NEW_NAMES: &[Line] = &[
    (0, Step::Load("a=3*off;b=2*yield"), "2"),
    (0, Step::Pass("a", &[]), "act 1.0 0 off"),
    (0, Step::Shift("a", 0, 1, 1), "1"),
    (1, Step::Load("b=panic;c=off"), "2"),
    (1, Step::Pass("b", &[]), "act 1.1 0 panic"),
    (0, Step::Emit(1), "message 0"),
    (0, Step::View, "a=3*off;b=2*yield | 1 1 0 1 1 | 2 0 0 0 0"),
    (1, Step::Deliver(0), "changed"),
    (1, Step::Entries, "3"),
    (
        1,
        Step::View,
        "a=3*off;b=2*yield;c=off | 1 1 0 1 1 | 2 0 0 0 1 | 0 0 0 0 0",
    ),
];

const STORIES: &[Story] = &[
    Story {
        title: "nothing to tell",
        nodes: &[FIRST_OF_TWO, SECOND_OF_TWO],
        names: &[],
        parts: &[NOTHING_TO_TELL],
    },
    Story {
        title: "a byte fewer or more",
        nodes: &[SECOND_OF_TWO],
        names: &[],
        parts: &[FEWER_OR_MORE],
    },
    Story {
        title: "one name",
        nodes: &[FIRST_OF_TWO, SECOND_OF_TWO],
        names: &["a"],
        parts: &[TELLS_A],
    },
    Story {
        title: "one byte altered",
        nodes: &[SECOND_OF_TWO],
        names: &["a"],
        parts: &[ALTERED_BYTES],
    },
    Story {
        title: "overspent before",
        nodes: &[SECOND_OF_TWO],
        names: &["a"],
        parts: &[OVERSPENT_BEFORE],
    },
    Story {
        title: "greatest clock",
        nodes: &[SECOND_OF_TWO],
        names: &["a", "b"],
        parts: &[LAST_CLOCK],
    },
    Story {
        title: "other nodes",
        nodes: &[FIRST_OF_THREE, THIRD_OF_THREE],
        names: &[],
        parts: &[OTHER_NODES],
    },
    Story {
        title: "full trace",
        nodes: &[ONE_CALL],
        names: &["a"],
        parts: &[NO_ROOM],
    },
    Story {
        title: "forgotten state",
        nodes: &[FIRST_OF_TWO, SECOND_OF_TWO, FIRST_OF_TWO],
        names: &["a"],
        parts: &[FORGOTTEN_STATE],
    },
    Story {
        title: "forgotten version",
        nodes: &[FIRST_OF_TWO, SECOND_OF_TWO, FIRST_OF_TWO],
        names: &["a"],
        parts: &[FORGOTTEN_VERSION],
    },
    Story {
        title: "tells of old and new names",
        nodes: &[FIRST_OF_TWO, SECOND_OF_TWO],
        names: &["a", "b", "c"],
        parts: &[OLD_AND_NEW_NAMES],
    },
];

#[test]
fn stories() {
    play(STORIES);
}

const NAMES: &[Story] = &[Story {
    title: "one name too many",
    nodes: &[FIRST_OF_TWO, SECOND_OF_TWO],
    names: &["00", "ff", "z"],
    parts: &[ONE_NAME_TOO_MANY],
}];

#[test]
fn one_name_too_many() {
    play(NAMES);
}
