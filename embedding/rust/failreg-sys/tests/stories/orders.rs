//! The same messages in several orders.

use super::node::Config;
use super::stage::{Line, Step, Story, play};

const NODES: [Config; 3] = [
    Config {
        node: 0,
        nodes: 3,
        trace_cap: 100,
    },
    Config {
        node: 1,
        nodes: 3,
        trace_cap: 100,
    },
    Config {
        node: 2,
        nodes: 3,
        trace_cap: 100,
    },
];

/// Three nodes act, and write to each other what isn't delivered yet.
const ACTS: &[Line] = &[
    // Node 0 sets both points, and all know of it.
    (0, Step::Load("a=4*off;b=3*yield->off"), "2"),
    (0, Step::Emit(1), "message 0"),
    (0, Step::Emit(2), "message 1"),
    (1, Step::Deliver(0), "changed"),
    (2, Step::Deliver(1), "changed"),
    // It passes a twice and shifts, with messages before the end and after it.
    (0, Step::Pass("a", &[]), "act 1.0 0 off"),
    (0, Step::Shift("a", 0, 1, 1), "1"),
    (0, Step::Shift("b", 0, 2, 1), "1"),
    (0, Step::Emit(1), "message 2"),
    (0, Step::Emit(2), "message 3"),
    (0, Step::Shift("a", 0, 1, 1), "2"),
    (0, Step::Pass("a", &[]), "act 1.0 0 off"),
    (0, Step::Emit(1), "message 4"),
    (0, Step::Emit(2), "message 5"),
    // Node 1 passes a, and sets and passes b.
    (1, Step::Pass("a", &[]), "none 1.0"),
    (1, Step::Emit(0), "message 6"),
    (1, Step::Emit(2), "message 7"),
    (1, Step::Set("b", "1*panic"), "3.1"),
    (1, Step::Pass("b", &[]), "act 3.1 0 panic"),
    (1, Step::Emit(0), "message 8"),
    (1, Step::Emit(2), "message 9"),
    // Node 2 passes b, sets it at the same clock, passes it again and shifts.
    (2, Step::Pass("b", &[]), "act 2.0 1 off"),
    (2, Step::Emit(0), "message 10"),
    (2, Step::Emit(1), "message 11"),
    (2, Step::Set("b", "2*off"), "3.2"),
    (2, Step::Pass("b", &[]), "act 3.2 0 off"),
    (2, Step::Shift("b", 0, 0, 1), "1"),
    (2, Step::Emit(0), "message 12"),
    (2, Step::Emit(1), "message 13"),
    (
        0,
        Step::View,
        "a=4*off;b=3*yield->off | 0 2 0 2 2 | 2 0 1 0 0",
    ),
    (1, Step::View, "a=4*off;b=1*panic | 4 0 0 0 1 | 0 0 0 1 1"),
    (2, Step::View, "a=4*off;b=2*off | 4 0 0 0 0 | 1 0 0 1 2"),
];

const AS_WRITTEN: &[Line] = &[
    (1, Step::Deliver(2), "changed"),
    (2, Step::Deliver(3), "changed"),
    (1, Step::Deliver(4), "changed"),
    (2, Step::Deliver(5), "changed"),
    (0, Step::Deliver(6), "changed"),
    (2, Step::Deliver(7), "changed"),
    (0, Step::Deliver(8), "changed"),
    (2, Step::Deliver(9), "changed"),
    (0, Step::Deliver(10), "changed"),
    (1, Step::Deliver(11), "changed"),
    (0, Step::Deliver(12), "changed"),
    (1, Step::Deliver(13), "changed"),
    (1, Step::Deliver(0), "same"),
    (2, Step::Deliver(1), "same"),
];

/// And some of the first ones again.
const LAST_ONE_FIRST: &[Line] = &[
    (1, Step::Deliver(13), "changed"),
    (0, Step::Deliver(12), "changed"),
    (1, Step::Deliver(11), "same"),
    (0, Step::Deliver(10), "same"),
    (2, Step::Deliver(9), "changed"),
    (0, Step::Deliver(8), "changed"),
    (2, Step::Deliver(7), "same"),
    (0, Step::Deliver(6), "same"),
    (2, Step::Deliver(5), "changed"),
    (1, Step::Deliver(4), "changed"),
    (2, Step::Deliver(3), "same"),
    (1, Step::Deliver(2), "same"),
    (1, Step::Deliver(13), "same"),
    (1, Step::Deliver(0), "same"),
];

/// In turn, each twice; then old ones.
const LAST_ONES_ALONE: &[Line] = &[
    (0, Step::Deliver(12), "changed"),
    (1, Step::Deliver(4), "changed"),
    (2, Step::Deliver(9), "changed"),
    (1, Step::Deliver(4), "same"),
    (0, Step::Deliver(12), "same"),
    (0, Step::Deliver(8), "changed"),
    (1, Step::Deliver(13), "changed"),
    (2, Step::Deliver(5), "changed"),
    (2, Step::Deliver(9), "same"),
    (0, Step::Deliver(8), "same"),
    (1, Step::Deliver(13), "same"),
    (2, Step::Deliver(5), "same"),
    (0, Step::Deliver(10), "same"),
    (1, Step::Deliver(2), "same"),
];

/// Nothing of node 0 comes to node 2, and nothing of node 2 to node 0, but from node 1.
const BY_WAY_OF_NODE_1: &[Line] = &[
    (1, Step::Deliver(13), "changed"),
    (1, Step::Deliver(4), "changed"),
    (1, Step::Deliver(11), "same"),
    (1, Step::Deliver(2), "same"),
    (1, Step::Emit(2), "message 14"),
    (1, Step::Emit(0), "message 15"),
    (0, Step::Deliver(15), "changed"),
    (2, Step::Deliver(14), "changed"),
    (0, Step::Deliver(15), "same"),
];

/// What all of them know in the end. Node 0 spent 2 of the 4 rights of a and gave 2 to node 1; node
/// 2 set b last, and of its 2 rights spent one and gave one to node 0. Each point was passed three
/// times.
const IN_THE_END: &[Line] = &[
    (0, Step::View, "a=4*off;b=2*off | 0 2 0 2 3 | 1 0 0 1 3"),
    (1, Step::View, "a=4*off;b=2*off | 0 2 0 2 3 | 1 0 0 1 3"),
    (2, Step::View, "a=4*off;b=2*off | 0 2 0 2 3 | 1 0 0 1 3"),
];

const STORIES: &[Story] = &[
    Story {
        title: "as written",
        nodes: &NODES,
        names: &["a", "b"],
        parts: &[ACTS, AS_WRITTEN, IN_THE_END],
    },
    Story {
        title: "last one first",
        nodes: &NODES,
        names: &["a", "b"],
        parts: &[ACTS, LAST_ONE_FIRST, IN_THE_END],
    },
    Story {
        title: "last ones alone",
        nodes: &NODES,
        names: &["a", "b"],
        parts: &[ACTS, LAST_ONES_ALONE, IN_THE_END],
    },
    Story {
        title: "by way of another",
        nodes: &NODES,
        names: &["a", "b"],
        parts: &[ACTS, BY_WAY_OF_NODE_1, IN_THE_END],
    },
];

#[test]
fn stories() {
    play(STORIES);
}
