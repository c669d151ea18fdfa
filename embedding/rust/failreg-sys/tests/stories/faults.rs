//! Calls that are refused.

use super::node::{ALONE, Config, Node};
use super::stage::{Line, Step, Story, play};

const TWO_CALLS: Config = Config {
    node: 0,
    nodes: 1,
    trace_cap: 2,
};

const FULL_TRACE: &[Line] = &[
    (0, Step::Set("a", "off"), "1.0"),
    (0, Step::Pass("a", &[]), "act 1.0 0 off"),
    (0, Step::Pass("a", &[]), "N1 TraceFull"),
    (0, Step::Remove("a"), "N1 TraceFull"),
    (0, Step::Load("a=yield"), "N1 TraceFull"),
    (0, Step::Shift("a", 0, 1, 1), "N1 TraceFull"),
    // The first refusal that applies is the answer.
    (0, Step::Set("bad!", "fly"), "N1 TraceFull"),
    (0, Step::List, "a=off"),
];

const NO_CALLS: Config = Config {
    node: 0,
    nodes: 1,
    trace_cap: 0,
};

const TEXTS_AND_WORDS: &[Line] = &[
    (0, Step::Set("bad!", "fly"), "N2 BadName"),
    (0, Step::Set("a", "off->"), "N3 BadActions A6 NoTask term=1"),
    (0, Step::Set("a", "20%off"), "1.0"),
    (0, Step::Pass("a", &[]), "N14 BadWords need=1"),
    (0, Step::Pass("a", &[0, 0]), "N14 BadWords need=1"),
    (0, Step::Pass("b", &[7]), "N14 BadWords need=0"),
    (0, Step::Pass("", &[]), "N2 BadName"),
    (0, Step::Entries, "1"),
];

const NINE_CALLS: Config = Config {
    node: 0,
    nodes: 2,
    trace_cap: 9,
};

const EACH_ASK: &[Line] = &[
    (0, Step::Load("a=5*off;b=off"), "2"),
    (0, Step::Remove("b"), "3.0"),
    (0, Step::Shift("a", 0, 1, 2), "2"),
    (0, Step::Emit(1), "message 0"),
    (0, Step::Length(0), "84"),
    (
        0,
        Step::DeliverBytes(b"FPG"),
        "N16 BadMessage W2 Short offset=0",
    ),
    (0, Step::Entries, "4"),
];

const ONE_CALL: Config = Config {
    node: 0,
    nodes: 2,
    trace_cap: 1,
};

const LAST_CALL: &[Line] = &[
    (0, Step::Set("a", "off"), "1.0"),
    (0, Step::DeliverBytes(b"FPG"), "N1 TraceFull"),
];

const STORIES: &[Story] = &[
    Story {
        title: "full trace",
        nodes: &[TWO_CALLS],
        names: &["a"],
        parts: &[FULL_TRACE],
    },
    Story {
        title: "no calls at all",
        nodes: &[NO_CALLS],
        names: &["a"],
        parts: &[&[(0, Step::Set("a", "off"), "N1 TraceFull")]],
    },
    Story {
        title: "names texts and words",
        nodes: &[ALONE],
        names: &["a", "b"],
        parts: &[TEXTS_AND_WORDS],
    },
    Story {
        title: "each ask",
        nodes: &[NINE_CALLS],
        names: &["a", "b"],
        parts: &[EACH_ASK],
    },
    Story {
        title: "last call",
        nodes: &[ONE_CALL],
        names: &["a"],
        parts: &[LAST_CALL],
    },
];

#[test]
fn stories() {
    play(STORIES);
}

/// How many calls a new node has accepted, or why there is none.
fn entries_of(node: u8, nodes: u8) -> String {
    let opened = Node::open(Config {
        node,
        nodes,
        trace_cap: 5,
    });
    match opened {
        Ok(mut node) => node.entries(),
        Err(status) => format!("refused: {status}"),
    }
}

const CONFIGURATIONS: &[(u8, u8, &str)] = &[
    (0, 1, "0"),
    (15, 16, "0"),
    (16, 17, "0"),
    (31, 32, "0"),
    (0, 0, "refused: 21"),
    (0, 33, "refused: 21"),
    (32, 32, "refused: 21"),
    (1, 1, "refused: 21"),
];

#[test]
fn configurations() {
    for (node, nodes, wanted) in CONFIGURATIONS {
        let came = entries_of(*node, *nodes);
        assert!(
            came == *wanted,
            "node {node} of {nodes}: {came:?} came, {wanted:?} was wanted"
        );
    }
}
