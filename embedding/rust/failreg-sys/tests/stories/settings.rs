use super::node::{ALONE, FIRST_OF_TWO};
use super::stage::{Line, Step, Story, play};

const LOADS: &[Line] = &[
    (0, Step::Load(";a=off; ;b=2*return()"), "2"),
    (0, Step::List, "a=off;b=2*return()"),
    (
        0,
        Step::Load("a=yield;b=bad"),
        "N3 BadActions S4 BadActions entry=1 A7 UnknownTask term=0",
    ),
    (
        0,
        Step::Load("c=yield;d"),
        "N3 BadActions S2 NoEquals entry=1",
    ),
    (0, Step::Load("c=yield;d =off"), "N2 BadName"),
    (0, Step::List, "a=off;b=2*return()"),
    (0, Step::Load(""), "0"),
    (0, Step::Entries, "2"),
    // The clocks of a load follow each other, and so does the next setting.
    (0, Step::Set("c", "off"), "3.0"),
];

const NAME_TWICE: &[Line] = &[
    (0, Step::Set("a", "1*off"), "1.0"),
    (0, Step::Pass("a", &[]), "act 1.0 0 off"),
    (0, Step::Load("a=2*off;b=off;a=3*off"), "3"),
    (0, Step::List, "a=3*off;b=off"),
    // The last of the two holds, under the third clock of the load; hits go on, and rights are new.
    (0, Step::PauseOver("a", 4, 0), "false"),
    (0, Step::Rights("a", 0, 0), "3"),
    (0, Step::Spent("a", 0), "0"),
    (0, Step::Hits("a"), "1"),
    // Two names are held of the 256 that may be.
    (0, Step::LoadNumbers(0, 255), "N4 TooManyPoints"),
    (0, Step::LoadNumbers(0, 254), "254"),
];

const REMOVALS: &[Line] = &[
    (0, Step::Set("a", "2*off"), "1.0"),
    (0, Step::Pass("a", &[]), "act 1.0 0 off"),
    (0, Step::Remove("a"), "2.0"),
    (0, Step::PauseOver("a", 1, 0), "true"),
    (0, Step::List, ""),
    (0, Step::Pass("a", &[]), "unset"),
    (0, Step::Hits("a"), "1"),
    (0, Step::Rights("a", 0, 0), "0"),
    // Also what isn't known is removed, and both names are held from then on: see the end.
    (0, Step::Remove("b"), "3.0"),
    (0, Step::Remove("b!"), "N2 BadName"),
    (0, Step::Shift("a", 0, 1, 1), "N6 NotSet"),
    (0, Step::LoadNumbers(0, 255), "N4 TooManyPoints"),
    (0, Step::LoadNumbers(0, 254), "254"),
];

const LOADS_OVER: &[Line] = &[
    (0, Step::Load("p=off;q=3*yield;p=2*panic;r=off"), "4"),
    (
        0,
        Step::View,
        "p=2*panic;q=3*yield;r=off | 2 0 0 0 0 | 3 0 0 0 0 | 0 0 0 0 0",
    ),
    (0, Step::Load("a=off;q=yield;z=off"), "3"),
    (0, Step::Shift("p", 0, 1, 1), "1"),
    (0, Step::Rights("p", 0, 0), "1"),
    (0, Step::Rights("p", 0, 1), "1"),
    (0, Step::Entries, "3"),
    (0, Step::Remove("s"), "8.0"),
    (0, Step::Entries, "4"),
    (0, Step::Rights("p", 0, 0), "1"),
    (0, Step::List, "a=off;p=2*panic;q=yield;r=off;z=off"),
];

const STORIES: &[Story] = &[
    Story {
        title: "loads and lists",
        nodes: &[ALONE],
        names: &["a", "b", "c", "d"],
        parts: &[LOADS],
    },
    Story {
        title: "loads a name twice",
        nodes: &[ALONE],
        names: &["a", "b"],
        parts: &[NAME_TWICE],
    },
    Story {
        title: "removes",
        nodes: &[ALONE],
        names: &["a", "b"],
        parts: &[REMOVALS],
    },
    Story {
        title: "loads over what is set",
        nodes: &[FIRST_OF_TWO],
        names: &["a", "p", "q", "r", "s", "z"],
        parts: &[LOADS_OVER],
    },
];

#[test]
fn stories() {
    play(STORIES);
}
