use super::node::ALONE;
use super::stage::{Line, Step, Story, play};

const COUNT_OF_THREE: &[Line] = &[
    (0, Step::Set("p", "20%3*print(still alive!)->panic"), "1.0"),
    (0, Step::Words("p"), "1"),
    (0, Step::Rights("p", 0, 0), "3"),
    (0, Step::Pass("p", &[0]), "act 1.0 0 print(still alive!)"),
    (0, Step::Rights("p", 0, 0), "2"),
    (0, Step::Pass("p", &[0]), "act 1.0 0 print(still alive!)"),
    (0, Step::Rights("p", 0, 0), "1"),
    (0, Step::Pass("p", &[0]), "act 1.0 0 print(still alive!)"),
    (0, Step::Rights("p", 0, 0), "0"),
    (0, Step::Pass("p", &[0]), "act 1.0 1 panic"),
    (0, Step::Spent("p", 0), "3"),
    (0, Step::Hits("p"), "4"),
    (0, Step::Pass("p", &[]), "N14 BadWords need=1"),
    (0, Step::List, "p=20%3*print(still alive!)->panic"),
    (0, Step::Entries, "5"),
];

const FAILED_CHANCE: &[Line] = &[
    (0, Step::Set("p", "20%1*off"), "1.0"),
    (0, Step::Pass("p", &[858_993_460]), "none 1.0"),
    (0, Step::Spent("p", 0), "0"),
    (0, Step::Pass("p", &[858_993_459]), "act 1.0 0 off"),
    (0, Step::Rights("p", 0, 0), "0"),
];

const NEW_KEY: &[Line] = &[
    (0, Step::Set("p", "1*off"), "1.0"),
    (0, Step::Pass("p", &[]), "act 1.0 0 off"),
    (0, Step::Pass("p", &[]), "none 1.0"),
    (0, Step::PauseOver("p", 1, 0), "false"),
    (0, Step::Set("p", "1*off"), "2.0"),
    (0, Step::PauseOver("p", 1, 0), "true"),
    (0, Step::PauseOver("p", 2, 0), "false"),
    (0, Step::Pass("p", &[]), "act 2.0 0 off"),
    (0, Step::Spent("p", 0), "1"),
    (0, Step::Hits("p"), "3"),
];

const UNSET_POINT: &[Line] = &[
    (0, Step::Pass("q", &[]), "unset"),
    (0, Step::Hits("q"), "0"),
    (0, Step::Rights("q", 0, 0), "0"),
    (0, Step::Words("q"), "0"),
    (0, Step::PauseOver("q", 0, 0), "true"),
    (0, Step::List, ""),
    (0, Step::Entries, "1"),
];

const THREE_POINTS: &[Line] = &[
    (0, Step::Set("b", "2*return()"), "1.0"),
    (0, Step::Set("a", " 100.0%off -> yield "), "2.0"),
    (0, Step::Set("a:b", "off"), "3.0"),
    (0, Step::List, "a=off->yield;a:b=off;b=2*return()"),
];

const LATER_TERMS: &[Line] = &[
    (0, Step::Set("p", "0*off->2*yield->50%1*panic"), "1.0"),
    (0, Step::Pass("p", &[0]), "act 1.0 1 yield"),
    (0, Step::Pass("p", &[0]), "act 1.0 1 yield"),
    (0, Step::Pass("p", &[2_147_483_648]), "none 1.0"),
    (0, Step::Pass("p", &[2_147_483_647]), "act 1.0 2 panic"),
    (0, Step::Spent("p", 0), "0"),
    (0, Step::Spent("p", 1), "2"),
    (0, Step::Spent("p", 2), "1"),
];

const SET_OVER: &[Line] = &[
    (0, Step::Set("p", "20%2*print(a)->off"), "1.0"),
    (0, Step::View, "p=20%2*print(a)->off | 2 0 0 0 0"),
    (0, Step::Pass("p", &[0]), "act 1.0 0 print(a)"),
    (0, Step::View, "p=20%2*print(a)->off | 1 0 0 1 1"),
    (0, Step::Pass("p", &[0]), "act 1.0 0 print(a)"),
    (0, Step::View, "p=20%2*print(a)->off | 0 0 0 2 2"),
    (0, Step::Words("p"), "1"),
    (0, Step::Set("p", "off"), "2.0"),
    (0, Step::View, "p=off | 0 0 0 0 2"),
    (0, Step::Words("p"), "0"),
    (0, Step::Entries, "4"),
];

const STORIES: &[Story] = &[
    Story {
        title: "count of three",
        nodes: &[ALONE],
        names: &["p"],
        parts: &[COUNT_OF_THREE],
    },
    Story {
        title: "failed chance spends nothing",
        nodes: &[ALONE],
        names: &["p"],
        parts: &[FAILED_CHANCE],
    },
    Story {
        title: "new key starts with new cells",
        nodes: &[ALONE],
        names: &["p"],
        parts: &[NEW_KEY],
    },
    Story {
        title: "unset point counts nothing",
        nodes: &[ALONE],
        names: &["q"],
        parts: &[UNSET_POINT],
    },
    Story {
        title: "list goes by byte order",
        nodes: &[ALONE],
        names: &["a", "a:b", "b"],
        parts: &[THREE_POINTS],
    },
    Story {
        title: "later terms have rights of their own",
        nodes: &[ALONE],
        names: &["p"],
        parts: &[LATER_TERMS],
    },
    Story {
        title: "new setting keeps hits alone",
        nodes: &[ALONE],
        names: &["p"],
        parts: &[SET_OVER],
    },
];

#[test]
fn stories() {
    play(STORIES);
}
