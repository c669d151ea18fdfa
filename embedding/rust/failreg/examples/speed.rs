//! Times `fail_point!` in Rust: see bench/README.md.
//!
//!     speed KIND THREADS EVALUATIONS [JOURNAL [HOW..]]
//!
//! prints nanoseconds per evaluation, over all threads, and how many bytes of memory an evaluation
//! adds. With JOURNAL the node writes its journal to this new file, `buffered` or `synced` if HOW
//! says so.

use failreg::{Registry, fail_point};
use std::hint::black_box;
use std::time::Instant;

const KINDS: [(&str, &[&str]); 6] = [
    ("nothing-set", &[]),
    ("unset", &["other.point=return"]),
    ("uncounted", &["other.point=return", "some.point=return"]),
    (
        "counted",
        &["other.point=return", "some.point=1000000000*return"],
    ),
    (
        "spent",
        &["other.point=return", "some.point=0*off->return(spent)"],
    ),
    ("chance", &["other.point=return", "some.point=50%return"]),
];

fn passed(node: &Registry) -> u32 {
    fail_point!(in node, "some.point", |_| 1);
    0
}

fn work(node: &Registry, passes: u64) {
    for _ in 0..passes {
        black_box(passed(black_box(node)));
    }
}

fn bytes_resident() -> f64 {
    let statm = std::fs::read_to_string("/proc/self/statm").expect("/proc/self/statm is there");
    let pages = statm
        .split(' ')
        .nth(1)
        .and_then(|pages| pages.parse::<f64>().ok());
    4096.0 * pages.expect("it has two numbers")
}

fn main() {
    let words: Vec<String> = std::env::args().collect();
    let [_, kind, threads, passes, part @ ..] = &words[..] else {
        panic!("speed KIND THREADS PASSES [PART [HOW..]]")
    };
    let threads: u64 = threads.parse().expect("threads are a number");
    let each = passes.parse::<u64>().expect("passes are a number") / threads;
    let (_, settings) = KINDS.iter().find(|it| it.0 == kind).expect("no such kind");
    let mut builder = Registry::builder().nodes(2);
    if let [path, how @ ..] = part {
        let has = |word: &str| how.iter().any(|it| it == word);
        builder = builder.recording(path.as_str());
        builder = builder.buffered(has("buffered")).synced(has("synced"));
    }
    let node = builder.build().expect("a node");
    for setting in *settings {
        node.load(setting).expect("a setting");
    }
    let (resident, begun) = (bytes_resident(), Instant::now());
    std::thread::scope(|scope| {
        (1..threads).for_each(|_| drop(scope.spawn(|| work(&node, each))));
        work(&node, each);
    });
    let made = (each * threads) as f64;
    let took = begun.elapsed().as_nanos() as f64;
    println!(
        "{:.2} {:.2}",
        took / made,
        (bytes_resident() - resident) / made
    );
}
