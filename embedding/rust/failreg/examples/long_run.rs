//! Evaluates two points by four threads for a long time, and prints how much memory the process
//! has.
//!
//!     long_run EVALUATIONS
//!
//! One point is counted, the other isn't. The memory after 1,000,000 evaluations, or after a tenth
//! of them if that is less, and at the end is what Linux reports (`VmRSS`). The status is 1 if it
//! grew by a megabyte or more, if an evaluation was rejected, or if the counted point ran more
//! often than its count.

use failreg::{Builder, Passed, Registry};
use std::error::Error;
use std::process::ExitCode;
use std::time::Instant;

const THREADS: u64 = 4;
const COUNT: u64 = 1000;
const MOST_GROWTH: u64 = 1024;

/// In kilobytes.
fn memory() -> Result<u64, Box<dyn Error>> {
    let status = std::fs::read_to_string("/proc/self/status")?;
    let line = status.lines().find_map(|line| line.strip_prefix("VmRSS:"));
    let number = line.and_then(|line| line.split_whitespace().next());
    Ok(number.ok_or("/proc/self/status has no VmRSS")?.parse()?)
}

/// Evaluates both points in turn, this many times over all threads. Returns how often the counted
/// one ran.
fn pass(node: &Registry, passes: u64) -> Result<u64, failreg::Error> {
    let share = passes / THREADS;
    let worker = |first: u64| -> Result<u64, failreg::Error> {
        let mut ran = 0;
        for pass in first..first + share {
            let name = if pass % 2 == 0 { "counted" } else { "free" };
            let acted = matches!(node.pass(name)?, Passed::Act { .. });
            ran += u64::from(acted && pass % 2 == 0);
        }
        Ok(ran)
    };
    std::thread::scope(|scope| {
        let all: Vec<_> = (0..THREADS)
            .map(|n| scope.spawn(move || worker(n)))
            .collect();
        all.into_iter()
            .map(|one| one.join().expect("a worker panicked"))
            .sum()
    })
}

fn run(passes: u64) -> Result<bool, Box<dyn Error>> {
    let node = Registry::open(0, 1, Builder::MOST_CALLS)?;
    node.load(&format!("counted={COUNT}*off;free=off"))?;
    let first = passes.div_ceil(10).min(1_000_000);
    let begun = Instant::now();
    let mut ran = pass(&node, first)?;
    let early = memory()?;
    ran += pass(&node, passes - first)?;
    let (late, seconds) = (memory()?, begun.elapsed().as_secs_f64());
    let calls = node.calls()?;
    println!("{calls} calls in {seconds:.1} s; the counted point ran {ran} times of {COUNT}");
    println!("{early} kB after {first} passes, {late} kB at the end");
    Ok(late < early + MOST_GROWTH && ran <= COUNT)
}

fn main() -> ExitCode {
    let passes = std::env::args().nth(1).and_then(|word| word.parse().ok());
    let Some(passes) = passes else {
        eprintln!("usage: long_run PASSES");
        return ExitCode::from(2);
    };
    match run(passes) {
        Ok(true) => ExitCode::SUCCESS,
        Ok(false) => {
            eprintln!("its memory grew, or it ran too often");
            ExitCode::FAILURE
        }
        Err(error) => {
            eprintln!("{error}");
            ExitCode::FAILURE
        }
    }
}
