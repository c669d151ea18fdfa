//! The cost of evaluating a set point next to an HTTP service, and next to gossip every 100 ms: see
//! bench/README.md.
//!
//!     serving_speed [ROUNDS]
//!
//! In a round each of three nodes makes a million evaluations: one alone, one that is served
//! without requests, and one that is served and gossips with a peer; in the next round they swap.
//! It prints the minimum and the median of the rounds, in nanoseconds per evaluation, and their
//! ratios to those of the first node.

use failreg::{Builder, Error, Gossip, Peer, Registry, Serving, fail_point, gossip, serve};
use std::hint::black_box;
use std::net::Ipv4Addr;
use std::sync::Arc;
use std::time::{Duration, Instant};

const PASSES: u32 = 1_000_000;
const EVERY: Duration = Duration::from_millis(100);
const KINDS: [&str; 3] = ["alone", "served", "telling"];

fn passed(node: &Registry) -> u32 {
    fail_point!(in node, "some.point", |_| 1);
    0
}

// Nanoseconds per evaluation.
fn time(node: &Registry) -> f64 {
    let begun = Instant::now();
    for _ in 0..PASSES {
        black_box(passed(black_box(node)));
    }
    begun.elapsed().as_nanos() as f64 / f64::from(PASSES)
}

fn open(number: u8) -> Result<Arc<Registry>, Error> {
    let node = Registry::open(number, 2, Builder::MOST_CALLS)?;
    Ok(Arc::new(node))
}

fn serve_free(node: &Arc<Registry>) -> Result<Serving, Error> {
    serve(node.clone(), (Ipv4Addr::LOCALHOST, 0))
}

/// A node, and a peer with which it may gossip. A peer is never opened again under its number.
struct Pair {
    node: Arc<Registry>,
    peer: Arc<Registry>,
}

impl Pair {
    fn open() -> Result<Pair, Error> {
        let (node, peer) = (open(0)?, open(1)?);
        node.set("some.point", "off")?;
        Ok(Pair { node, peer })
    }

    // The peer's service, and gossip in both directions.
    fn tell(&self, serving: &Serving) -> Result<(Serving, Gossip, Gossip), Error> {
        let its = serve_free(&self.peer)?;
        let there = gossip(self.node.clone(), &[Peer::new(1, its.addr())], EVERY)?;
        let back = gossip(self.peer.clone(), &[Peer::new(0, serving.addr())], EVERY)?;
        Ok((its, there, back))
    }
}

fn round([alone, served, telling]: [&Pair; 3]) -> Result<[f64; 3], Error> {
    let alone = time(&alone.node);
    let serving = serve_free(&served.node)?;
    let served = time(&served.node);
    serving.stop();
    let serving = serve_free(&telling.node)?;
    let (_its, there, _back) = telling.tell(&serving)?;
    let telling = time(&telling.node);
    assert!(there.peers()[0].messages > 0, "the peer was told");
    Ok([alone, served, telling])
}

fn main() -> Result<(), Error> {
    let rounds = std::env::args().nth(1).map_or(Ok(12), |text| text.parse());
    let rounds: usize = rounds.expect("serving_speed [ROUNDS]");
    let pairs = [Pair::open()?, Pair::open()?, Pair::open()?];
    let mut all: [Vec<f64>; 3] = Default::default();
    for turn in 0..rounds {
        // A node's address in memory makes a difference, so each node takes each turn.
        let took = round([0, 1, 2].map(|kind| &pairs[(turn + kind) % 3]))?;
        all.iter_mut()
            .zip(took)
            .for_each(|(kind, took)| kind.push(took));
    }
    all.iter_mut().for_each(|kind| kind.sort_by(f64::total_cmp));
    let (least, median) = (all[0][0], all[0][rounds / 2]);
    for (kind, took) in KINDS.iter().zip(&all) {
        let (its_least, its_median) = (took[0], took[rounds / 2]);
        println!(
            "{kind:8} least {its_least:.1} ns ({:.3}), median {its_median:.1} ns ({:.3})",
            its_least / least,
            its_median / median
        );
    }
    Ok(())
}
