//! A served node with the arguments of `failreg serve`: `tools/serve_over_loopback` sends
//! adversarial input to either.
//!
//!     served_node serve --node N --nodes M (--port P | --listen ADDRESS:P --key-file FILE) [PEER..]
//!         [--requests R] [--cap C] [--every MS] [--record PART] [--run TEXT] [--buffered 1]
//!         [--pass POINT]
//!
//! A peer is `N:PORT`, a node at a port of this machine, or `N:ADDRESS:PORT`. It prints `listening`
//! and the port, and serves until it is ended; --requests is accepted and ignored.
//!
//! With `--record` it writes its journal, and resumes from it. With `--pass` three threads and
//! `main` evaluate the point all the time: `panic` in `main` ends the process, and after `return`
//! it prints `ran` and the text. `tools/restart_programs` starts it again each time.

use failreg::{Builder, Peer, Registry, gossip, serve};
use std::error::Error;
use std::io::{self, Write};
use std::net::{Ipv4Addr, SocketAddr};
use std::sync::Arc;
use std::thread;
use std::time::Duration;

/// The values of the arguments.
struct Wanted {
    builder: Builder,
    listen: SocketAddr,
    every: Duration,
    peers: Vec<Peer>,
    passed: Option<String>,
}

fn peer(word: &str) -> Result<Peer, Box<dyn Error>> {
    let (node, place) = word.split_once(':').ok_or("a peer is N:PORT")?;
    let addr = match place.parse() {
        Ok(port) => (Ipv4Addr::LOCALHOST, port).into(),
        Err(_) => place.parse::<SocketAddr>()?,
    };
    Ok(Peer::new(node.parse()?, addr))
}

fn wanted(mut words: impl Iterator<Item = String>) -> Result<Wanted, Box<dyn Error>> {
    let mut wanted = Wanted {
        builder: Registry::builder(),
        listen: (Ipv4Addr::LOCALHOST, 0).into(),
        every: Duration::from_millis(100),
        peers: Vec::new(),
        passed: None,
    };
    while let Some(word) = words.next() {
        if !word.starts_with("--") {
            wanted.peers.push(peer(&word)?);
            continue;
        }
        let value = words.next().ok_or("an option has a value")?;
        match word.as_str() {
            "--node" => wanted.builder = wanted.builder.node(value.parse()?),
            "--nodes" => wanted.builder = wanted.builder.nodes(value.parse()?),
            "--cap" => wanted.builder = wanted.builder.cap(value.parse()?),
            "--port" => wanted.listen.set_port(value.parse()?),
            "--listen" => wanted.listen = value.parse()?,
            "--key-file" => wanted.builder = wanted.builder.key_file(value),
            "--every" => wanted.every = Duration::from_millis(value.parse()?),
            "--record" => wanted.builder = wanted.builder.recording(value),
            "--run" => wanted.builder = wanted.builder.run(value),
            "--buffered" => wanted.builder = wanted.builder.buffered(value == "1"),
            "--pass" => wanted.passed = Some(value),
            "--requests" | "--rounds" => {}
            _ => return Err(format!("{word} isn't known").into()),
        }
    }
    Ok(wanted)
}

fn pass_often(node: &Registry, point: &str) -> ! {
    loop {
        if let Some(reason) = node.eval(point) {
            // In one write, so that the line is whole wherever the process ends.
            let line = format!("ran {}\n", reason.unwrap_or_default());
            drop(io::stdout().write_all(line.as_bytes()));
        }
        thread::sleep(Duration::from_millis(1));
    }
}

fn main() -> Result<(), Box<dyn Error>> {
    let wanted = wanted(std::env::args().skip(2))?;
    let node = Arc::new(wanted.builder.build()?);
    let serving = serve(node.clone(), wanted.listen)?;
    let _telling = gossip(node.clone(), &wanted.peers, wanted.every)?;
    println!("listening {}", serving.addr().port());
    io::stdout().flush()?;
    let Some(point) = wanted.passed else {
        loop {
            thread::park();
        }
    };
    for _ in 0..3 {
        let (node, point) = (node.clone(), point.clone());
        thread::spawn(move || pass_often(&node, &point));
    }
    pass_often(&node, &point)
}
