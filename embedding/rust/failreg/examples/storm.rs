//! Delivers forged messages to a node, and prints the results.
//!
//!     storm SEED MESSAGES
//!
//! They are messages that nodes made for node 0, with bytes altered, left out and duplicated,
//! truncated, and joined from two, and random bytes, up to 70,000 of them. A rejected one must
//! change nothing. An accepted one must be spelled as a node with exactly this knowledge spells it.
//! The status is 1 if one isn't, or if few were checked.

use failreg::{Error, Registry};
use std::collections::BTreeMap;
use std::ops::Range;
use std::process::ExitCode;

const NODES: u8 = 32;

/// The longest message, in bytes.
const MOST_BYTES: usize = 70_000;

/// After this many messages they are delivered to an empty node again.
const MESSAGES_A_NODE: u64 = 1_000;

/// The positions of the sender and the acknowledgement in a message; the names follow.
const SENDER: usize = 4;
const ACKNOWLEDGED: Range<usize> = 22..30;

fn opened(number: u8) -> Result<Registry, Error> {
    let builder = Registry::builder().node(number).nodes(NODES);
    builder.seed([7; 32]).build()
}

/// Messages of a few nodes to node 0. The longest has some 67,000 bytes.
fn real_messages() -> Result<Vec<Vec<u8>>, Error> {
    let mut real = messages_of_one_node()?;
    real.extend(messages_of_a_pair()?);
    // A node 0 that is discarded: node 3 knows more about it than a new node 0 does.
    let (forgotten, three) = (opened(0)?, opened(3)?);
    forgotten.load("e=3*off")?;
    forgotten.pass("e")?;
    three.deliver(&forgotten.emit(3)?)?;
    real.push(three.emit(0)?);
    forgotten.deliver(&three.emit(0)?)?;
    three.deliver(&forgotten.emit(3)?)?;
    real.push(three.emit(0)?);
    let long = format!("3*print({})", "x".repeat(991));
    let texts = ["1*off->2*off->3*off->4*off->panic", "2*off", &long];
    for ((number, points), text) in [(4, 1), (5, 256), (6, 64)].into_iter().zip(texts) {
        let node = opened(number)?;
        for point in 0..points {
            node.set(&format!("point{point}"), text)?;
        }
        real.push(node.emit(0)?);
    }
    Ok(real)
}

/// A point that is set, evaluated, transferred, granted and removed.
fn messages_of_one_node() -> Result<Vec<Vec<u8>>, Error> {
    let node = opened(1)?;
    node.load("a=20%3*print(hi)->2*off->panic")?;
    let set = node.emit(0)?;
    node.pass("a")?;
    node.shift("a", 1, 0, 1)?;
    let passed = node.emit(0)?;
    node.grant("a", 0, 5)?;
    node.shift("a", 0, 2, 3)?;
    let granted = node.emit(0)?;
    node.remove("a")?;
    Ok(vec![set, passed, granted, node.emit(0)?])
}

/// Nodes that send messages to each other and to node 0.
fn messages_of_a_pair() -> Result<Vec<Vec<u8>>, Error> {
    let (one, other) = (opened(30)?, opened(31)?);
    one.load("b=4*off->print(x);c=2*return(7);d=off")?;
    one.shift("b", 0, 31, 3)?;
    one.grant("c", 0, 9)?;
    other.deliver(&one.emit(31)?)?;
    other.pass("b")?;
    let first = other.emit(0)?;
    other.pass("d")?;
    one.deliver(&other.emit(30)?)?;
    Ok(vec![first, one.emit(0)?, other.emit(0)?])
}

/// Draws numbers by SplitMix64. The same seed draws the same numbers.
struct Dice(u64);

impl Dice {
    fn word(&mut self) -> u64 {
        self.0 = self.0.wrapping_add(0x9e37_79b9_7f4a_7c15);
        let mixed = (self.0 ^ (self.0 >> 30)).wrapping_mul(0xbf58_476d_1ce4_e5b9);
        let mixed = (mixed ^ (mixed >> 27)).wrapping_mul(0x94d0_49bb_1331_11eb);
        mixed ^ (mixed >> 31)
    }

    /// Returns a number below this one, which isn't 0.
    fn below(&mut self, bound: usize) -> usize {
        (self.word() % bound as u64) as usize
    }

    fn byte(&mut self) -> u8 {
        self.word().to_le_bytes()[0]
    }

    fn one_of<'a>(&mut self, real: &'a [Vec<u8>]) -> &'a [u8] {
        &real[self.below(real.len())]
    }

    /// The bytes before a position, perhaps all.
    fn start_of<'a>(&mut self, bytes: &'a [u8]) -> &'a [u8] {
        &bytes[..self.below(bytes.len() + 1)]
    }

    /// The bytes from a position on, perhaps all.
    fn end_of<'a>(&mut self, bytes: &'a [u8]) -> &'a [u8] {
        &bytes[self.below(bytes.len() + 1)..]
    }

    /// The bytes with one to four of them altered.
    fn altered(&mut self, bytes: &[u8]) -> Vec<u8> {
        let mut message = bytes.to_vec();
        for _ in 0..=self.below(4) {
            let place = self.below(message.len());
            message[place] = self.byte();
        }
        message
    }

    /// A message made from real ones, or random bytes.
    fn message(&mut self, real: &[Vec<u8>]) -> Vec<u8> {
        let one = self.one_of(real);
        let mut message = match self.below(8) {
            0 => one.to_vec(),
            1 | 2 => self.altered(one),
            3 => self.start_of(one).to_vec(),
            4 => {
                let other = self.one_of(real);
                [self.start_of(one), self.end_of(other)].concat()
            }
            5 | 6 => [self.start_of(one), self.end_of(one)].concat(),
            _ => (0..self.below(MOST_BYTES + 1))
                .map(|_| self.byte())
                .collect(),
        };
        message.truncate(MOST_BYTES);
        message
    }
}

/// Everything that a node shows and sends.
#[derive(PartialEq)]
struct Shown {
    list: String,
    version: u64,
    /// For each other node, its known version and the acknowledged version of this one.
    versions: Vec<(u64, u64)>,
    /// For each point that is set, its evaluations and the executions of its terms.
    counts: Vec<u128>,
    /// A message with everything that the node knows, for a node without acknowledgements.
    message: Vec<u8>,
}

impl Shown {
    /// What a node shows. It accepts one call more.
    fn of(node: &Registry) -> Result<Shown, Error> {
        let list = node.list()?;
        let mut counts = Vec::new();
        for (name, _) in list.split(';').filter_map(|entry| entry.split_once('=')) {
            counts.push(node.hits(name)?);
            for term in 0..4 {
                counts.push(node.spent(name, term)?);
            }
        }
        let versions = (0..NODES)
            .map(|other| Ok((node.known(other)?, node.acked(other)?)))
            .collect::<Result<Vec<_>, Error>>()?;
        let to = (1..NODES).find(|to| versions[usize::from(*to)].1 == 0);
        Ok(Shown {
            list,
            version: node.version()?,
            versions,
            counts,
            message: node.emit(to.expect("some node has acknowledged nothing"))?,
        })
    }
}

/// The result of a message.
enum Outcome {
    Accepted {
        changed: bool,
        is_spelled_so: Option<bool>,
    },
    Refused {
        code: String,
        is_as_before: bool,
    },
}

/// A node, and what it showed after the last message that it accepted.
struct Victim {
    node: Registry,
    shown: Shown,
}

/// The number and the name of an error, without its fields.
fn code_of(error: &Error) -> String {
    let fault = error.fault().trim_start_matches("N16 BadMessage ");
    fault.split(' ').take(2).collect::<Vec<_>>().join(" ")
}

/// Returns whether a message is spelled as a node with exactly this knowledge spells it; `None` if
/// such a node rejects it, because it overspends rights that it doesn't mention.
fn is_spelled_so(message: &[u8]) -> Result<Option<bool>, Error> {
    let node = opened(0)?;
    let mut unanswering = message.to_vec();
    unanswering[ACKNOWLEDGED].fill(0);
    if node.deliver(&unanswering).is_err() {
        return Ok(None);
    }
    let told = node.emit(if message[SENDER] == 1 { 2 } else { 1 })?;
    let names = ACKNOWLEDGED.end;
    Ok(Some(
        told[..SENDER] == message[..SENDER] && told[names..] == message[names..],
    ))
}

impl Victim {
    /// Node 0, which knows nothing.
    fn new() -> Result<Victim, Error> {
        let node = opened(0)?;
        let shown = Shown::of(&node)?;
        Ok(Victim { node, shown })
    }

    fn take(&mut self, message: &[u8]) -> Result<Outcome, Error> {
        let calls = self.node.calls()?;
        match self.node.deliver(message) {
            Ok(changed) => {
                self.shown = Shown::of(&self.node)?;
                Ok(Outcome::Accepted {
                    changed,
                    is_spelled_so: is_spelled_so(message)?,
                })
            }
            Err(refused) => Ok(Outcome::Refused {
                code: code_of(&refused),
                is_as_before: self.node.calls()? == calls && Shown::of(&self.node)? == self.shown,
            }),
        }
    }
}

/// The number of messages by result.
#[derive(Default)]
struct Tally {
    kinds: BTreeMap<String, u64>,
    spelled: u64,
    wrong: u64,
}

impl Tally {
    fn count(&mut self, outcome: Outcome) {
        let (kind, is_well) = match outcome {
            Outcome::Accepted {
                changed,
                is_spelled_so,
            } => {
                self.spelled += u64::from(is_spelled_so == Some(true));
                let kind = if changed {
                    "accepted, changed"
                } else {
                    "accepted, same"
                };
                (kind.to_string(), is_spelled_so != Some(false))
            }
            Outcome::Refused { code, is_as_before } => (format!("refused {code}"), is_as_before),
        };
        *self.kinds.entry(kind).or_default() += 1;
        self.wrong += u64::from(!is_well);
    }
}

fn storm(seed: u64, messages: u64) -> Result<Tally, Error> {
    let real = real_messages()?;
    let mut dice = Dice(seed);
    let mut tally = Tally::default();
    let mut victim = Victim::new()?;
    for number in 0..messages {
        if number % MESSAGES_A_NODE == 0 {
            victim = Victim::new()?;
        }
        tally.count(victim.take(&dice.message(&real))?);
    }
    Ok(tally)
}

fn main() -> Result<ExitCode, Box<dyn std::error::Error>> {
    let words: Vec<String> = std::env::args().collect();
    let [_, seed, messages] = &words[..] else {
        return Err("storm SEED MESSAGES".into());
    };
    let messages = messages.parse()?;
    let tally = storm(seed.parse()?, messages)?;
    for (kind, many) in &tally.kinds {
        println!("{many} {kind}");
    }
    println!(
        "{} spelled as a node spells them, {} wrong",
        tally.spelled, tally.wrong
    );
    let is_well = tally.wrong == 0 && tally.spelled > messages / 20;
    Ok(if is_well {
        ExitCode::SUCCESS
    } else {
        ExitCode::FAILURE
    })
}
