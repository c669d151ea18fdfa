//! Stories: calls one after the other, each with what it answers in print.

use super::node::{Answer, Config, Node};

/// A call of a node, or a look at it.
pub enum Step {
    Set(&'static str, &'static str),
    Remove(&'static str),
    Load(&'static str),
    /// Sets a point for each number from one to before another, which is its name, in base 16.
    LoadNumbers(u16, u16),
    /// A pass with these random draws.
    Pass(&'static str, &'static [u32]),
    Shift(&'static str, u8, u8, u64),
    Grant(&'static str, u8, u64),
    /// A message to a node. It is kept: the first one is number 0.
    Emit(u8),
    /// A kept message, by its number.
    Deliver(usize),
    DeliverBytes(&'static [u8]),
    /// So many of the bytes.
    DeliverFirst(usize, &'static [u8]),
    /// The bytes and one more.
    DeliverLonger(&'static [u8], u8),
    /// The bytes, where those from one place to before another are this one.
    DeliverAltered(&'static [u8], usize, usize, u8),
    /// Whether a kept message is these bytes.
    IsMessage(usize, &'static [u8]),
    /// How many bytes a kept message has.
    Length(usize),
    Rights(&'static str, u8, u8),
    Spent(&'static str, u8),
    Hits(&'static str),
    /// How many random draws a pass takes.
    Words(&'static str),
    /// Whether a pause is over that began under the stamp of this clock and node.
    PauseOver(&'static str, u64, u8),
    List,
    /// The list, and of each name that is set the rights of three nodes to execute the first
    /// term, the executions of that term and the passes.
    View,
    Entries,
    Version,
    /// The version of another node that this one has.
    Known(u8),
    /// The version of this node that another one has.
    Acked(u8),
}

/// The place of a node, what it is asked there, and the answer.
pub type Line = (usize, Step, &'static str);

pub struct Story {
    pub title: &'static str,
    /// Nodes that have accepted no call.
    pub nodes: &'static [Config],
    /// The names that are looked at, in the order of their bytes.
    pub names: &'static [&'static str],
    pub parts: &'static [&'static [Line]],
}

fn numbered_points(from: u16, until: u16) -> String {
    let points: Vec<_> = (from..until).map(|n| format!("{n:02x}=off")).collect();
    points.join(";")
}

/// The bytes that a step delivers, if it does.
fn bytes_of(messages: &[Vec<u8>], step: &Step) -> Option<Vec<u8>> {
    Some(match *step {
        Step::Deliver(number) => messages[number].clone(),
        Step::DeliverBytes(bytes) => bytes.to_vec(),
        Step::DeliverFirst(count, bytes) => bytes[..count].to_vec(),
        Step::DeliverLonger(bytes, byte) => [bytes, &[byte]].concat(),
        Step::DeliverAltered(bytes, from, until, byte) => {
            let mut message = bytes.to_vec();
            message[from..until].fill(byte);
            message
        }
        _ => return None,
    })
}

fn emit(node: &mut Node, messages: &mut Vec<Vec<u8>>, to: u8) -> Answer {
    let number = messages.len();
    messages.push(node.emit(to)?);
    Ok(format!("message {number}"))
}

/// What a step answers, if it is a call.
fn call(node: &mut Node, messages: &mut Vec<Vec<u8>>, step: &Step) -> Option<Answer> {
    Some(match *step {
        Step::Set(name, actions) => node.set(name, actions),
        Step::Remove(name) => node.remove(name),
        Step::Load(text) => node.load(text),
        Step::LoadNumbers(from, until) => node.load(&numbered_points(from, until)),
        Step::Pass(name, words) => node.pass(name, words),
        Step::Shift(name, term, to, amount) => node.shift(name, term, to, amount),
        Step::Grant(name, term, amount) => node.grant(name, term, amount),
        Step::Emit(to) => emit(node, messages, to),
        _ => node.deliver(&bytes_of(messages, step)?),
    })
}

/// What a look at a node, or at a message that was made, shows.
fn look(node: &mut Node, messages: &[Vec<u8>], names: &[&str], step: &Step) -> String {
    match *step {
        Step::IsMessage(number, bytes) => (messages[number] == bytes).to_string(),
        Step::Length(number) => messages[number].len().to_string(),
        Step::Rights(name, term, of) => node.rights(name, term, of),
        Step::Spent(name, term) => node.spent(name, term),
        Step::Hits(name) => node.hits(name),
        Step::Words(name) => node.words(name),
        Step::PauseOver(name, clock, since) => node.pause_over(name, clock, since),
        Step::List => node.list(),
        Step::View => node.view(names),
        Step::Entries => node.entries(),
        Step::Version => node.version(),
        Step::Known(from) => node.known(from),
        Step::Acked(to) => node.acked(to),
        _ => "no look".to_string(),
    }
}

/// What a step answers in print. A message that it makes is kept. A refused call has to leave the
/// node as it was, and so has a look.
fn answer(node: &mut Node, messages: &mut Vec<Vec<u8>>, names: &[&str], step: &Step) -> String {
    let before = node.all(names);
    let shown = match call(node, messages, step) {
        Some(Ok(told)) => return told,
        Some(Err(fault)) => fault,
        None => look(node, messages, names, step),
    };
    let after = node.all(names);
    if after == before {
        shown
    } else {
        format!("{shown}, and the node went from {before:?} to {after:?}")
    }
}

fn play_story(story: &Story) {
    let mut messages = Vec::new();
    let opened: Result<Vec<_>, _> = story.nodes.iter().copied().map(Node::open).collect();
    let mut nodes = opened.expect("the nodes of a story open");
    for (part, lines) in story.parts.iter().enumerate() {
        for (row, (place, step, wanted)) in lines.iter().enumerate() {
            let came = answer(&mut nodes[*place], &mut messages, story.names, step);
            assert!(
                came == *wanted,
                "story {:?}, part {}, row {}: {came:?} came, {wanted:?} was wanted",
                story.title,
                part + 1,
                row + 1
            );
        }
    }
}

/// Plays stories. The test ends where a row answers otherwise.
pub fn play(stories: &[Story]) {
    stories.iter().for_each(play_story);
}
