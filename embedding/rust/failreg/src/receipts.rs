//! Receipts of accepted calls, and recordings of them, which `failreg audit` reads.

use std::collections::{HashMap, TryReserveError};
use std::io::{self, Write};
use std::thread::ThreadId;

/// Writes the line of a receipt: that of the call's entry, with the node and the position of the
/// entry in the node's call history. Members are in the order of their names.
pub fn write_receipt(out: &mut impl Write, entry: &[u8], node: u8, index: u64) -> io::Result<()> {
    // No text contains this, because quotes are escaped there.
    const REPLY: &[u8] = b",\"reply\":[";
    let mut places = entry.windows(REPLY.len());
    let reply = places.position(|bytes| bytes == REPLY);
    let (asked, told) = entry.split_at(reply.unwrap_or(entry.len()));
    out.write_all(asked)?;
    write!(out, ",\"index\":{index},\"node\":{node}")?;
    out.write_all(told)?;
    out.write_all(b"\n")
}

/// The most calls of one request: a setting, and a transfer of each of 16 terms to each of 31 nodes.
const MOST_CALLS: usize = 1 + 16 * 31;

/// The line of a call's entry, with its newline, and the thread that made the call.
struct Receipt {
    caller: ThreadId,
    entry: Vec<u8>,
}

/// The receipts of a node, at the positions of their entries in its call history.
pub struct Receipts {
    node: u8,
    all: Vec<Receipt>,
}

impl Receipts {
    pub fn of(node: u8) -> Receipts {
        Receipts {
            node,
            all: Vec::new(),
        }
    }

    /// Makes room for the receipts of a request.
    pub fn make_room(&mut self) -> Result<(), TryReserveError> {
        self.all.try_reserve(MOST_CALLS)
    }

    /// Stores the receipt of a call that this thread made, whose entry has this line, with its
    /// newline. If there is room for a receipt, it is stored: without memory for a copy it takes the
    /// line itself.
    pub fn keep(&mut self, line: &mut Vec<u8>) -> Result<(), TryReserveError> {
        self.all.try_reserve(1)?;
        let mut entry = Vec::new();
        match entry.try_reserve_exact(line.len()) {
            Ok(()) => entry.extend_from_slice(line),
            Err(_) => entry = std::mem::take(line),
        }
        let caller = std::thread::current().id();
        self.all.push(Receipt { caller, entry });
        Ok(())
    }

    /// Returns the positions of each caller's receipts, callers in the order of their first calls.
    fn by_caller(&self) -> Vec<Vec<usize>> {
        let mut places: HashMap<ThreadId, usize> = HashMap::new();
        let mut lists: Vec<Vec<usize>> = Vec::new();
        for (index, receipt) in self.all.iter().enumerate() {
            let place = *places.entry(receipt.caller).or_insert(lists.len());
            if place == lists.len() {
                lists.push(Vec::new());
            }
            lists[place].push(index);
        }
        lists
    }
}

fn write_entries(receipts: &Receipts, out: &mut impl Write) -> io::Result<()> {
    writeln!(out, "{{\"trace\":{}}}", receipts.node)?;
    receipts
        .all
        .iter()
        .try_for_each(|receipt| out.write_all(&receipt.entry))
}

fn write_lists(receipts: &Receipts, next: &mut usize, out: &mut impl Write) -> io::Result<()> {
    for list in receipts.by_caller() {
        writeln!(out, "{{\"list\":{next}}}")?;
        *next += 1;
        for index in list {
            let entry = receipts.all[index].entry.trim_ascii_end();
            write_receipt(out, entry, receipts.node, index as u64)?;
        }
    }
    Ok(())
}

/// Writes the recording of a whole cluster: the call history of each node, and a list of receipts
/// for each thread that called it.
pub fn write(nodes: &[&Receipts], out: &mut impl Write) -> io::Result<()> {
    writeln!(out, "{{\"failreg\":\"drill\",\"version\":1}}")?;
    for receipts in nodes {
        write_entries(receipts, out)?;
    }
    let mut next = 0;
    for receipts in nodes {
        write_lists(receipts, &mut next, out)?;
    }
    out.flush()
}

#[cfg(test)]
mod tests {
    use super::*;

    #[test]
    fn a_receipt_is_an_entry_with_its_place() {
        let text = r#"{"ask":["set","a","print(,\"reply\":[)"],"reply":["set",1,0],"words":[]}"#;
        let wanted = r#"{"ask":["set","a","print(,\"reply\":[)"],"index":7,"node":2,"reply":["set",1,0],"words":[]}"#;
        let mut line = Vec::new();
        write_receipt(&mut line, text.as_bytes(), 2, 7).unwrap();
        assert_eq!(line, format!("{wanted}\n").as_bytes());
    }
}
