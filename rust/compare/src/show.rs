//! What was lent, as text from which a case can be made again.

use crate::layout::{Counter, NOT_KNOWN, PROCESSES};
use crate::lent::{Guarded, Lent};
use std::fmt::Write;

/// Everything that was lent and is not empty.
pub fn describe(lent: &Lent) -> String {
    let mut text = String::new();
    words(&mut text, "shape", lent.shape.lent());
    table(&mut text, "sent", &lent.sent);
    table(&mut text, "received", &lent.received);
    bytes(&mut text, "bytes", lent.bytes.lent());
    bytes(&mut text, "out", lent.out.lent());
    words(&mut text, "state", lent.state.lent());
    words(&mut text, "set", lent.set.lent());
    let known: Vec<u64> = lent.known.lent().iter().copied().map(u64::from).collect();
    words(&mut text, "known", &known);
    words(&mut text, "result", lent.result.lent());
    let _ = writeln!(text, "  names {:?}", lent.names);
    text
}

/// Words, runs of equal ones written once with how many there are; `?` is "not known".
fn words(text: &mut String, name: &str, words: &[u64]) {
    let _ = write!(text, "  {name} of {}:", words.len());
    for run in words.chunk_by(|a, b| a == b) {
        let word = if run[0] == NOT_KNOWN {
            "?".to_string()
        } else {
            run[0].to_string()
        };
        let _ = if run.len() > 1 {
            write!(text, " {word}*{}", run.len())
        } else {
            write!(text, " {word}")
        };
    }
    text.push('\n');
}

/// The rows of a table that are not all zero; nothing of a fresh one.
fn table(text: &mut String, name: &str, table: &Guarded<Counter>) {
    let entries = table.lent();
    if *table == Guarded::fresh(entries.len()) {
        let _ = writeln!(text, "  {name} of {}: fresh", entries.len());
        return;
    }
    let _ = writeln!(text, "  {name} of {}:", entries.len());
    for (row, counters) in entries.chunks(PROCESSES).enumerate() {
        if counters.iter().any(|&counter| counter != 0) {
            let _ = writeln!(text, "    row {row}: {counters:?}");
        }
    }
}

/// Bytes in hex, at most the first thousand.
fn bytes(text: &mut String, name: &str, bytes: &[u8]) {
    let _ = write!(text, "  {name} of {}:", bytes.len());
    for byte in &bytes[..bytes.len().min(1000)] {
        let _ = write!(text, " {byte:02X}");
    }
    text.push('\n');
}
