//! Books made by the Rust wrapper, checkpoint by checkpoint and event by event, and lists read by it.

use crate::book::Book;
use crate::journals::{Journal, RECEIVED, SENT};
use crate::lists::{Entry, List};
use recovery_line::{BookBuilder, Count, Process, Refusal, Resend, Tables};

/// The book that the builder makes of a book's checkpoints: the oldest of all processes come first, and of processes the last.
/// Counters that are as in the checkpoint before, or zero in an oldest one, are not named.
pub fn by_checkpoints(book: &Book) -> Result<Book, Refusal> {
    let mut builder = Tables::builder(book.n() as u64);
    let newest = book.newest().into_iter().max().unwrap_or(0);
    for r in 1..=newest {
        let having = (1..=book.n()).rev().filter(|&j| r <= book.count(j));
        having.for_each(|j| append(&mut builder, book, j, r));
    }
    Ok(book_in(&builder.build()?))
}

/// Appends process j's checkpoint r.
fn append(builder: &mut BookBuilder, book: &Book, j: usize, r: usize) {
    let mut newest = builder.checkpoint(Process::new(j as u64));
    for p in (1..=book.n()).filter(|&p| p != j) {
        let partner = Process::new(p as u64);
        let (sent, received) = (book.sent_at(j, r, p), book.received_at(j, r, p));
        let before = if r > 1 {
            (book.sent_at(j, r - 1, p), book.received_at(j, r - 1, p))
        } else {
            (0, 0)
        };
        if sent != before.0 {
            newest = newest.sent_to(partner, Count::new(sent));
        }
        if received != before.1 {
            newest = newest.received_from(partner, Count::new(received));
        }
    }
}

/// The journal that the wrapper writes of a journal's events.
pub fn by_events(journal: &Journal) -> recovery_line::Journal {
    let mut made = recovery_line::Journal::new(journal.n);
    for event in &journal.events {
        let (process, partner) = (Process::new(event.process), Process::new(event.partner));
        match event.kind {
            SENT => made.sent(process, partner),
            RECEIVED => made.received(process, partner),
            _ => made.checkpoint(process),
        };
    }
    made
}

/// The list that the wrapper reads, entry by entry.
pub fn list_read(n: u64, bytes: &[u8]) -> Result<List, Refusal> {
    let resend = Resend::read(n, bytes)?;
    let entries = resend.iter().map(|repeat| Entry {
        sender: repeat.sender.number(),
        receiver: repeat.receiver.number(),
        first: repeat.first.number(),
        last: repeat.last.number(),
    });
    Ok(List {
        n,
        entries: entries.collect(),
    })
}

/// The book in the wrapper's tables.
pub fn book_in(tables: &Tables) -> Book {
    Book {
        shape: *tables.shape(),
        sent: tables.sent().to_vec(),
        received: tables.received().to_vec(),
    }
}
