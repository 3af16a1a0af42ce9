//! What is measured, and what each operation is lent.

use crate::book::Book;
use crate::layout::{session, strand_bytes, Counter, BOOK_BYTES, ORDER_WORDS, PAIR_WORDS, PROCESSES};
use crate::layout::{RESEND_BYTES, RESEND_WORDS, SET_WORDS};
use crate::lent::{Guarded, Lent};
use crate::line::line;
use crate::move_claims::ADVANCE;
use crate::scenarios::lent_tables;

/// All measured searches are begun by this process with this purpose.
pub const INITIATOR: u64 = 1;
pub const PURPOSE: u64 = 3;

/// The process whose checkpoint is tested.
pub const FIRST: u64 = 1;

/// What is measured.
#[derive(Clone, Copy, PartialEq, Eq, Debug)]
pub enum Operation {
    Read,
    Journal,
    Check,
    Write,
    /// The line, so that every pair is looked at.
    TestSet,
    /// The newest set.
    TestNewest,
    /// The first process's newest checkpoint, against what the others' newest had sent to it.
    TestCheckpoint,
    Find,
    /// One turn that delivers the first poll or report after some others.
    Turn,
    /// The same message, a poll, received by the participant's machine alone.
    ParticipantReceive,
    /// The same message, a report, received by the initiator's machine alone.
    InitiatorReceive,
    /// A start and turns until nothing waits, lowest strand first.
    Session,
    Search,
    /// A move with purpose 3.
    Move,
    /// A move with purpose 1.
    Advance,
    /// An order with purpose 3, and the list that it has.
    RestartOrder,
    WriteResend,
    ReadResend,
}

impl Operation {
    /// The purpose of a move or an order.
    pub fn purpose(self) -> u64 {
        if self == Operation::Advance {
            ADVANCE
        } else {
            PURPOSE
        }
    }
}

/// What an operation is lent through the C interface.
pub fn lent_for(operation: Operation, book: &Book) -> Lent {
    let mut lent = lent_tables(book);
    lent.bytes = Guarded::holding(&book.bytes());
    lent.set = Guarded::holding(&set_of(operation, book));
    lent.known = Guarded::holding(&sent_to_first(book));
    lent.out = Guarded::fresh(match operation {
        Operation::Write => BOOK_BYTES,
        Operation::WriteResend => RESEND_BYTES,
        _ => strand_bytes(book.n()),
    });
    lent.state = Guarded::fresh(session::WORDS);
    lent.result = Guarded::fresh(match operation {
        Operation::TestSet | Operation::TestNewest => PAIR_WORDS,
        Operation::Move | Operation::Advance | Operation::RestartOrder => ORDER_WORDS,
        Operation::ReadResend => RESEND_WORDS,
        _ => SET_WORDS,
    });
    lent.names = match operation {
        Operation::Move | Operation::Advance | Operation::RestartOrder | Operation::WriteResend => {
            [operation.purpose(), 0, 0]
        }
        Operation::ReadResend => [book.shape[0], 0, 0],
        Operation::TestCheckpoint => [FIRST, book.count(1) as u64, 0],
        _ => [INITIATOR, PURPOSE, 0],
    };
    lent
}

/// The set that an operation tests.
pub fn set_of(operation: Operation, book: &Book) -> [u64; SET_WORDS] {
    let set = match operation {
        Operation::TestNewest => book.newest(),
        _ => line(book),
    };
    let mut words = [0; SET_WORDS];
    for (word, r) in words.iter_mut().zip(set) {
        *word = r as u64;
    }
    words
}

/// What every process's newest checkpoint had sent to the first process.
pub fn sent_to_first(book: &Book) -> [Counter; PROCESSES] {
    let mut known = [0; PROCESSES];
    for (p, entry) in (1..=book.n()).zip(&mut known) {
        *entry = book.sent[book.place(p, book.count(p), 1)];
    }
    known
}
