//! Shapes and tables.

use crate::{calls, text, IN_BYTES, IN_RECEIVED, IN_SENT, IN_WORDS};
use recovery_line::{sys, Counter};

pub const ENTRIES: usize = sys::RECOVERY_LINE_TABLE_ENTRIES;
pub const PROCESSES: usize = sys::RECOVERY_LINE_PROCESSES;

/// n and sixteen counts.
pub type Shape = [u64; sys::RECOVERY_LINE_SHAPE_WORDS];

/// A set or line.
pub type Set = [u64; sys::RECOVERY_LINE_SET_WORDS];

/// More bytes than the longest accepted book.
pub const BUFFER: usize = 65600;

/// The shape of no book.
pub const NO_SHAPE: Shape = [0; sys::RECOVERY_LINE_SHAPE_WORDS];

/// The two tables.
#[derive(Clone, PartialEq)]
pub struct Counters {
    pub sent: Vec<Counter>,
    pub received: Vec<Counter>,
}

impl Counters {
    pub fn filled(sent: Counter, received: Counter) -> Counters {
        Counters {
            sent: vec![sent; ENTRIES],
            received: vec![received; ENTRIES],
        }
    }

    pub fn with<'a>(&'a self, shape: &'a Shape) -> Lent<'a> {
        Lent {
            shape,
            sent: &self.sent,
            received: &self.received,
        }
    }

    /// Reads the book that a field spells into the tables, and gives its shape. Where there is none, or it is refused,
    /// they stay, and it is the shape of no book.
    pub fn read_field(&mut self, field: &str) -> Shape {
        let mut shape = NO_SHAPE;
        if let Some(book) = text::bytes(field) {
            calls::read(&book, &mut shape, &mut self.sent, &mut self.received);
        }
        shape
    }
}

/// Tables with their shape.
#[derive(Clone, PartialEq)]
pub struct Tables {
    pub shape: Shape,
    pub counters: Counters,
}

impl Tables {
    /// What stands in tables before a call that writes them.
    pub fn unwritten() -> Tables {
        Tables {
            shape: [IN_WORDS; sys::RECOVERY_LINE_SHAPE_WORDS],
            counters: Counters::filled(IN_SENT, IN_RECEIVED),
        }
    }

    /// The tables of a book, and the question that refuses it.
    pub fn of_book(book: &[u8]) -> (u32, Tables) {
        let mut tables = Tables::unwritten();
        let counters = &mut tables.counters;
        let question = calls::read(book, &mut tables.shape, &mut counters.sent, &mut counters.received);
        (question, tables)
    }

    /// The tables of an accepted book that a field spells.
    pub fn of_field(field: &str) -> Option<Tables> {
        let (question, tables) = Tables::of_book(&text::bytes(field)?);
        (question == 0).then_some(tables)
    }

    pub fn lent(&self) -> Lent<'_> {
        self.counters.with(&self.shape)
    }

    /// How many processes there are; not more than there can be.
    pub fn processes(&self) -> usize {
        self.shape[0].min(PROCESSES as u64) as usize
    }

    /// How many checkpoints a process has; processes count from 0 here and below.
    pub fn count(&self, process: usize) -> u64 {
        self.shape[1 + process]
    }

    /// What a process's checkpoint had sent to a partner, if there is such a row.
    pub fn sent(&self, process: usize, checkpoint: u64, partner: usize) -> Option<u64> {
        let place = self.place(process, checkpoint, partner)?;
        self.counters.sent.get(place).copied().map(u64::from)
    }

    /// What it had received from that partner.
    pub fn received(&self, process: usize, checkpoint: u64, partner: usize) -> Option<u64> {
        let place = self.place(process, checkpoint, partner)?;
        self.counters.received.get(place).copied().map(u64::from)
    }

    fn place(&self, process: usize, checkpoint: u64, partner: usize) -> Option<usize> {
        let rows = self.shape[1..=process].iter();
        let row = rows.fold(checkpoint.checked_sub(1)?, |sum, &count| sum.saturating_add(count));
        usize::try_from(row).ok()?.checked_mul(PROCESSES)?.checked_add(partner)
    }
}

/// What a call that reads tables is lent.
#[derive(Clone, Copy)]
pub struct Lent<'a> {
    pub shape: &'a [u64],
    pub sent: &'a [Counter],
    pub received: &'a [Counter],
}

impl<'a> Lent<'a> {
    /// Both, of which one has not its length: with each call that reads tables, question 2 refuses them.
    pub fn other_lengths(self) -> [Lent<'a>; 2] {
        let short = Lent {
            sent: &[0; ENTRIES - 1],
            ..self
        };
        let long = Lent {
            received: &[0; ENTRIES + 1],
            ..self
        };
        [short, long]
    }

    /// The line, and how many checkpoints are newer; or the question that refuses, with whether nothing was written.
    pub fn find_line(self) -> Result<(Set, u64), (u32, bool)> {
        let (mut line, mut passed) = ([IN_WORDS; PROCESSES], IN_WORDS);
        match calls::find(self, &mut line, &mut passed) {
            0 => Ok((line, passed)),
            question => Err((question, line == [IN_WORDS; PROCESSES] && passed == IN_WORDS)),
        }
    }

    /// Writes the book into the first `room` bytes of a buffer.
    pub fn write(self, room: usize) -> Written {
        let (mut out, mut length) = (vec![IN_BYTES; BUFFER], IN_WORDS);
        let question = calls::write(self, &mut out[..room.min(BUFFER)], &mut length);
        Written { question, out, length }
    }

    /// Writes the list of what the order for a purpose has sent again into the first `room` bytes of a buffer.
    pub fn write_resend(self, purpose: u64, room: usize) -> Written {
        let (mut out, mut length) = (vec![IN_BYTES; room.max(BUFFER)], IN_WORDS);
        let question = calls::write_resend(self, purpose, &mut out[..room], &mut length);
        Written { question, out, length }
    }

    /// Is what is written, read again, these tables?
    pub fn are_read_again(self) -> bool {
        let written = self.write(BUFFER);
        let Some(book) = written.bytes() else { return false };
        let (question, again) = Tables::of_book(book);
        question == 0
            && again.shape == self.shape
            && again.counters.sent == self.sent
            && again.counters.received == self.received
    }
}

/// What a write left.
pub struct Written {
    pub question: u32,
    out: Vec<u8>,
    length: u64,
}

impl Written {
    /// What a write that was accepted wrote.
    pub fn bytes(&self) -> Option<&[u8]> {
        let length = usize::try_from(self.length).ok()?;
        (self.question == 0).then(|| self.out.get(..length))?
    }

    /// Is this all that was written, and every byte after it as before?
    pub fn is_just(&self, bytes: &[u8]) -> bool {
        self.bytes() == Some(bytes) && self.out[bytes.len()..].iter().all(|&b| b == IN_BYTES)
    }

    /// Was nothing written?
    pub fn is_untouched(&self) -> bool {
        self.length == IN_WORDS && self.out.iter().all(|&b| b == IN_BYTES)
    }
}
