//! Books as data: the generators build them, and the claims of demand 3 are checked against them.

use crate::layout::{Counter, PROCESSES, SHAPE_WORDS, TABLE_ENTRIES};

/// The two tables of a book, with its shape.
#[derive(Clone, PartialEq)]
pub struct Book {
    pub shape: [u64; SHAPE_WORDS],
    pub sent: Vec<Counter>,
    pub received: Vec<Counter>,
}

/// A checkpoint's counters in one table.
pub type Row = [Counter; PROCESSES];

/// Takes rows out of a table.
pub fn drop_rows(table: &mut [Counter], first: usize, count: usize) {
    table.copy_within((first + count) * PROCESSES.., first * PROCESSES);
    table[TABLE_ENTRIES - count * PROCESSES..].fill(0);
}

/// Which table a counter stands in.
#[derive(Clone, Copy, PartialEq, Eq, Debug)]
pub enum Table {
    Sent,
    Received,
}

/// What a number of a book says.
#[derive(Clone, Copy, PartialEq, Eq, Debug)]
pub enum Field {
    Processes,
    Count(usize),
    Counter(Table, usize, usize, usize),
}

impl Book {
    /// A book of all zeros with these counts of checkpoints.
    pub fn of_zeros(counts: &[usize]) -> Self {
        let mut shape = [0; SHAPE_WORDS];
        shape[0] = counts.len() as u64;
        for (place, &count) in counts.iter().enumerate() {
            shape[place + 1] = count as u64;
        }
        Book {
            shape,
            sent: vec![0; TABLE_ENTRIES],
            received: vec![0; TABLE_ENTRIES],
        }
    }

    /// The number of processes.
    pub fn n(&self) -> usize {
        self.shape[0] as usize
    }

    /// How many checkpoints process j has.
    pub fn count(&self, j: usize) -> usize {
        self.shape[j] as usize
    }

    /// How many checkpoints there are in all.
    pub fn checkpoints(&self) -> usize {
        (1..=self.n()).map(|j| self.count(j)).sum()
    }

    /// The newest checkpoint of every process.
    pub fn newest(&self) -> Vec<usize> {
        (1..=self.n()).map(|j| self.count(j)).collect()
    }

    /// Where the counter of process j's checkpoint r for partner p stands in its table.
    pub fn place(&self, j: usize, r: usize, p: usize) -> usize {
        let before: usize = (1..j).map(|i| self.count(i)).sum();
        (before + r - 1) * PROCESSES + p - 1
    }

    /// What process j's checkpoint r had sent to p.
    pub fn sent_at(&self, j: usize, r: usize, p: usize) -> u64 {
        u64::from(self.sent[self.place(j, r, p)])
    }

    /// What process j's checkpoint r had received from p.
    pub fn received_at(&self, j: usize, r: usize, p: usize) -> u64 {
        u64::from(self.received[self.place(j, r, p)])
    }

    /// The entry of a counter.
    pub fn entry_mut(&mut self, table: Table, j: usize, r: usize, p: usize) -> &mut Counter {
        let place = self.place(j, r, p);
        match table {
            Table::Sent => &mut self.sent[place],
            Table::Received => &mut self.received[place],
        }
    }

    /// Whether an oldest checkpoint has sent what is on its way still.
    pub fn is_in_flight(&self) -> bool {
        (1..=self.n()).any(|j| (1..=self.n()).any(|p| self.sent_at(j, 1, p) > 0))
    }

    /// Appends a checkpoint to process j; a row must be free.
    pub fn append(&mut self, j: usize, sent: &Row, received: &Row) {
        let at = self.place(j, self.count(j) + 1, 1);
        for (table, row) in [(&mut self.sent, sent), (&mut self.received, received)] {
            table.copy_within(at..TABLE_ENTRIES - PROCESSES, at + PROCESSES);
            table[at..at + PROCESSES].copy_from_slice(row);
        }
        self.shape[j] += 1;
    }

    /// Keeps the oldest checkpoints of process j, so many of them.
    pub fn keep_oldest(&mut self, j: usize, kept: usize) {
        let first = self.place(j, kept + 1, 1) / PROCESSES;
        let dropped = self.count(j) - kept;
        drop_rows(&mut self.sent, first, dropped);
        drop_rows(&mut self.received, first, dropped);
        self.shape[j] = kept as u64;
    }

    /// The numbers of the book in its order, each with what it says.
    pub fn fields(&self) -> Vec<(Field, u64)> {
        let n = self.n();
        let mut fields = vec![(Field::Processes, self.shape[0])];
        for j in 1..=n {
            fields.push((Field::Count(j), self.shape[j]));
            for r in 1..=self.count(j) {
                for p in (1..=n).filter(|&p| p != j) {
                    fields.push((Field::Counter(Table::Sent, j, r, p), self.sent_at(j, r, p)));
                }
                for p in (1..=n).filter(|&p| p != j) {
                    fields.push((Field::Counter(Table::Received, j, r, p), self.received_at(j, r, p)));
                }
            }
        }
        fields
    }

    /// The book's bytes.
    pub fn bytes(&self) -> Vec<u8> {
        let mut bytes = Vec::new();
        for (_, number) in self.fields() {
            push_number(&mut bytes, number);
        }
        bytes
    }

    /// Puts a function of the old value in place of every counter; a rising function with 0 at 0 keeps the book valid.
    pub fn map_counters(&mut self, value: impl Fn(Counter) -> Counter) {
        for entry in self.sent.iter_mut().chain(&mut self.received) {
            if *entry != 0 {
                *entry = value(*entry);
            }
        }
    }
}

/// Appends a number in its shortest form.
pub fn push_number(bytes: &mut Vec<u8>, number: u64) {
    let mut rest = number;
    while rest >= 128 {
        bytes.push((rest % 128) as u8 | 128);
        rest /= 128;
    }
    bytes.push(rest as u8);
}

/// Appends a number with `extra` groups of zeros, which is not its shortest form.
pub fn push_long_number(bytes: &mut Vec<u8>, number: u64, extra: usize) {
    push_number(bytes, number);
    for _ in 0..extra {
        *bytes.last_mut().expect("a number has a byte") |= 128;
        bytes.push(0);
    }
}

/// The numbers of some bytes, as far as whole ones go.
pub fn numbers_of(bytes: &[u8]) -> Vec<u64> {
    let mut numbers = Vec::new();
    let (mut number, mut shift) = (0u64, 0);
    for &byte in bytes {
        number |= u64::from(byte % 128) << shift;
        shift = (shift + 7).min(56);
        if byte < 128 {
            numbers.push(number);
            (number, shift) = (0, 0);
        }
    }
    numbers
}
