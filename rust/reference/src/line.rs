//! The line: testing a named set or one checkpoint, and finding the line.

use crate::book::{Book, Counter, Row, Shape, PROCESSES};
use crate::machine::process_question;

/// Question 12 of a set: "In a set or line, absent processes have 0; anything else there fails
/// question 12."
fn set_question(book: &Book, set: &[u64; PROCESSES]) -> Result<[usize; PROCESSES], u32> {
    let present = (0..book.n).all(|process| book.has(process, set[process]));
    let absent = set[book.n..].iter().all(|&checkpoint| checkpoint == 0);
    if present && absent {
        Ok(set.map(|checkpoint| checkpoint as usize))
    } else {
        Err(12)
    }
}

/// Numbers a process from 1.
fn named(process: usize) -> u64 {
    process as u64 + 1
}

/// Tests a set: `None` if it is consistent, else the pair (j, p) at fault with "the lowest j, and for
/// it the lowest p" (E3). Questions 2, 4 to 9, 12.
pub fn test_set(
    shape: &Shape,
    sent: &[Counter],
    received: &[Counter],
    set: &[u64; PROCESSES],
) -> Result<Option<(u64, u64)>, u32> {
    let book = Book::accepted(shape, sent, received)?;
    let candidates = Candidates::on(&book, set_question(&book, set)?);
    let first_fault = (0..book.n).find_map(|j| Some((j, candidates.offender_of(j)?)));
    Ok(first_fault.map(|(j, p)| (named(j), named(p))))
}

/// "The test of one checkpoint against a column names its lowest offending partner" (E3): the lowest
/// from which it received more than is known to have been sent, `None` if there is none. Questions 2,
/// 4 to 10, 12.
pub fn test_checkpoint(
    shape: &Shape,
    sent: &[Counter],
    received: &[Counter],
    process: u64,
    checkpoint: u64,
    known: &[Counter; PROCESSES],
) -> Result<Option<u64>, u32> {
    let book = Book::accepted(shape, sent, received)?;
    process_question(book.n, process)?;
    let own = process as usize - 1;
    if !book.has(own, checkpoint) {
        return Err(12);
    }
    let offender = book.offending_partner(own, checkpoint as usize, known);
    Ok(offender.map(named))
}

/// A checkpoint of each process, with its rows; zeros for absent processes.
struct Candidates<'a> {
    book: &'a Book<'a>,
    set: [usize; PROCESSES],
    sent: [&'a Row; PROCESSES],
    received: [&'a Row; PROCESSES],
}

impl<'a> Candidates<'a> {
    /// Every process at its checkpoint of a set.
    fn on(book: &'a Book, set: [usize; PROCESSES]) -> Self {
        let mut candidates = Candidates {
            book,
            set,
            sent: [&[0; PROCESSES]; PROCESSES],
            received: [&[0; PROCESSES]; PROCESSES],
        };
        (0..book.n).for_each(|j| candidates.take(j, set[j]));
        candidates
    }

    /// Process j takes this checkpoint.
    fn take(&mut self, j: usize, checkpoint: usize) {
        self.set[j] = checkpoint;
        self.sent[j] = self.book.sent(j, checkpoint);
        self.received[j] = self.book.received(j, checkpoint);
    }

    /// Whom j's checkpoint hurts: those who received more from j than it has sent, a bit for each.
    fn hurt_by(&self, j: usize) -> u32 {
        let sent = self.sent[j];
        let mut bits = 0;
        for (p, row) in self.received[..self.book.n].iter().enumerate() {
            bits |= u32::from(row[j] > sent[p]) << p;
        }
        bits
    }

    /// The lowest process from which j received more than that one has sent.
    fn offender_of(&self, j: usize) -> Option<usize> {
        let sent = self.sent[..self.book.n].iter();
        sent.zip(self.received[j])
            .position(|(row, &received)| received > row[j])
    }
}

/// The line by K 2.2: from the newest checkpoints, each process that is hurt steps back, until
/// nobody is. No step passes a consistent set, so what is left is "the consistent set that is
/// nowhere earlier than any other consistent set". A step is looked at twice, row by row: whom it
/// hurts, and whether it was enough.
pub(crate) fn line_of(book: &Book) -> [usize; PROCESSES] {
    let mut candidates = Candidates::on(book, book.counts);
    let mut hurt = (0..book.n).fold(0, |bits, j| bits | candidates.hurt_by(j));
    while hurt != 0 {
        let j = hurt.trailing_zeros() as usize;
        candidates.take(j, candidates.set[j] - 1);
        hurt |= candidates.hurt_by(j);
        if candidates.offender_of(j).is_none() {
            hurt &= !(1 << j);
        }
    }
    candidates.set
}

/// "The number of checkpoints newer than the line's, summed", or than another set's.
pub(crate) fn newer(book: &Book, set: &[usize; PROCESSES]) -> u64 {
    (0..book.n)
        .map(|process| (book.counts[process] - set[process]) as u64)
        .sum()
}

/// Finds the line and T, the number of checkpoints passed. Questions 2 and 4 to 9.
pub fn find_line(shape: &Shape, sent: &[Counter], received: &[Counter]) -> Result<([u64; PROCESSES], u64), u32> {
    let book = Book::accepted(shape, sent, received)?;
    let line = line_of(&book);
    Ok((line.map(|checkpoint| checkpoint as u64), newer(&book, &line)))
}
