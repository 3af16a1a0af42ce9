//! Reads lines of journals (`lent S R` or nothing, the journal, then what a read of it must answer), and prints for each
//! what a read does answer: the question that refuses, or 0 and the book that the tables are written as. S and R are how
//! many entries of the tables are lent, 4,096 where they are not said. Only these and the journal are taken from a line.

use recovery_line::Counter;
use std::io;
use vectors::tables::{Lent, BUFFER, ENTRIES, NO_SHAPE};
use vectors::text::{self, Answer};
use vectors::{calls, IN_RECEIVED, IN_SENT, IN_WORDS};

/// The most bytes of a journal.
const MOST_BYTES: usize = 65536;

/// The most entries that a line may lend.
const MOST_ENTRIES: u64 = 1 << 24;

/// The answer to a shape of the wrong length.
const WRONG_LENGTH: u32 = 100;

fn main() -> io::Result<()> {
    text::answer_lines(|line| Some(try_line(line)))
}

fn try_line(line: &str) -> Answer {
    match lent_and_journal(line) {
        Some((entries, journal)) => try_journal(entries, &journal),
        None => Answer::unreadable("? "),
    }
}

/// How many entries of each table are lent, and the journal.
fn lent_and_journal(line: &str) -> Option<([usize; 2], Vec<u8>)> {
    let Some(lent) = line.strip_prefix("lent ") else {
        return Some(([ENTRIES, ENTRIES], text::joined_bytes(text::first(line).0)?));
    };
    let (sent, rest) = text::first(lent);
    let (received, rest) = text::first(rest);
    let journal = text::joined_bytes(text::first(rest).0)?;
    Some(([entries(sent)?, entries(received)?], journal))
}

fn entries(field: &str) -> Option<usize> {
    let entries = text::decimal(field)?;
    (entries <= MOST_ENTRIES).then_some(entries as usize)
}

/// What a read is lent to write, and what it then holds.
#[derive(PartialEq)]
struct Filled {
    shape: Vec<u64>,
    sent: Vec<Counter>,
    received: Vec<Counter>,
}

impl Filled {
    fn unwritten(words: usize, [sent, received]: [usize; 2]) -> Filled {
        Filled {
            shape: vec![IN_WORDS; words],
            sent: vec![IN_SENT; sent],
            received: vec![IN_RECEIVED; received],
        }
    }

    fn read(&mut self, journal: &[u8]) -> u32 {
        calls::journal(journal, &mut self.shape, &mut self.sent, &mut self.received)
    }

    fn lent(&self) -> Lent<'_> {
        Lent {
            shape: &self.shape,
            sent: &self.sent,
            received: &self.received,
        }
    }
}

const SHAPE_WORDS: usize = NO_SHAPE.len();

fn try_journal(entries: [usize; 2], journal: &[u8]) -> Answer {
    let mut answer = Answer::default();
    let mut filled = Filled::unwritten(SHAPE_WORDS, entries);
    let question = filled.read(journal);
    answer.put(question);
    if question == 0 {
        put_book(&mut answer, filled.lent());
    } else {
        answer.expect(filled == Filled::unwritten(SHAPE_WORDS, entries), "changed");
    }
    answer.expect(refuses_lengths(journal), "lengths");
    answer.expect(refuses_words(entries, journal), "words");
    answer
}

/// The book of the tables, which must pass the check and come back when they are written and read.
fn put_book(answer: &mut Answer, lent: Lent) {
    let written = lent.write(BUFFER);
    match written.bytes() {
        Some(book) => {
            answer.put(" ");
            answer.put_bytes(book);
            answer.expect(written.is_just(book), "write");
        }
        None => answer.expect(false, "write"),
    }
    answer.expect(calls::check(lent) == 0, "check");
    answer.expect(lent.are_read_again(), "again");
}

/// Is a read into tables of another length refused by question 2, after 1, and does it leave them and the shape?
fn refuses_lengths(journal: &[u8]) -> bool {
    let question = if MOST_BYTES < journal.len() { 1 } else { 2 };
    let lengths = [[ENTRIES - 1, ENTRIES], [ENTRIES, ENTRIES + 1]];
    lengths
        .iter()
        .all(|&entries| is_refused(SHAPE_WORDS, entries, journal, question))
}

/// Is a read with a shape of another length refused before every question?
fn refuses_words(entries: [usize; 2], journal: &[u8]) -> bool {
    let lengths = [0, SHAPE_WORDS - 1, SHAPE_WORDS + 1];
    lengths
        .iter()
        .all(|&words| is_refused(words, entries, journal, WRONG_LENGTH))
}

/// Is a read refused by this question, and does it change nothing?
fn is_refused(words: usize, entries: [usize; 2], journal: &[u8], question: u32) -> bool {
    let mut filled = Filled::unwritten(words, entries);
    filled.read(journal) == question && filled == Filled::unwritten(words, entries)
}
