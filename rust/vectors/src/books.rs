//! Books that are tried: what a read answers, and what must hold beside it.

use crate::tables::{Counters, Lent, Set, Tables, BUFFER, ENTRIES, NO_SHAPE, PROCESSES};
use crate::text::{self, Answer};
use crate::{calls, IN_RECEIVED, IN_SENT, IN_WORDS};

/// The most bytes of a book.
const MOST_BYTES: usize = 65536;

/// What is printed for the book that a field spells: the question that refuses, or 0, n and the counts, and then the line
/// that is found and T.
pub fn try_field(field: &str) -> Answer {
    match text::bytes(field) {
        Some(book) => try_book(&book),
        None => Answer::unreadable("? "),
    }
}

fn try_book(book: &[u8]) -> Answer {
    let mut answer = Answer::default();
    let (question, tables) = Tables::of_book(book);
    if question == 0 {
        put_shape(&mut answer, &tables);
        try_finder(&mut answer, &tables);
        expect_accepted(&mut answer, book, tables.lent());
    } else {
        answer.put(question);
        expect_unchanged(&mut answer, &tables);
        answer.expect(finds_nothing(&tables.counters), "refused");
    }
    answer.expect(refuses_lengths(book), "lengths");
    answer
}

/// `0`, n and the counts of the n processes.
fn put_shape(answer: &mut Answer, tables: &Tables) {
    answer.put(0);
    tables.shape[..=tables.processes()]
        .iter()
        .for_each(|&number| answer.put_number(number));
}

/// The line of accepted tables, and T.
fn try_finder(answer: &mut Answer, tables: &Tables) {
    let n = tables.processes();
    let Ok((line, passed)) = tables.lent().find_line() else {
        return answer.expect(false, "find");
    };
    line[..n].iter().for_each(|&r| answer.put_number(r));
    answer.put_number(passed);
    answer.expect(line[n..].iter().all(|&r| r == 0), "absent");
    answer.expect(is_consistent(tables, &line) == Some(true), "line");
    answer.expect(is_latest(tables, &line), "later");
}

/// Is a set consistent? Nothing where the test is refused.
fn is_consistent(tables: &Tables, set: &Set) -> Option<bool> {
    let mut pair = [IN_WORDS; 2];
    let question = calls::test_set(tables.lent(), set, &mut pair);
    (question == 0).then_some(pair == [0, 0])
}

/// Is the line at fault with the next checkpoint of any process that has one? Then no consistent set is anywhere newer.
fn is_latest(tables: &Tables, line: &Set) -> bool {
    (0..PROCESSES).all(|j| {
        let mut later = *line;
        later[j] += 1;
        tables.shape[1 + j] <= line[j] || is_consistent(tables, &later) == Some(false)
    })
}

/// What the calls on an accepted book's tables must give.
fn expect_accepted(answer: &mut Answer, book: &[u8], lent: Lent) {
    answer.expect(calls::check(lent) == 0, "check");
    answer.expect(lent.write(BUFFER).is_just(book), "write");
    answer.expect(lent.write(book.len()).is_just(book), "exact");
    answer.expect(is_refused_short(book, lent), "short");
    answer.expect(lent.are_read_again(), "again");
}

/// Is a write refused that lacks one byte of room?
fn is_refused_short(book: &[u8], lent: Lent) -> bool {
    let Some(room) = book.len().checked_sub(1) else {
        return false;
    };
    let written = lent.write(room);
    written.question == 17 && written.is_untouched()
}

/// A refusal leaves the shape and the tables as they were.
fn expect_unchanged(answer: &mut Answer, tables: &Tables) {
    let before = Tables::unwritten();
    answer.expect(tables.shape == before.shape, "shape");
    answer.expect(tables.counters.sent == before.counters.sent, "sent");
    answer.expect(tables.counters.received == before.counters.received, "received");
}

/// Tables without a process are refused by question 4, and then there is no line.
fn finds_nothing(counters: &Counters) -> bool {
    counters.with(&NO_SHAPE).find_line() == Err((4, true))
}

/// A read into tables of another length is refused by question 2, after 1, and leaves them and the shape as they were.
fn refuses_lengths(book: &[u8]) -> bool {
    let question = if MOST_BYTES < book.len() { 1 } else { 2 };
    let refuses = |sent_length: usize, received_length: usize| {
        let mut shape = NO_SHAPE.map(|_| IN_WORDS);
        let (mut sent, mut received) = (vec![IN_SENT; sent_length], vec![IN_RECEIVED; received_length]);
        calls::read(book, &mut shape, &mut sent, &mut received) == question
            && shape == NO_SHAPE.map(|_| IN_WORDS)
            && sent == vec![IN_SENT; sent_length]
            && received == vec![IN_RECEIVED; received_length]
    };
    refuses(ENTRIES - 1, ENTRIES) && refuses(ENTRIES, ENTRIES + 1)
}
