//! Valid tables other than those that a state was made on: with a counter or a checkpoint changed, or of another number of
//! processes.

use crate::book::drop_rows;
use crate::books::{any_book, small_book};
use crate::layout::{session, CHECKPOINTS, LARGEST, PROCESSES, TABLE_ENTRIES};
use crate::lent::{Guarded, Lent};
use crate::places::change_count;
use crate::random::Random;

/// Whether shape and tables have their lengths, and the shape is one that tables can have.
fn are_whole(lent: &Lent) -> bool {
    let shape = lent.shape.lent();
    shape.len() == PROCESSES + 1
        && (1..=PROCESSES as u64).contains(&shape[0])
        && shape[1..]
            .iter()
            .try_fold(0u64, |sum, &count| sum.checked_add(count))
            .is_some_and(|sum| sum <= CHECKPOINTS as u64)
        && lent.sent.lent().len() == TABLE_ENTRIES
        && lent.received.lent().len() == TABLE_ENTRIES
}

/// Changes tables so that they stay valid: either a counter of newest checkpoints grows, or a newest checkpoint goes. An oldest
/// one stays, and of its counters only those sent grow.
pub fn change_tables_validly(random: &mut Random, lent: &mut Lent) {
    if !are_whole(lent) {
        return;
    }
    let shape = lent.shape.lent();
    let n = shape[0] as usize;
    let j = random.between(1, n);
    if shape[j] == 0 {
        return;
    }
    let is_oldest = shape[j] == 1;
    let newest = shape[1..=j].iter().sum::<u64>() as usize - 1;
    if !is_oldest && random.once_in(2) {
        drop_checkpoints(lent, newest, 1);
        lent.shape.lent_mut()[j] -= 1;
        return;
    }
    let p = random.between(1, n);
    let table = if is_oldest || random.once_in(2) {
        &mut lent.sent
    } else {
        &mut lent.received
    };
    let entry = &mut table.lent_mut()[newest * PROCESSES + p - 1];
    if p != j && u64::from(*entry) < LARGEST {
        *entry += 1;
    }
}

/// Takes rows out of both tables.
fn drop_checkpoints(lent: &mut Lent, first: usize, count: usize) {
    drop_rows(lent.sent.lent_mut(), first, count);
    drop_rows(lent.received.lent_mut(), first, count);
}

/// Hands a session to valid tables of another number of processes: these with one process fewer or more, or another
/// book's. Sometimes the session's n is then theirs, or a purpose in it is none.
pub fn change_processes(random: &mut Random, lent: &mut Lent) {
    if !are_whole(lent) || lent.state.lent().len() != session::WORDS {
        return;
    }
    let n = lent.shape.lent()[0] as usize;
    let checkpoints: u64 = lent.shape.lent()[1..].iter().sum();
    match random.below(4) {
        0 if n > 1 => drop_last_process(lent, n),
        1 if n < PROCESSES && checkpoints < CHECKPOINTS as u64 => add_process(lent, n),
        _ => lend_other_book(random, lent, n),
    }
    let now = lent.shape.lent()[0];
    change_count(random, lent.state.lent_mut(), now);
}

/// Takes the last process out of the tables.
fn drop_last_process(lent: &mut Lent, n: usize) {
    let count = lent.shape.lent()[n] as usize;
    let first = lent.shape.lent()[1..n].iter().sum::<u64>() as usize;
    drop_checkpoints(lent, first, count);
    for table in [&mut lent.sent, &mut lent.received] {
        for row in table.lent_mut().chunks_mut(PROCESSES) {
            row[n - 1] = 0;
        }
    }
    let shape = lent.shape.lent_mut();
    shape[n] = 0;
    shape[0] -= 1;
}

/// Puts one process more into the tables, with one checkpoint.
fn add_process(lent: &mut Lent, n: usize) {
    let shape = lent.shape.lent_mut();
    shape[0] += 1;
    shape[n + 1] = 1;
}

/// Lends the tables of a book of another number of processes.
fn lend_other_book(random: &mut Random, lent: &mut Lent, n: usize) {
    let book = loop {
        let book = if random.once_in(2) {
            small_book(random)
        } else {
            any_book(random)
        };
        if book.n() != n {
            break book;
        }
    };
    lent.shape = Guarded::holding(&book.shape);
    lent.sent = Guarded::holding(&book.sent);
    lent.received = Guarded::holding(&book.received);
}
