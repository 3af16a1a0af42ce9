//! Restart orders and the move (K 5.4).

use crate::book::{Book, Counter, Row, Shape, PROCESSES};
use crate::line::line_of;
use crate::machine::purpose_question;
use crate::message::RESTART_ONLY;
use crate::resend::{list_of, Repeat};

/// The purpose that only advances the line: nothing newer goes.
const ADVANCE_ONLY: u64 = 1;

/// "A restart order names, for each process, the checkpoint restarted from, numbered as before the
/// move, and how many go before and after it"; absent processes have 0. It "gains a list of (sender,
/// receiver, first, last)" (E5), "as counted before the move".
#[derive(Clone, PartialEq, Debug)]
pub struct Order {
    pub from: [u64; PROCESSES],
    pub before: [u64; PROCESSES],
    pub after: [u64; PROCESSES],
    pub resend: Vec<Repeat>,
}

/// The order for accepted tables and a purpose that there is.
fn order_of(book: &Book, purpose: u64) -> Order {
    let restarted = if purpose == RESTART_ONLY {
        [1; PROCESSES]
    } else {
        line_of(book)
    };
    let zeros = [0; PROCESSES];
    let mut order = Order {
        from: zeros,
        before: zeros,
        after: zeros,
        resend: list_of(book, &restarted),
    };
    for (process, &from) in restarted.iter().enumerate().take(book.n) {
        order.from[process] = from as u64;
        order.before[process] = from as u64 - 1;
        if purpose != ADVANCE_ONLY {
            order.after[process] = (book.counts[process] - from) as u64;
        }
    }
    order
}

/// The restart order, without a move. Questions 2, 4 to 9, 11.
pub fn restart_order(shape: &Shape, sent: &[Counter], received: &[Counter], purpose: u64) -> Result<Order, u32> {
    let book = Book::accepted(shape, sent, received)?;
    purpose_question(purpose)?;
    Ok(order_of(&book, purpose))
}

/// Moves the line in the tables and answers the restart order. Questions 2, 4 to 9, 11.
pub fn move_line(
    shape: &mut Shape,
    sent: &mut [Counter],
    received: &mut [Counter],
    purpose: u64,
) -> Result<Order, u32> {
    let book = Book::accepted(shape, sent, received)?;
    purpose_question(purpose)?;
    let order = order_of(&book, purpose);
    let (off_sent, off_received) = taken_off(&book, &order);
    keep_only(shape, &order, &off_sent, sent);
    keep_only(shape, &order, &off_received, received);
    for process in 0..shape.n as usize {
        shape.counts[process] -= order.before[process] + order.after[process];
    }
    Ok(order)
}

/// What comes off each process's sent and received counters. "A move takes off, at both ends of a
/// channel, what the receiver's line checkpoint had received" (E4); with purpose 2 that is checkpoint
/// 1, which has received nothing. The line is consistent, so its checkpoints sent at least that.
fn taken_off(book: &Book, order: &Order) -> ([Row; PROCESSES], [Row; PROCESSES]) {
    let mut of_sender = [[0; PROCESSES]; PROCESSES];
    let mut of_receiver = [[0; PROCESSES]; PROCESSES];
    for receiver in 0..book.n {
        of_receiver[receiver] = *book.received(receiver, order.from[receiver] as usize);
        for sender in 0..book.n {
            of_sender[sender][receiver] = of_receiver[receiver][sender];
        }
    }
    (of_sender, of_receiver)
}

/// Keeps in one table the rows that do not go, one after another from the first row on, less what
/// comes off them. No kept row is written before its place is read: rows only go.
fn keep_only(shape: &Shape, order: &Order, off: &[Row; PROCESSES], table: &mut [Counter]) {
    let (rows, _) = table.as_chunks_mut::<PROCESSES>();
    let mut read_from = 0;
    let mut write_to = 0;
    for (process, off) in off.iter().enumerate().take(shape.n as usize) {
        let end = read_from + shape.counts[process] as usize;
        let first_kept = read_from + order.before[process] as usize;
        let last_kept = end - order.after[process] as usize;
        for kept in first_kept..last_kept {
            let row = rows[kept];
            rows[write_to] = std::array::from_fn(|partner| row[partner] - off[partner]);
            write_to += 1;
        }
        read_from = end;
    }
    rows[write_to..].as_flattened_mut().fill(0);
}
