//! The books that measurements use.

use crate::book::{Book, Table};
use crate::books::ring;
use crate::layout::{Counter, LARGEST};

/// Counts for n processes that sum to `total`, as even as may be.
fn even_counts(n: usize, total: usize) -> Vec<usize> {
    (0..n).map(|place| total / n + usize::from(place < total % n)).collect()
}

/// A book in which every counter but those of the oldest checkpoints takes five bytes, or with `small` one. More was sent
/// than received everywhere, so the line is the newest set.
pub fn dense(n: usize, checkpoints: usize, small: bool) -> Book {
    let mut book = Book::of_zeros(&even_counts(n, checkpoints));
    for j in 1..=n {
        for r in 2..=book.count(j) {
            for p in (1..=n).filter(|&p| p != j) {
                let counter = if small {
                    1 + (r / 4) as Counter
                } else {
                    LARGEST as Counter - 300 + r as Counter
                };
                *book.entry_mut(Table::Sent, j, r, p) = counter + 40;
                *book.entry_mut(Table::Received, j, r, p) = counter - if small { 1 } else { 100 };
            }
        }
    }
    book
}

/// A dense book whose newest set has one pair at fault: the last process, and the one before it.
pub fn last_pair_at_fault(n: usize, checkpoints: usize) -> Book {
    let mut book = dense(n, checkpoints, false);
    let sent = book.sent[book.place(n - 1, book.count(n - 1), n)];
    *book.entry_mut(Table::Received, n, book.count(n), n - 1) = sent + 1;
    book
}

/// A ring of n processes with this T, a multiple of n; the line is the oldest set.
pub fn ring_with(n: usize, passed: usize) -> Book {
    ring(n, passed / n + 1, 1)
}

/// Messages that every oldest checkpoint of [`in_flight`] has on its way to each partner.
const ON_THEIR_WAY: Counter = 500;

/// A typical run after a move: the oldest checkpoints have sent what later ones received, and messages are on their way across
/// the line too.
pub fn in_flight(n: usize, each: usize) -> Book {
    let mut book = typical(n, each);
    for j in 1..=n {
        for p in (1..=n).filter(|&p| p != j) {
            for r in 1..=each {
                *book.entry_mut(Table::Sent, j, r, p) += ON_THEIR_WAY;
            }
            for r in 2..=each {
                *book.entry_mut(Table::Received, j, r, p) += ON_THEIR_WAY;
            }
        }
    }
    book
}

/// A run in which everybody talks to everybody: each checkpoint has received what the others had sent two checkpoints
/// before, but for some of the last three, which have received more than that and fall.
pub fn typical(n: usize, each: usize) -> Book {
    let mut book = Book::of_zeros(&vec![each; n]);
    for j in 1..=n {
        for r in 2..=each {
            for p in (1..=n).filter(|&p| p != j) {
                let near_end = r + 3 > each && (j + p) % 5 == 0;
                let lag = if near_end { 0 } else { 2 };
                *book.entry_mut(Table::Sent, j, r, p) = (1000 * (r - 1) + 7 * j + p) as Counter;
                let heard = (r - 1).saturating_sub(lag);
                let received = if heard == 0 {
                    0
                } else {
                    1000 * heard + 7 * p + j + 400 * usize::from(near_end)
                };
                *book.entry_mut(Table::Received, j, r, p) = received as Counter;
            }
        }
    }
    book
}
