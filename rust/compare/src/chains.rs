//! A book that is moved now and then while checkpoints are appended, beside the whole history, which never is.

use crate::book::{Book, Row};
use crate::layout::{participants, Counter, CHECKPOINTS, LARGEST, PROCESSES};
use crate::move_claims::{Step, ADVANCE};
use crate::random::Random;

/// The two books, and what the moves so far dropped before the moved one's oldest and took off each channel.
pub struct Chain {
    pub whole: Book,
    pub moved: Book,
    before: [usize; PROCESSES],
    /// A row for each sender.
    off: [Row; PROCESSES],
}

impl Chain {
    pub fn of(book: Book) -> Self {
        Chain {
            moved: book.clone(),
            whole: book,
            before: [0; PROCESSES],
            off: [[0; PROCESSES]; PROCESSES],
        }
    }

    pub fn has_room(&self) -> bool {
        self.whole.checkpoints() < CHECKPOINTS
    }

    /// Appends a checkpoint to both, "their counters in the moved book less what the move took off".
    pub fn append(&mut self, j: usize, sent: &Row, received: &Row) {
        let less_sent = std::array::from_fn(|p| sent[p] - self.off[j - 1][p]);
        let less_received = std::array::from_fn(|p| received[p] - self.off[p][j - 1]);
        self.whole.append(j, sent, received);
        self.moved.append(j, &less_sent, &less_received);
    }

    /// The moved book becomes the one that a move with this purpose left. Checkpoints that a restart drops are gone from the
    /// history too.
    pub fn move_on(&mut self, purpose: u64, left: Book) {
        let step = Step::of(&self.moved, purpose);
        let n = left.n();
        for j in 1..=n {
            self.before[j - 1] += step.before(j);
            for p in participants(n, j) {
                self.off[j - 1][p - 1] += step.off(j, p) as Counter;
            }
            if purpose != ADVANCE {
                self.whole.keep_oldest(j, self.before[j - 1] + 1);
            }
        }
        self.moved = left;
    }

    /// Whether a line of the moved book names the same physical checkpoints as one of the whole history.
    pub fn is_same_line(&self, whole: &[u64], moved: &[u64]) -> bool {
        (0..self.whole.n()).all(|place| whole[place] == moved[place] + self.before[place] as u64)
    }
}

/// A later checkpoint of process j: it has sent a little more, and received what was sent to it, or less, or one more.
pub fn later_checkpoint(random: &mut Random, book: &Book, j: usize) -> (Row, Row) {
    let (mut sent, mut received) = ([0; PROCESSES], [0; PROCESSES]);
    for p in participants(book.n(), j) {
        let was_sent = book.sent_at(j, book.count(j), p);
        let was_received = book.received_at(j, book.count(j), p);
        let known = book.sent_at(p, book.count(p), j).max(was_received);
        let now = match random.below(8) {
            0 => was_received,
            1 => was_received + (known - was_received) / 2,
            2 => known + 1,
            _ => known,
        };
        sent[p - 1] = (was_sent + random.below(3) as u64).min(LARGEST) as Counter;
        received[p - 1] = now.min(LARGEST) as Counter;
    }
    (sent, received)
}
