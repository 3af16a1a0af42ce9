//! What is claimed of a move: which checkpoints it keeps, and what it takes off their counters.

use crate::book::Book;
use crate::layout::{participants, ORDER_RESEND, PROCESSES};
use crate::line::line;
use std::fmt;

/// The purpose that only advances the line, and the one that only restarts.
pub const ADVANCE: u64 = 1;
pub const RESTART: u64 = 2;

/// A move of a book, as document 02 lays it down.
pub struct Step<'a> {
    book: &'a Book,
    purpose: u64,
    /// The checkpoint of each process that becomes its oldest: the line's, with purpose 2 checkpoint 1.
    from: Vec<usize>,
}

impl<'a> Step<'a> {
    pub fn of(book: &'a Book, purpose: u64) -> Self {
        let from = if purpose == RESTART {
            vec![1; book.n()]
        } else {
            line(book)
        };
        Step { book, purpose, from }
    }

    /// How many checkpoints of process j go before the oldest that is kept.
    pub fn before(&self, j: usize) -> usize {
        self.from[j - 1] - 1
    }

    /// How many of them are kept.
    fn kept(&self, j: usize) -> usize {
        if self.purpose == ADVANCE {
            self.book.count(j) - self.before(j)
        } else {
            1
        }
    }

    /// "A move takes off, at both ends of a channel, what the receiver's line checkpoint had received."
    pub fn off(&self, sender: usize, receiver: usize) -> u64 {
        self.book.received_at(receiver, self.from[receiver - 1], sender)
    }

    /// What the sender's checkpoint that becomes the oldest had sent on a channel.
    pub fn sent(&self, sender: usize, receiver: usize) -> u64 {
        self.book.sent_at(sender, self.from[sender - 1], receiver)
    }

    /// What the checkpoints that become the oldest had sent on a channel and not received.
    fn in_flight(&self, sender: usize, receiver: usize) -> Option<u64> {
        self.sent(sender, receiver).checked_sub(self.off(sender, receiver))
    }

    /// The channels, each by its sender and its receiver.
    pub fn channels(&self) -> impl Iterator<Item = (usize, usize)> {
        let n = self.book.n();
        (1..=n).flat_map(move |j| participants(n, j).map(move |p| (j, p)))
    }

    /// Whether the move left this book and this order.
    pub fn leaves(&self, moved: &Book, order: &[u64]) -> Result<(), String> {
        if moved.n() != self.book.n() {
            return Err(format!("{} processes are left", moved.n()));
        }
        (1..=moved.n()).try_for_each(|j| self.leaves_process(moved, order, j))?;
        self.channels().try_for_each(|(j, p)| self.leaves_oldest(moved, j, p))?;
        let set = line(moved);
        if set.iter().any(|&r| r != 1) {
            return Err(format!("the line is then {set:?}"));
        }
        Ok(())
    }

    /// What the order says of a process, and the checkpoints of it that are kept.
    fn leaves_process(&self, moved: &Book, order: &[u64], j: usize) -> Result<(), String> {
        let (before, kept) = (self.before(j), self.kept(j));
        let after = self.book.count(j) - before - kept;
        let said: Vec<usize> = order[..ORDER_RESEND]
            .iter()
            .skip(j - 1)
            .step_by(PROCESSES)
            .map(|&w| w as usize)
            .collect();
        if said != [before + 1, before, after] || moved.count(j) != kept {
            return Err(format!(
                "process {j} goes by {said:?} and keeps {}; claimed are {kept} from {} on",
                moved.count(j),
                before + 1
            ));
        }
        for r in 1..=kept {
            for p in participants(moved.n(), j) {
                let sent = self.book.sent_at(j, before + r, p).checked_sub(self.off(j, p));
                let received = self.book.received_at(j, before + r, p).checked_sub(self.off(p, j));
                let left = (Some(moved.sent_at(j, r, p)), Some(moved.received_at(j, r, p)));
                if left != (sent, received) {
                    return Err(format!(
                        "checkpoint {r} of process {j}, partner {p}: {left:?}, claimed {sent:?} and {received:?}"
                    ));
                }
            }
        }
        Ok(())
    }

    /// An oldest sent counter is exactly what was sent and not received across the line, an oldest received one is zero.
    fn leaves_oldest(&self, moved: &Book, j: usize, p: usize) -> Result<(), String> {
        let (sent, received) = (moved.sent_at(j, 1, p), moved.received_at(p, 1, j));
        if Some(sent) != self.in_flight(j, p) || received != 0 {
            return Err(format!(
                "from {j} to {p} {sent} are on their way and {received} received; claimed {:?} and 0",
                self.in_flight(j, p)
            ));
        }
        Ok(())
    }
}

/// What the moves of a run had.
#[derive(Clone, Default)]
pub struct Met {
    /// By purpose.
    moves: [u64; 3],
    /// Moves that took something off, and those across whose line something was on its way.
    taking_off: u64,
    crossed: u64,
    /// Sessions of which demand 3 was asserted, on books whose oldest checkpoints have sent.
    sessions: u64,
    /// Comparisons of a moved book's line with that of the whole history; those where it is past the oldest, and those where
    /// it would be older if the oldest had sent nothing.
    lines: u64,
    past_oldest: u64,
    by_flight: u64,
    /// Whole books that the mark refuses, and the moved ones with the same checkpoints are accepted.
    less_than_mark: u64,
}

impl Met {
    pub fn add_move(&mut self, step: &Step) {
        self.moves[step.purpose as usize - 1] += 1;
        self.taking_off += u64::from(step.channels().any(|(j, p)| step.off(j, p) > 0));
        self.crossed += u64::from(step.channels().any(|(j, p)| step.in_flight(j, p) != Some(0)));
    }

    pub fn add_session(&mut self, book: &Book) {
        self.sessions += u64::from(book.is_in_flight());
    }

    pub fn add_line(&mut self, moved: &Book, set: &[usize]) {
        let n = moved.n();
        self.lines += 1;
        self.past_oldest += u64::from(set.iter().any(|&r| r > 1));
        let needs_flight = |j: usize, p: usize| {
            let since = moved.sent_at(p, set[p - 1], j) - moved.sent_at(p, 1, j);
            moved.received_at(j, set[j - 1], p) > since
        };
        self.by_flight += u64::from((1..=n).any(|j| participants(n, j).any(|p| needs_flight(j, p))));
    }

    pub fn add_less_than_mark(&mut self) {
        self.less_than_mark += 1;
    }

    pub fn merge(&mut self, other: &Met) {
        for (sum, count) in self.moves.iter_mut().zip(other.moves) {
            *sum += count;
        }
        self.taking_off += other.taking_off;
        self.crossed += other.crossed;
        self.sessions += other.sessions;
        self.lines += other.lines;
        self.past_oldest += other.past_oldest;
        self.by_flight += other.by_flight;
        self.less_than_mark += other.less_than_mark;
    }

    /// What no case had.
    pub fn missing(&self) -> Vec<String> {
        let counts = [
            (self.moves[0], "a move with purpose 1"),
            (self.moves[1], "a move with purpose 2"),
            (self.moves[2], "a move with purpose 3"),
            (self.taking_off, "a move that takes something off"),
            (self.crossed, "a move with a message on its way"),
            (self.sessions, "a session on a book whose oldest checkpoints have sent"),
            (self.past_oldest, "a line past the oldest of a moved book"),
            (self.by_flight, "a line that rests on messages on their way"),
            (
                self.less_than_mark,
                "a moved book accepted where the whole one has the mark",
            ),
        ];
        let never = counts.iter().filter(|(count, _)| *count == 0);
        never.map(|(_, what)| what.to_string()).collect()
    }
}

impl fmt::Display for Met {
    fn fmt(&self, f: &mut fmt::Formatter<'_>) -> fmt::Result {
        let [advances, restarts, both] = self.moves;
        write!(
            f,
            "{advances} with purpose 1, {restarts} with 2, {both} with 3, {} that took something off, {} with messages on their \
             way; {} lines compared with the whole history's, {} past the oldest, {} resting on messages on their way; {} moved \
             books accepted where the whole one had the mark; {} sessions on books whose oldest have sent",
            self.taking_off,
            self.crossed,
            self.lines,
            self.past_oldest,
            self.by_flight,
            self.less_than_mark,
            self.sessions
        )
    }
}
