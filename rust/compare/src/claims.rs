//! Demand 3, asserted on the words of a session.

use crate::book::Book;
use crate::layout::{initiator, participant, participants, session, slot_start, strand_bytes};
use crate::line::{is_consistent, is_line_of_all_sets, line, passed, sets};

/// Sets that are tried one by one to see that a line is the line.
const MOST_SETS: usize = 4000;

/// Where the sender stands in a message.
const SENDER: usize = 2;

/// What demand 3 claims of every search on one book by one initiator.
pub struct Claims {
    n: usize,
    initiator: usize,
    /// The line, found without the library.
    pub line: Vec<usize>,
    /// T, the checkpoints newer than the line's.
    pub passed: u64,
}

impl Claims {
    /// The claims for searches on a book; an error if the line found is not the line.
    pub fn new(book: &Book, initiator: usize) -> Result<Self, String> {
        let line = line(book);
        let passed = passed(book, &line) as u64;
        if !is_consistent(book, &line) {
            return Err(format!("the line {line:?} is not consistent"));
        }
        if sets(book, MOST_SETS).is_some() && !is_line_of_all_sets(book, &line) {
            return Err(format!("the line {line:?} is not the maximum of all consistent sets"));
        }
        Ok(Claims {
            n: book.n(),
            initiator,
            line,
            passed,
        })
    }

    /// The most deliveries: (n - 1)(2T + 5).
    pub fn most_deliveries(&self) -> u64 {
        (self.n as u64 - 1) * (2 * self.passed + 5)
    }

    /// What is claimed after a start, and after every list of turns of which so many were accepted.
    pub fn hold_after(&self, words: &[u64], accepted: u64) -> Result<(), String> {
        let waits = words[session::WAITING..session::DELIVERED]
            .iter()
            .any(|&length| length > 0);
        let everybody_ended = (1..=self.n).all(|j| self.has_ended(words, j));
        if waits == everybody_ended {
            return Err(format!(
                "a message waits: {waits}; everybody has ended: {everybody_ended}"
            ));
        }
        let delivered = words[session::DELIVERED];
        if delivered != accepted || delivered > self.most_deliveries() {
            let most = self.most_deliveries();
            return Err(format!(
                "{delivered} deliveries in {accepted} accepted turns; at most {most}"
            ));
        }
        let rounds = words[session::MACHINE + initiator::ROUNDS];
        if rounds > self.passed + 2 {
            return Err(format!("{rounds} rounds with T = {}", self.passed));
        }
        (1..=self.n).try_for_each(|j| self.stands_well(words, j))
    }

    /// Nobody stands before the line, and whoever has ended stands on it.
    fn stands_well(&self, words: &[u64], j: usize) -> Result<(), String> {
        let (candidate, line) = (self.candidate(words, j), self.line[j - 1] as u64);
        if candidate < line {
            return Err(format!("process {j} stands on {candidate}, before the line's {line}"));
        }
        if self.has_ended(words, j) && candidate != line {
            return Err(format!("process {j} has ended on {candidate}, the line's is {line}"));
        }
        Ok(())
    }

    /// What is claimed of a turn that names p: accepted where a message waits, or else refused by 17 for want of
    /// room; and refused by 18 on an empty strand, by 10 for anybody else.
    pub fn hold_of_turn(&self, before: &[u64], p: u64, room: usize, answer: u32) -> Result<(), String> {
        let expected = if !participants(self.n, self.initiator).any(|q| q as u64 == p) {
            10
        } else if before[session::WAITING + p as usize - 1] == 0 {
            18
        } else if answer == 17 && room < strand_bytes(self.n) {
            17
        } else {
            0
        };
        if answer == expected {
            return Ok(());
        }
        Err(format!(
            "a turn of {p} with {room} bytes of room was answered {answer}, claimed is {expected}"
        ))
    }

    /// What is claimed of the rounds after an accepted turn of p: one more exactly if a wait began, which is when the turn
    /// delivered the only report that was awaited still, and somebody is awaited then.
    pub fn hold_of_rounds(&self, before: &[u64], strands: &[u8], p: u64, after: &[u64]) -> Result<(), String> {
        let p = p as usize;
        let sender = strands[slot_start(self.n, self.initiator, p) + SENDER];
        let awaited = |words: &[u64]| {
            let flags = session::MACHINE + initiator::AWAITED;
            participants(self.n, self.initiator)
                .filter(|q| words[flags + q - 1] == 1)
                .collect::<Vec<_>>()
        };
        let wait_began = usize::from(sender) == p && awaited(before) == [p] && !awaited(after).is_empty();
        let rounds = |words: &[u64]| words[session::MACHINE + initiator::ROUNDS];
        if rounds(after) == rounds(before) + u64::from(wait_began) {
            return Ok(());
        }
        let (old, new) = (rounds(before), rounds(after));
        Err(format!(
            "rounds went from {old} to {new} with a turn of {p}; a wait began: {wait_began}"
        ))
    }

    fn candidate(&self, words: &[u64], j: usize) -> u64 {
        if j == self.initiator {
            words[session::MACHINE + initiator::CANDIDATE]
        } else {
            words[session::participant_at(j) + participant::CANDIDATE]
        }
    }

    fn has_ended(&self, words: &[u64], j: usize) -> bool {
        if j == self.initiator {
            words[session::MACHINE + initiator::ENDED] == 1
        } else {
            words[session::participant_at(j) + participant::STAGE] == participant::ENDED
        }
    }
}

/// The participants on whose strands a message waits.
pub fn waiting(words: &[u64]) -> Vec<usize> {
    (1..=16).filter(|p| words[session::WAITING + p - 1] > 0).collect()
}
