//! The participant's machine (K 5.3).

use crate::book::{Book, Counter, Row, Shape, PROCESSES};
use crate::machine::{not_known, participant_question, purpose_question, unused_is_zero};
use crate::message::{differing, take_in, write_in_turn, Message, INVITATION, NOTHING, OTHER, RESTART_ONLY};

/// Stage of a participant that has not been invited yet.
pub const BEFORE: u32 = 0;
/// Stage of a participant that searches.
pub const SEARCHING: u32 = 1;
/// Stage of a participant that has ended.
pub const ENDED: u32 = 2;

#[derive(Clone, PartialEq, Debug, Default)]
pub struct Participant {
    pub n: u64,
    /// The process whose machine this is, from 1.
    pub me: u64,
    pub initiator: u64,
    pub purpose: u64,
    pub stage: u32,
    pub candidate: u64,
    /// "The row it last reported": entry p is what its candidate had sent to p.
    pub row: Row,
    /// What it knows of the others' candidates: entry j is what j's had sent to it.
    pub column: Row,
}

impl Participant {
    /// The state before the invitation: "Each process begins at its newest checkpoint."
    pub(crate) fn first(book: &Book, me: usize, initiator: u64, purpose: u64) -> Participant {
        Participant {
            n: book.n as u64,
            me: me as u64 + 1,
            initiator,
            purpose,
            stage: BEFORE,
            candidate: book.counts[me] as u64,
            row: not_known(book.n, me),
            column: not_known(book.n, me),
        }
    }

    /// Question 10 of the names in the state.
    pub(crate) fn process_questions(&self, n: usize) -> Result<(), u32> {
        participant_question(n, self.me, self.initiator)
    }

    /// The own process, from 0; its name has passed question 10.
    fn own(&self) -> usize {
        self.me as usize - 1
    }

    /// Question 13 of a state whose names have passed 10 and 11.
    pub(crate) fn fits(&self, book: &Book) -> bool {
        let own = self.own();
        self.n == book.n as u64
            && self.stage <= ENDED
            && book.has(own, self.candidate)
            && unused_is_zero(&self.row, book.n, own)
            && unused_is_zero(&self.column, book.n, own)
            && match (self.stage, self.purpose) {
                (BEFORE, _) => self.knows_nothing_on(book.counts[own], book.n),
                (ENDED, RESTART_ONLY) => self.knows_nothing_on(1, book.n),
                _ => self.kept_fits(book),
            }
    }

    /// "In place of the row and column conditions": this checkpoint, "all 'not known'".
    fn knows_nothing_on(&self, checkpoint: usize, n: usize) -> bool {
        let nothing = not_known(n, self.own());
        self.candidate == checkpoint as u64 && self.row == nothing && self.column == nothing
    }

    /// "Its own kept row is that candidate's sent counters; the candidate is the newest permitted
    /// by the kept column."
    fn kept_fits(&self, book: &Book) -> bool {
        let candidate = self.candidate as usize;
        self.row == *book.sent(self.own(), candidate) && book.is_newest_permitted(self.own(), candidate, &self.column)
    }

    /// What is left of 14, then 15 and 16, of a message that has been parsed.
    pub(crate) fn admits(&self, message: &Message) -> Result<(), u32> {
        // "No pair names the participant at whose end of the strand the message is read."
        if message.names(self.own()) {
            return Err(14);
        }
        let awaited_kind = match self.stage {
            BEFORE => message.kind == INVITATION,
            SEARCHING => message.kind == OTHER,
            _ => false,
        };
        if !awaited_kind || message.sender != self.initiator || message.purpose != self.purpose {
            return Err(15);
        }
        if message.is_lower_than(&self.column) {
            Ok(())
        } else {
            Err(16)
        }
    }

    /// The step on a message that has passed 14 to 16: the state after it, and its report.
    pub(crate) fn step(&self, book: &Book, message: &Message) -> (Participant, Option<Message>) {
        let mut next = self.clone();
        if message.kind == INVITATION && message.purpose == RESTART_ONLY {
            // "With 2 the invitation itself ends each participant on checkpoint 1."
            next.stage = ENDED;
            next.candidate = 1;
        } else if message.kind == OTHER && message.has_no_pairs() {
            // "Kind 2 from the initiator without pairs is the termination."
            next.stage = ENDED;
        } else {
            take_in(&mut next.column, &message.pairs);
            let report = next.take_newest_permitted(book);
            return (next, Some(report));
        }
        (next, None)
    }

    /// Takes the "newest checkpoint whose received counters are at most the known sent counters",
    /// and "reports each sent counter that differs from what it last reported". Known counters only
    /// fall, so no checkpoint newer than the candidate is permitted.
    fn take_newest_permitted(&mut self, book: &Book) -> Message {
        let own = self.own();
        let candidate = book.newest_permitted(own, self.candidate as usize, &self.column);
        let sent = book.sent(own, candidate);
        let pairs = differing(sent, &self.row);
        self.stage = SEARCHING;
        self.candidate = candidate as u64;
        self.row = *sent;
        Message {
            kind: OTHER,
            purpose: self.purpose,
            sender: self.me,
            pairs,
        }
    }

    /// Questions 13 to 17 and the step, on accepted tables and names.
    pub(crate) fn receive(&mut self, book: &Book, message: &[u8], out: &mut [u8]) -> Result<[u64; PROCESSES], u32> {
        if !self.fits(book) {
            return Err(13);
        }
        let message = Message::parse(message, book.n)?;
        self.admits(&message)?;
        let (next, report) = self.step(book, &message);
        let mut outbox = NOTHING;
        outbox[self.initiator as usize - 1] = report;
        let lengths = write_in_turn(&outbox, out)?;
        *self = next;
        Ok(lengths)
    }
}

/// A participant's state before the invitation. Questions 2, 4 to 11.
pub fn participant_first(
    shape: &Shape,
    sent: &[Counter],
    received: &[Counter],
    me: u64,
    initiator: u64,
    purpose: u64,
) -> Result<Participant, u32> {
    let book = Book::accepted(shape, sent, received)?;
    participant_question(book.n, me, initiator)?;
    purpose_question(purpose)?;
    Ok(Participant::first(&book, me as usize - 1, initiator, purpose))
}

/// A participant receives a message: writes its report and answers the length for each process.
/// Questions 2, 4 to 11, 13 to 17.
pub fn participant_receive(
    state: &mut Participant,
    shape: &Shape,
    sent: &[Counter],
    received: &[Counter],
    message: &[u8],
    out: &mut [u8],
) -> Result<[u64; PROCESSES], u32> {
    let book = Book::accepted(shape, sent, received)?;
    state.process_questions(book.n)?;
    purpose_question(state.purpose)?;
    state.receive(&book, message, out)
}
