//! The initiator's machine (K 5.2).

use crate::book::{all_zero, at_most, others, Book, Counter, Row, Shape, PROCESSES};
use crate::machine::{not_known, process_question, purpose_question, unused_is_zero, TALLY_LIMIT};
use crate::message::{differing, take_in, write_in_turn, Message, Outbox};
use crate::message::{INVITATION, NOTHING, NO_PAIRS, OTHER, RESTART_ONLY};

/// For every ordered pair "the sender's candidate's sent counter or 'not known'": row j is what
/// process j sent to each, from 0.
pub type Matrix = [[Counter; PROCESSES]; PROCESSES];

#[derive(Clone, PartialEq, Debug)]
pub struct Initiator {
    pub n: u64,
    /// The process whose machine this is, from 1: the initiator.
    pub me: u64,
    pub purpose: u64,
    pub ended: bool,
    pub candidate: u64,
    /// Waits of at least one report that have begun.
    pub rounds: u32,
    pub awaited: [bool; PROCESSES],
    pub matrix: Matrix,
    /// "The initiator copies its matrix before each wait."
    pub copy: Matrix,
}

/// What each sent to process `receiver`.
fn column(matrix: &Matrix, receiver: usize) -> Row {
    std::array::from_fn(|sender| matrix[sender][receiver])
}

/// Whether "diagonal and absent entries are zero".
fn unused_entries_are_zero(matrix: &Matrix, n: usize) -> bool {
    (0..n).all(|sender| unused_is_zero(&matrix[sender], n, sender)) && all_zero(matrix[n..].as_flattened())
}

/// The matrix of which nothing is known yet.
fn unknown_matrix(n: usize) -> Matrix {
    let mut matrix = [[0; PROCESSES]; PROCESSES];
    (0..n).for_each(|sender| matrix[sender] = not_known(n, sender));
    matrix
}

impl Initiator {
    /// The first step: the state after it, and the invitations.
    pub(crate) fn begin(book: &Book, me: usize, purpose: u64) -> (Initiator, Outbox) {
        let matrix = unknown_matrix(book.n);
        let mut state = Initiator {
            n: book.n as u64,
            me: me as u64 + 1,
            purpose,
            ended: true,
            candidate: 1,
            rounds: 0,
            awaited: [false; PROCESSES],
            matrix,
            copy: matrix,
        };
        if purpose == RESTART_ONLY {
            // The sending of the invitations ends the initiator on checkpoint 1.
            let invitations = state.to_everybody(INVITATION, |_| NO_PAIRS);
            return (state, invitations);
        }
        let own_row = book.sent(me, book.counts[me]);
        state.candidate = book.counts[me] as u64;
        state.matrix[me] = *own_row;
        state.copy = state.matrix;
        // "invites every other process with its own sent counter for it"
        let invitations = state.to_everybody(INVITATION, |receiver| {
            let mut pairs = NO_PAIRS;
            pairs[me] = own_row[receiver];
            pairs
        });
        if book.n > 1 {
            state.ended = false;
            state.wait_for(&invitations);
        }
        (state, invitations)
    }

    /// The own process, from 0; its name has passed question 10.
    fn own(&self) -> usize {
        self.me as usize - 1
    }

    /// Begins a wait for those who get a message: copies the matrix and counts the round.
    fn wait_for(&mut self, sent: &Outbox) {
        self.copy = self.matrix;
        self.awaited = std::array::from_fn(|process| sent[process].is_some());
        self.rounds += 1;
    }

    /// Question 13 of a state whose names have passed 10 and 11.
    pub(crate) fn fits(&self, book: &Book) -> bool {
        let own = self.own();
        let awaited = |process: usize| self.awaited[process];
        self.n == book.n as u64
            && book.has(own, self.candidate)
            && self.rounds < TALLY_LIMIT
            && unused_entries_are_zero(&self.matrix, book.n)
            && unused_entries_are_zero(&self.copy, book.n)
            // "Only participants are awaited", and "a waiting initiator awaits someone".
            && !awaited(own)
            && !(book.n..PROCESSES).any(awaited)
            && (self.ended || self.awaited.contains(&true))
            && self.matrix.iter().zip(&self.copy).all(|(row, copied)| at_most(row, copied))
            && if self.ended && self.purpose == RESTART_ONLY {
                self.knows_nothing(book.n)
            } else {
                self.kept_fits(book)
            }
    }

    /// "Ended by purpose 2: checkpoint 1, all 'not known'", the copy too.
    fn knows_nothing(&self, n: usize) -> bool {
        let nothing = unknown_matrix(n);
        self.candidate == 1 && self.matrix == nothing && self.copy == nothing
    }

    /// "Its own kept row is that candidate's sent counters; the candidate is the newest permitted
    /// by the kept column, for a waiting initiator by the copy."
    fn kept_fits(&self, book: &Book) -> bool {
        let own = self.own();
        let candidate = self.candidate as usize;
        let permitting = if self.ended { &self.matrix } else { &self.copy };
        self.matrix[own] == *book.sent(own, candidate)
            && book.is_newest_permitted(own, candidate, &column(permitting, own))
    }

    /// What is left of 14, then 15 and 16, of a message that has been parsed.
    pub(crate) fn admits(&self, message: &Message) -> Result<(), u32> {
        let sender = message.sender as usize - 1;
        // "No pair names the participant at whose end of the strand the message is [...] written":
        // here the sender, who is a participant unless the initiator names itself.
        if sender != self.own() && message.names(sender) {
            return Err(14);
        }
        let known = &self.matrix[sender];
        let n = self.n as usize;
        let first_report = *known == not_known(n, sender);
        if self.ended
            || !self.awaited[sender]
            || message.purpose != self.purpose
            || message.kind != OTHER
            || (first_report && message.count() != n - 1)
        {
            return Err(15);
        }
        if message.is_lower_than(known) {
            Ok(())
        } else {
            Err(16)
        }
    }

    /// The step on a report that has passed 14 to 16. `send` asks question 17 of the messages and
    /// writes them; where it refuses, the state stays.
    pub(crate) fn step<T>(
        &mut self,
        book: &Book,
        report: &Message,
        send: impl FnOnce(&Outbox) -> Result<T, u32>,
    ) -> Result<T, u32> {
        let sender = report.sender as usize - 1;
        if others(PROCESSES, sender).any(|process| self.awaited[process]) {
            let sent = send(&NOTHING)?;
            take_in(&mut self.matrix[sender], &report.pairs);
            self.awaited[sender] = false;
            return Ok(sent);
        }
        let mut matrix = self.matrix;
        take_in(&mut matrix[sender], &report.pairs);
        self.go_on(book, matrix, send)
    }

    /// "When all awaited reports are in, it first steps back itself in the same way. Then it polls
    /// [...]. If none differs, it sends every participant a termination." The matrix, with the last
    /// report in it, becomes the state's once the messages are sent.
    fn go_on<T>(
        &mut self,
        book: &Book,
        mut matrix: Matrix,
        send: impl FnOnce(&Outbox) -> Result<T, u32>,
    ) -> Result<T, u32> {
        let own = self.own();
        let candidate = book.newest_permitted(own, self.candidate as usize, &column(&matrix, own));
        matrix[own] = *book.sent(own, candidate);
        let mut outbox = self.polls(&matrix);
        let ends = outbox.iter().all(Option::is_none);
        if ends {
            outbox = self.to_everybody(OTHER, |_| NO_PAIRS);
        }
        let sent = send(&outbox)?;
        self.candidate = candidate as u64;
        self.matrix = matrix;
        if ends {
            self.awaited = [false; PROCESSES];
            self.ended = true;
        } else {
            self.wait_for(&outbox);
        }
        Ok(sent)
    }

    fn message(&self, kind: u64, pairs: Row) -> Message {
        Message {
            kind,
            purpose: self.purpose,
            sender: self.me,
            pairs,
        }
    }

    /// A message of this kind for every participant, with the pairs for it.
    fn to_everybody(&self, kind: u64, pairs_for: impl Fn(usize) -> Row) -> Outbox {
        let mut outbox = NOTHING;
        for receiver in others(self.n as usize, self.own()) {
            outbox[receiver] = Some(self.message(kind, pairs_for(receiver)));
        }
        outbox
    }

    /// "It polls each participant whose column differs from the copy, with the differing entries
    /// only."
    fn polls(&self, matrix: &Matrix) -> Outbox {
        let mut differs = [false; PROCESSES];
        for (row, copied) in matrix.iter().zip(&self.copy) {
            (0..PROCESSES).for_each(|receiver| differs[receiver] |= row[receiver] != copied[receiver]);
        }
        let mut outbox = NOTHING;
        for receiver in others(self.n as usize, self.own()).filter(|&receiver| differs[receiver]) {
            let pairs = differing(&column(matrix, receiver), &column(&self.copy, receiver));
            outbox[receiver] = Some(self.message(OTHER, pairs));
        }
        outbox
    }

    /// Questions 13 to 17 and the step, on accepted tables and names.
    pub(crate) fn receive(&mut self, book: &Book, message: &[u8], out: &mut [u8]) -> Result<[u64; PROCESSES], u32> {
        if !self.fits(book) {
            return Err(13);
        }
        let message = Message::parse(message, book.n)?;
        self.admits(&message)?;
        self.step(book, &message, |outbox| write_in_turn(outbox, out))
    }
}

/// A process begins a search, or with purpose 2 a bare restart: writes its invitations and answers
/// its state and the length for each process. Questions 2, 4 to 11, 17.
pub fn initiator_begin(
    shape: &Shape,
    sent: &[Counter],
    received: &[Counter],
    me: u64,
    purpose: u64,
    out: &mut [u8],
) -> Result<(Initiator, [u64; PROCESSES]), u32> {
    let book = Book::accepted(shape, sent, received)?;
    process_question(book.n, me)?;
    purpose_question(purpose)?;
    let (state, invitations) = Initiator::begin(&book, me as usize - 1, purpose);
    let lengths = write_in_turn(&invitations, out)?;
    Ok((state, lengths))
}

/// The initiator receives a report: writes its polls or terminations, if any, and answers the
/// length for each process. Questions 2, 4 to 11, 13 to 17.
pub fn initiator_receive(
    state: &mut Initiator,
    shape: &Shape,
    sent: &[Counter],
    received: &[Counter],
    message: &[u8],
    out: &mut [u8],
) -> Result<[u64; PROCESSES], u32> {
    let book = Book::accepted(shape, sent, received)?;
    process_question(book.n, state.me)?;
    purpose_question(state.purpose)?;
    state.receive(&book, message, out)
}
