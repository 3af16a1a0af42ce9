//! Operations to be measured, on the library through its C interface, and on the independent implementation through the
//! structs that a Rust program would use. Both get the same input and keep their buffers from call to call.

use crate::bench_inputs::{lent_for, sent_to_first, set_of, FIRST, INITIATOR, PURPOSE};
use crate::book::Book;
use crate::call::Call;
use crate::claims::waiting;
use crate::layout::{initiator, participant, session, slot_start, Counter, PROCESSES, SET_WORDS};
use crate::lent::{Guarded, Lent};
use crate::ours;
use reference::{Session, Shape};
use std::hint::black_box;

pub use crate::bench_inputs::Operation;

/// What the independent implementation works on.
struct Native {
    shape: Shape,
    sent: Vec<Counter>,
    received: Vec<Counter>,
    bytes: Vec<u8>,
    out: Vec<u8>,
    set: [u64; SET_WORDS],
    known: [Counter; PROCESSES],
    session: Option<Session>,
}

/// One operation, ready to be run on either side.
pub struct Bench {
    operation: Operation,
    lent: Lent,
    native: Native,
    /// What the next turn names, and what is put back before it.
    turn: u64,
    kept: Lent,
    kept_session: Option<Session>,
}

impl Bench {
    /// An operation on a book; a turn, or what a machine receives, is the one after so many others.
    pub fn new(operation: Operation, book: &Book, turns_before: usize) -> Self {
        let lent = lent_for(operation, book);
        let native = Native {
            shape: Shape {
                n: book.shape[0],
                counts: book.shape[1..].try_into().expect("sixteen counts"),
            },
            sent: book.sent.clone(),
            received: book.received.clone(),
            bytes: book.bytes(),
            out: vec![0; lent.out.lent().len()],
            set: set_of(operation, book),
            known: sent_to_first(book),
            session: None,
        };
        let mut bench = Bench {
            operation,
            kept: lent.clone(),
            lent,
            native,
            turn: 0,
            kept_session: None,
        };
        match operation {
            Operation::Turn => bench.prepare_turn(turns_before),
            Operation::ParticipantReceive => {
                bench.prepare_turn(turns_before);
                let at = session::participant_at(bench.turn as usize);
                bench.prepare_receive(at, participant::WORDS);
            }
            Operation::InitiatorReceive => {
                bench.prepare_turn(turns_before);
                bench.prepare_receive(session::MACHINE, initiator::WORDS);
            }
            _ => {}
        }
        bench
    }

    /// A read of a journal.
    pub fn of_journal(bytes: &[u8]) -> Self {
        let mut bench = Bench::new(Operation::Journal, &Book::of_zeros(&[1]), 0);
        bench.lent.bytes = Guarded::holding(bytes);
        bench.native.bytes = bytes.to_vec();
        bench
    }

    /// A read of the list of a book's order.
    pub fn of_list(book: &Book) -> Self {
        let mut writing = Bench::new(Operation::WriteResend, book, 0);
        writing.run_ours();
        let length = writing.lent.numbers[0] as usize;
        let bytes = &writing.lent.out.lent()[..length];
        let mut bench = Bench::new(Operation::ReadResend, book, 0);
        bench.lent.bytes = Guarded::holding(bytes);
        bench.native.bytes = bytes.to_vec();
        bench
    }

    /// Takes both sides to the same place of a search.
    fn prepare_turn(&mut self, turns_before: usize) {
        self.start_ours();
        self.start_theirs();
        for _ in 0..turns_before {
            let p = self.next_strand().expect("a search takes more turns");
            self.turn_ours(p);
            self.turn_theirs(p);
        }
        self.turn = self.next_strand().expect("a message waits");
        self.kept = self.lent.clone();
        self.kept_session = self.native.session.clone();
        self.native.out.copy_from_slice(self.lent.out.lent());
    }

    /// Takes the machine that the turn's message goes to, so many words from a place of the session, and the message.
    fn prepare_receive(&mut self, at: usize, words: usize) {
        let n = self.native.shape.n as usize;
        let p = self.turn as usize;
        let whole = self.lent.state.lent();
        let length = whole[session::WAITING + p - 1] as usize;
        let machine = whole[at..at + words].to_vec();
        let start = slot_start(n, INITIATOR as usize, p);
        let message = self.lent.out.lent()[start..start + length].to_vec();
        self.lent.state = Guarded::holding(&machine);
        self.lent.bytes = Guarded::holding(&message);
        self.kept = self.lent.clone();
        self.native.bytes = message;
    }

    /// The lowest waiting strand of the library's session.
    fn next_strand(&self) -> Option<u64> {
        waiting(self.lent.state.lent()).first().map(|&p| p as u64)
    }

    /// Puts back what the operation changes and the next run needs as it was; not measured.
    pub fn restore(&mut self) {
        match self.operation {
            Operation::Turn | Operation::ParticipantReceive | Operation::InitiatorReceive => {
                self.lent.state.lent_mut().copy_from_slice(self.kept.state.lent());
                self.lent.out.lent_mut().copy_from_slice(self.kept.out.lent());
                self.native.session.clone_from(&self.kept_session);
                self.native.out.copy_from_slice(self.kept.out.lent());
            }
            Operation::Move | Operation::Advance => {
                self.lent.shape.lent_mut().copy_from_slice(self.kept.shape.lent());
                self.lent.sent.lent_mut().copy_from_slice(self.kept.sent.lent());
                self.lent.received.lent_mut().copy_from_slice(self.kept.received.lent());
                self.native.shape.counts.copy_from_slice(&self.kept.shape.lent()[1..]);
                self.native.sent.copy_from_slice(self.kept.sent.lent());
                self.native.received.copy_from_slice(self.kept.received.lent());
            }
            _ => {}
        }
    }

    /// Runs the operation on the library.
    pub fn run_ours(&mut self) {
        let call = match self.operation {
            Operation::Read => Call::Read,
            Operation::Journal => Call::Journal,
            Operation::Check => Call::Check,
            Operation::Write => Call::Write,
            Operation::TestSet | Operation::TestNewest => Call::TestSet,
            Operation::TestCheckpoint => Call::TestCheckpoint,
            Operation::Find => Call::Find,
            Operation::Search => Call::Search,
            Operation::Move | Operation::Advance => Call::Move,
            Operation::RestartOrder => Call::RestartOrder,
            Operation::WriteResend => Call::WriteResend,
            Operation::ReadResend => Call::ReadResend,
            Operation::ParticipantReceive => Call::ParticipantReceive,
            Operation::InitiatorReceive => Call::InitiatorReceive,
            Operation::Turn => return self.turn_ours(self.turn),
            Operation::Session => {
                self.start_ours();
                while let Some(p) = self.next_strand() {
                    self.turn_ours(p);
                }
                return;
            }
        };
        self.accept(call);
    }

    fn accept(&mut self, call: Call) {
        let answer = black_box(ours::run(call, black_box(&mut self.lent)));
        assert_eq!(answer, 0, "a measured call is accepted");
    }

    fn start_ours(&mut self) {
        self.lent.names = [INITIATOR, PURPOSE, 0];
        self.accept(Call::SessionStart);
    }

    fn turn_ours(&mut self, p: u64) {
        self.lent.names = [p, 0, 0];
        self.accept(Call::SessionTurn);
    }

    /// Runs the operation on the independent implementation.
    pub fn run_theirs(&mut self) {
        let Native {
            shape,
            sent,
            received,
            bytes,
            out,
            set,
            known,
            ..
        } = black_box(&mut self.native);
        let accepted = match self.operation {
            Operation::Read => black_box(reference::read(bytes, sent, received)).is_ok(),
            Operation::Journal => black_box(reference::read_journal(bytes, sent, received)).is_ok(),
            Operation::Check => black_box(reference::check(shape, sent, received)).is_ok(),
            Operation::Write => black_box(reference::write(shape, sent, received, out)).is_ok(),
            Operation::TestSet | Operation::TestNewest => {
                black_box(reference::test_set(shape, sent, received, set)).is_ok()
            }
            Operation::TestCheckpoint => {
                let newest = shape.counts[0];
                black_box(reference::test_checkpoint(shape, sent, received, FIRST, newest, known)).is_ok()
            }
            Operation::Find => black_box(reference::find_line(shape, sent, received)).is_ok(),
            Operation::Search => black_box(reference::search(shape, sent, received, INITIATOR, PURPOSE)).is_ok(),
            Operation::Move | Operation::Advance => {
                black_box(reference::move_line(shape, sent, received, self.operation.purpose())).is_ok()
            }
            Operation::RestartOrder => black_box(reference::restart_order(shape, sent, received, PURPOSE)).is_ok(),
            Operation::WriteResend => black_box(reference::write_resend(shape, sent, received, PURPOSE, out)).is_ok(),
            Operation::ReadResend => black_box(reference::read_resend(shape.n, bytes)).is_ok(),
            Operation::Turn => return self.turn_theirs(self.turn),
            Operation::ParticipantReceive | Operation::InitiatorReceive => return self.receive_theirs(),
            Operation::Session => return self.session_theirs(),
        };
        assert!(accepted, "a measured call is accepted");
    }

    fn receive_theirs(&mut self) {
        let Native {
            shape,
            sent,
            received,
            bytes,
            out,
            session,
            ..
        } = black_box(&mut self.native);
        let session = started(session);
        let accepted = if self.operation == Operation::ParticipantReceive {
            let state = &mut session.participants[self.turn as usize - 1];
            black_box(reference::participant_receive(state, shape, sent, received, bytes, out)).is_ok()
        } else {
            let state = &mut session.machine;
            black_box(reference::initiator_receive(state, shape, sent, received, bytes, out)).is_ok()
        };
        assert!(accepted, "a measured message is accepted");
    }

    fn start_theirs(&mut self) {
        let Native {
            shape,
            sent,
            received,
            out,
            session,
            ..
        } = black_box(&mut self.native);
        let begun = reference::session_start(shape, sent, received, INITIATOR, PURPOSE, out);
        *session = Some(begun.expect("a measured start is accepted"));
    }

    fn turn_theirs(&mut self, p: u64) {
        let Native {
            shape,
            sent,
            received,
            out,
            session,
            ..
        } = black_box(&mut self.native);
        let turn = black_box(reference::session_turn(started(session), shape, sent, received, p, out));
        turn.expect("a measured turn is accepted");
    }

    fn session_theirs(&mut self) {
        self.start_theirs();
        let lowest = |native: &Native| {
            let lengths = native
                .session
                .as_ref()
                .map(|session| session.lengths)
                .unwrap_or_default();
            lengths.iter().position(|&length| length > 0)
        };
        while let Some(place) = lowest(&self.native) {
            self.turn_theirs(place as u64 + 1);
        }
    }

    /// After a session: how many messages were delivered.
    pub fn delivered(&self) -> u64 {
        self.lent.state.lent()[session::DELIVERED]
    }
}

/// The session that a turn, or a machine of it, goes on with.
fn started(session: &mut Option<Session>) -> &mut Session {
    session.as_mut().expect("a session was started")
}
