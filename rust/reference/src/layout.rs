//! Values as 64-bit words, in the layouts of `include/recovery_line.h`.

use crate::book::{Counter, Shape, MARK, PROCESSES};
use crate::initiator::{Initiator, Matrix};
use crate::participant::{Participant, ENDED};
use crate::resend::Repeat;
use crate::restart::Order;
use crate::session::Session;

pub const SHAPE_WORDS: usize = 1 + PROCESSES;
pub const SET_WORDS: usize = PROCESSES;
pub const PAIR_WORDS: usize = 2;
pub const LENGTHS_WORDS: usize = PROCESSES;
pub const RESEND_WORDS: usize = 2 * PROCESSES * PROCESSES;
pub const ORDER_WORDS: usize = 3 * PROCESSES + RESEND_WORDS;
/// Before its row and column, or its flags and matrices, a state has this many words of one number each.
const PARTICIPANT_NUMBERS: usize = 6;
const INITIATOR_NUMBERS: usize = 6;
pub const PARTICIPANT_WORDS: usize = PARTICIPANT_NUMBERS + 2 * PROCESSES;
pub const INITIATOR_WORDS: usize = INITIATOR_NUMBERS + PROCESSES + 2 * PROCESSES * PROCESSES;
pub const SESSION_WORDS: usize = 3 + INITIATOR_WORDS + PROCESSES * PARTICIPANT_WORDS + PROCESSES + 1;

/// Reads a value's words one after another. A word that does not decode is noted for question 13,
/// and read as near as may be, since the names beside it are asked first (questions 10 and 11).
pub(crate) struct Decoder<'a> {
    words: std::slice::Iter<'a, u64>,
    decodes: bool,
}

impl<'a> Decoder<'a> {
    pub fn new(words: &'a [u64]) -> Self {
        Decoder {
            words: words.iter(),
            decodes: true,
        }
    }

    fn wide(&mut self) -> u64 {
        *self.words.next().expect("the length was asked first")
    }

    /// A counter or the mark, whose bits are all set; of a longer word as many of the lowest bits.
    fn counter(&mut self) -> Counter {
        let word = self.wide();
        self.decodes &= word <= u64::from(MARK);
        (word & u64::from(MARK)) as Counter
    }

    /// A count of rounds or deliveries, of 32 bits; of a longer word the lowest 32.
    fn tally(&mut self) -> u32 {
        let word = self.wide();
        self.decodes &= word <= u64::from(u32::MAX);
        word as u32
    }

    /// A number up to the largest; in place of a larger one the largest.
    fn up_to(&mut self, largest: u32) -> u32 {
        let word = self.wide();
        self.decodes &= word <= u64::from(largest);
        word.min(u64::from(largest)) as u32
    }

    fn flag(&mut self) -> bool {
        self.up_to(1) == 1
    }

    /// Question 13 of what was read so far: does it decode?
    pub fn question(&self) -> Result<(), u32> {
        if self.decodes {
            Ok(())
        } else {
            Err(13)
        }
    }

    pub fn shape(&mut self) -> Shape {
        Shape {
            n: self.wide(),
            counts: std::array::from_fn(|_| self.wide()),
        }
    }

    pub fn participant(&mut self) -> Participant {
        Participant {
            n: self.wide(),
            me: self.wide(),
            initiator: self.wide(),
            purpose: self.wide(),
            stage: self.up_to(ENDED),
            candidate: self.wide(),
            row: std::array::from_fn(|_| self.counter()),
            column: std::array::from_fn(|_| self.counter()),
        }
    }

    fn matrix(&mut self) -> Matrix {
        std::array::from_fn(|_| std::array::from_fn(|_| self.counter()))
    }

    pub fn initiator(&mut self) -> Initiator {
        Initiator {
            n: self.wide(),
            me: self.wide(),
            purpose: self.wide(),
            ended: self.flag(),
            candidate: self.wide(),
            rounds: self.tally(),
            awaited: std::array::from_fn(|_| self.flag()),
            matrix: self.matrix(),
            copy: self.matrix(),
        }
    }

    pub fn session(&mut self) -> Session {
        Session {
            n: self.wide(),
            initiator: self.wide(),
            purpose: self.wide(),
            machine: self.initiator(),
            participants: std::array::from_fn(|_| self.participant()),
            lengths: std::array::from_fn(|_| self.wide()),
            delivered: self.tally(),
        }
    }
}

pub(crate) fn shape_of(words: &[u64]) -> Shape {
    Decoder::new(words).shape()
}

/// Writes a value's words one after another.
pub(crate) struct Encoder<'a> {
    words: std::slice::IterMut<'a, u64>,
}

impl<'a> Encoder<'a> {
    pub fn new(words: &'a mut [u64]) -> Self {
        Encoder {
            words: words.iter_mut(),
        }
    }

    fn word(&mut self, word: u64) {
        *self.words.next().expect("the length was asked first") = word;
    }

    fn all<T: Copy + Into<u64>>(&mut self, words: &[T]) {
        words.iter().for_each(|&word| self.word(word.into()));
    }

    pub fn shape(&mut self, shape: &Shape) {
        self.word(shape.n);
        self.all(&shape.counts);
    }

    pub fn order(&mut self, order: &Order) {
        self.all(&order.from);
        self.all(&order.before);
        self.all(&order.after);
        self.resend(&order.resend);
    }

    /// The first messages of all channels, a row for each sender, then the last ones; 0 for none.
    pub fn resend(&mut self, list: &[Repeat]) {
        let mut matrices: [Matrix; 2] = Default::default();
        for entry in list {
            let (sender, receiver) = (entry.sender as usize - 1, entry.receiver as usize - 1);
            for (matrix, message) in matrices.iter_mut().zip([entry.first, entry.last]) {
                matrix[sender][receiver] = message;
            }
        }
        self.all(matrices.as_flattened().as_flattened());
    }

    pub fn participant(&mut self, state: &Participant) {
        self.all(&[state.n, state.me, state.initiator, state.purpose]);
        self.all(&[u64::from(state.stage), state.candidate]);
        self.all(&state.row);
        self.all(&state.column);
    }

    pub fn initiator(&mut self, state: &Initiator) {
        self.all(&[
            state.n,
            state.me,
            state.purpose,
            u64::from(state.ended),
            state.candidate,
        ]);
        self.word(u64::from(state.rounds));
        self.all(&state.awaited);
        self.all(state.matrix.as_flattened());
        self.all(state.copy.as_flattened());
    }

    pub fn session(&mut self, session: &Session) {
        self.all(&[session.n, session.initiator, session.purpose]);
        self.initiator(&session.machine);
        session.participants.iter().for_each(|state| self.participant(state));
        self.all(&session.lengths);
        self.word(u64::from(session.delivered));
    }
}

/// A participant's state in words.
pub fn participant_words(state: &Participant) -> [u64; PARTICIPANT_WORDS] {
    let mut words = [0; PARTICIPANT_WORDS];
    Encoder::new(&mut words).participant(state);
    words
}

/// An initiator's state in words.
pub fn initiator_words(state: &Initiator) -> [u64; INITIATOR_WORDS] {
    let mut words = [0; INITIATOR_WORDS];
    Encoder::new(&mut words).initiator(state);
    words
}

/// A session in words.
pub fn session_words(session: &Session) -> [u64; SESSION_WORDS] {
    let mut words = [0; SESSION_WORDS];
    Encoder::new(&mut words).session(session);
    words
}
