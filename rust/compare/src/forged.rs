//! States that no search may ever reach and that fit the tables all the same: they show that a step is laid down for
//! every state that question 13 passes.

use crate::book::Book;
use crate::layout::{
    initiator, message_bytes, participant, participants, put, session, slot_start, strand_bytes, LARGEST, NOT_KNOWN,
    PROCESSES, TALLY_LIMIT,
};
use crate::messages::{falling_pairs, Message, INVITATION, OTHER};
use crate::random::Random;

/// The newest checkpoint of j whose received counters are at most those of a column; the oldest, which received
/// nothing, always is.
fn newest_permitted(book: &Book, j: usize, column: &[u64]) -> usize {
    let permitted = |&r: &usize| participants(book.n(), j).all(|p| book.received_at(j, r, p) <= column[p - 1]);
    (1..=book.count(j)).rev().find(permitted).unwrap_or(1)
}

/// A counter near those that process j has received from or sent to p, or "not known".
fn near_counter(random: &mut Random, book: &Book, j: usize, p: usize) -> u64 {
    let r = random.between(1, book.count(j));
    match random.below(6) {
        0 | 1 => NOT_KNOWN,
        2 => book.received_at(j, r, p),
        3 => book.received_at(j, r, p).saturating_sub(1),
        4 => book.sent_at(j, r, p),
        _ => random.number() % NOT_KNOWN,
    }
}

/// A participant in the midst of a search, with any column.
pub fn searching_participant(random: &mut Random, book: &Book, me: usize, initiator: usize, purpose: u64) -> Vec<u64> {
    let n = book.n();
    let mut words = vec![0; participant::WORDS];
    for p in participants(n, me) {
        words[participant::COLUMN + p - 1] = near_counter(random, book, me, p);
    }
    let candidate = newest_permitted(book, me, &words[participant::COLUMN..]);
    for p in participants(n, me) {
        words[participant::ROW + p - 1] = book.sent_at(me, candidate, p);
    }
    let head = [
        (participant::N, n as u64),
        (participant::PROCESS, me as u64),
        (participant::INITIATOR, initiator as u64),
        (participant::PURPOSE, purpose),
        (participant::STAGE, participant::SEARCHING),
        (participant::CANDIDATE, candidate as u64),
    ];
    put(&mut words, &head);
    words
}

/// A participant that knows nothing: before its invitation, or ended by purpose 2.
fn knowing_nothing(book: &Book, me: usize, initiator: usize, purpose: u64, stage: u64) -> Vec<u64> {
    let mut words = vec![0; participant::WORDS];
    let candidate = if stage == participant::ENDED {
        1
    } else {
        book.count(me) as u64
    };
    let head = [
        (participant::N, book.n() as u64),
        (participant::PROCESS, me as u64),
        (participant::INITIATOR, initiator as u64),
        (participant::PURPOSE, purpose),
        (participant::STAGE, stage),
        (participant::CANDIDATE, candidate),
    ];
    put(&mut words, &head);
    for p in participants(book.n(), me) {
        words[participant::ROW + p - 1] = NOT_KNOWN;
        words[participant::COLUMN + p - 1] = NOT_KNOWN;
    }
    words
}

/// An initiator with any copy, a matrix at most that, and any candidate that goes with them; purpose 1 or 3.
pub fn searching_initiator(random: &mut Random, book: &Book, me: usize, purpose: u64, ended: bool) -> Vec<u64> {
    let n = book.n();
    let mut words = vec![0; initiator::WORDS];
    for j in participants(n, me) {
        let silent = random.once_in(3);
        for p in participants(n, j) {
            let entry = (j - 1) * PROCESSES + p - 1;
            let copy = if silent {
                NOT_KNOWN
            } else {
                near_counter(random, book, j, p)
            };
            words[initiator::COPY + entry] = copy;
            let lower = if random.once_in(3) {
                near_counter(random, book, j, p)
            } else {
                copy
            };
            words[initiator::MATRIX + entry] = lower.min(copy);
        }
    }
    let known = if ended { initiator::MATRIX } else { initiator::COPY };
    let column: Vec<u64> = (0..PROCESSES).map(|j| words[known + j * PROCESSES + me - 1]).collect();
    let candidate = newest_permitted(book, me, &column);
    for p in participants(n, me) {
        let entry = (me - 1) * PROCESSES + p - 1;
        let sent = book.sent_at(me, candidate, p);
        words[initiator::MATRIX + entry] = sent;
        words[initiator::COPY + entry] = sent.max(near_counter(random, book, me, p));
    }
    let rounds = random.one_of(&[0, 1, 2, TALLY_LIMIT - 1]);
    let head = [
        (initiator::N, n as u64),
        (initiator::PROCESS, me as u64),
        (initiator::PURPOSE, purpose),
        (initiator::ENDED, u64::from(ended)),
        (initiator::CANDIDATE, candidate as u64),
        (initiator::ROUNDS, rounds),
    ];
    put(&mut words, &head);
    words
}

/// The matrix row of sender j in an initiator's words, with the processes that a message of j may name.
fn row_of(words: &[u64], n: usize, j: usize) -> Vec<(usize, u64)> {
    let row = initiator::MATRIX + (j - 1) * PROCESSES;
    participants(n, j).map(|p| (p, words[row + p - 1])).collect()
}

/// A report of participant j that this initiator would take.
pub fn report(random: &mut Random, words: &[u64], j: usize) -> Message {
    let n = words[initiator::N] as usize;
    let row = row_of(words, n, j);
    let first = row.iter().all(|&(_, counter)| counter == NOT_KNOWN);
    let rare = if first { 1 } else { random.one_of(&[1, 2, 4]) };
    Message {
        kind: OTHER,
        purpose: words[initiator::PURPOSE],
        sender: j as u64,
        pairs: falling_pairs(random, &row, rare),
    }
}

/// A poll that this participant would take; without pairs it is a termination.
pub fn poll(random: &mut Random, words: &[u64]) -> Message {
    let (n, me) = (words[participant::N] as usize, words[participant::PROCESS] as usize);
    let column: Vec<(usize, u64)> = participants(n, me)
        .map(|p| (p, words[participant::COLUMN + p - 1]))
        .collect();
    let rare = random.one_of(&[1, 2, 4]);
    Message {
        kind: OTHER,
        purpose: words[participant::PURPOSE],
        sender: words[participant::INITIATOR],
        pairs: falling_pairs(random, &column, rare),
    }
}

/// An invitation to a search, or to a bare restart.
fn invitation(random: &mut Random, initiator: usize, purpose: u64) -> Message {
    let counter = random.one_of(&[0, 1, 127, 128, LARGEST]);
    let pairs = if purpose == 2 {
        Vec::new()
    } else {
        vec![(initiator as u64, counter)]
    };
    Message {
        kind: INVITATION,
        purpose,
        sender: initiator as u64,
        pairs,
    }
}

/// A session and its strands, made up so that every machine fits and every waiting message can be received.
pub struct ForgedSession {
    pub words: Vec<u64>,
    pub strands: Vec<u8>,
}

impl ForgedSession {
    /// A made-up session of a book with at least two processes.
    pub fn new(random: &mut Random, book: &Book, initiator: usize, purpose: u64) -> Self {
        let n = book.n();
        let mut forged = ForgedSession {
            words: vec![0; session::WORDS],
            strands: vec![0; strand_bytes(n)],
        };
        let head = [
            (session::N, n as u64),
            (session::INITIATOR, initiator as u64),
            (session::PURPOSE, purpose),
            (session::DELIVERED, random.one_of(&[0, 7, TALLY_LIMIT - 1])),
        ];
        put(&mut forged.words, &head);
        if purpose == 2 {
            forged.restart(random, book, initiator);
        } else {
            forged.search(random, book, initiator, purpose);
        }
        if random.once_in(4) {
            forged.spoil(random, n, initiator, purpose);
        }
        forged
    }

    /// Breaks one rule of how the machines and the strands go together.
    fn spoil(&mut self, random: &mut Random, n: usize, me: usize, purpose: u64) {
        let p = participants(n, me)
            .nth(random.below(n - 1))
            .expect("n - 1 participants");
        let silent = participants(n, me)
            .find(|q| self.words[session::WAITING + q - 1] == 0)
            .unwrap_or(p);
        match random.below(5) {
            0 => self.words[session::participant_at(silent) + participant::STAGE] = participant::ENDED,
            1 => self.put_message(
                silent,
                &Message {
                    kind: OTHER,
                    purpose,
                    sender: me as u64,
                    pairs: Vec::new(),
                },
            ),
            2 => self.machine()[initiator::AWAITED + p - 1] ^= 1,
            3 => self.words[session::WAITING + p - 1] = 0,
            _ => self.machine()[initiator::ENDED] ^= 1,
        }
    }

    fn machine(&mut self) -> &mut [u64] {
        &mut self.words[session::MACHINE..session::PARTICIPANTS]
    }

    fn put_participant(&mut self, p: usize, words: &[u64]) {
        let at = session::participant_at(p);
        self.words[at..at + participant::WORDS].copy_from_slice(words);
    }

    /// Lets a message wait on the strand of p.
    fn put_message(&mut self, p: usize, message: &Message) {
        let bytes = message.bytes();
        let (n, initiator) = (self.words[session::N] as usize, self.words[session::INITIATOR] as usize);
        let at = slot_start(n, initiator, p);
        self.strands[at..at + bytes.len()].copy_from_slice(&bytes);
        self.words[session::WAITING + p - 1] = bytes.len() as u64;
        debug_assert!(bytes.len() <= message_bytes(n));
    }

    /// A bare restart some of whose invitations have arrived.
    fn restart(&mut self, random: &mut Random, book: &Book, me: usize) {
        let n = book.n();
        let head = [
            (initiator::N, n as u64),
            (initiator::PROCESS, me as u64),
            (initiator::PURPOSE, 2),
            (initiator::ENDED, 1),
            (initiator::CANDIDATE, 1),
            (initiator::ROUNDS, random.one_of(&[0, 0, 3])),
        ];
        put(self.machine(), &head);
        for j in 1..=n {
            for p in participants(n, j) {
                let entry = (j - 1) * PROCESSES + p - 1;
                self.machine()[initiator::MATRIX + entry] = NOT_KNOWN;
                self.machine()[initiator::COPY + entry] = NOT_KNOWN;
            }
        }
        for p in participants(n, me) {
            if random.once_in(2) {
                self.put_participant(p, &knowing_nothing(book, p, me, 2, participant::ENDED));
            } else {
                self.put_participant(p, &knowing_nothing(book, p, me, 2, participant::BEFORE_INVITATION));
                self.put_message(p, &invitation(random, me, 2));
            }
        }
    }

    /// A search with any states that go together.
    fn search(&mut self, random: &mut Random, book: &Book, me: usize, purpose: u64) {
        let n = book.n();
        let ended = random.once_in(4);
        let machine = searching_initiator(random, book, me, purpose, ended);
        self.machine().copy_from_slice(&machine);
        let somebody = participants(n, me)
            .nth(random.below(n - 1))
            .expect("n - 1 participants");
        for p in participants(n, me) {
            let awaited = if ended {
                random.once_in(8)
            } else {
                p == somebody || random.once_in(2)
            };
            if awaited {
                self.machine()[initiator::AWAITED + p - 1] = 1;
                self.put_awaited(random, book, me, p);
            } else {
                self.put_silent(random, book, me, p, ended);
            }
        }
    }

    /// A participant whose report is awaited: invited, polled, or with its report under way.
    fn put_awaited(&mut self, random: &mut Random, book: &Book, me: usize, p: usize) {
        let purpose = self.words[session::PURPOSE];
        let state = searching_participant(random, book, p, me, purpose);
        let poll = poll(random, &state);
        match random.below(3) {
            0 => {
                self.put_participant(
                    p,
                    &knowing_nothing(book, p, me, purpose, participant::BEFORE_INVITATION),
                );
                self.put_message(p, &invitation(random, me, purpose));
            }
            1 if !poll.pairs.is_empty() => {
                self.put_participant(p, &state);
                self.put_message(p, &poll);
            }
            _ => {
                self.put_participant(p, &state);
                let report = report(random, self.machine(), p);
                self.put_message(p, &report);
            }
        }
    }

    /// A participant that nobody awaits: it has reported, has a termination before it, or has ended.
    fn put_silent(&mut self, random: &mut Random, book: &Book, me: usize, p: usize, ended: bool) {
        let purpose = self.words[session::PURPOSE];
        let mut state = searching_participant(random, book, p, me, purpose);
        let choice = random.below(3);
        if ended && choice == 0 {
            state[participant::STAGE] = participant::ENDED;
        }
        self.put_participant(p, &state);
        if ended && choice == 1 {
            self.put_message(
                p,
                &Message {
                    kind: OTHER,
                    purpose,
                    sender: me as u64,
                    pairs: Vec::new(),
                },
            );
        }
    }
}
