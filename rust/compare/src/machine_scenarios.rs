//! Searches taken machine by machine, and machines in made-up states.

use crate::book::Book;
use crate::books::{any_book, small_book};
use crate::call::Call;
use crate::forged::{poll, report, searching_initiator, searching_participant};
use crate::layout::{initiator, message_bytes, participant, participants, strand_bytes, SET_WORDS};
use crate::lent::{Guarded, Lent};
use crate::random::Random;
use crate::runner::{Outcome, Runner};
use crate::scenarios::{lent_tables, one_participant};
use crate::tally::Kind;
use crate::variations::varied;

/// Deliveries after which a search is left.
const MOST_DELIVERIES: usize = 40;

/// The machines of one search, and the message that waits for or from each participant.
struct Machines {
    tables: Lent,
    n: usize,
    me: usize,
    initiator: Vec<u64>,
    participants: Vec<Vec<u64>>,
    /// For each process: whether the message goes to the initiator, and its bytes.
    waiting: Vec<Option<(bool, Vec<u8>)>>,
}

/// A search by separate machines, in any order of messages, with variations of each step.
pub fn search(runner: &mut Runner, random: &mut Random) -> Option<()> {
    let book = if random.once_in(2) {
        small_book(random)
    } else {
        any_book(random)
    };
    let n = book.n();
    let me = random.between(1, n);
    let purpose = random.one_of(&[1, 3, 1, 3, 2]);
    let mut machines = begin(runner, random, &book, me, purpose)?;
    for _ in 0..MOST_DELIVERIES {
        let waiting: Vec<usize> = (1..=n).filter(|&p| machines.waiting[p - 1].is_some()).collect();
        if waiting.is_empty() {
            break;
        }
        let p = random.one_of(&waiting);
        deliver(runner, random, &mut machines, p)?;
    }
    Some(())
}

/// Makes all first states.
fn begin(runner: &mut Runner, random: &mut Random, book: &Book, me: usize, purpose: u64) -> Option<Machines> {
    let n = book.n();
    let tables = lent_tables(book);
    let mut lent = tables.clone();
    lent.state = Guarded::fresh(initiator::WORDS);
    lent.result = Guarded::fresh(SET_WORDS);
    lent.out = Guarded::fresh(strand_bytes(n));
    lent.names = [me as u64, purpose, 0];
    let (kind, other) = varied(random, Call::InitiatorBegin, &lent);
    runner.case(kind, Call::InitiatorBegin, other)?;
    let begun = runner.case(Kind::RealMessage, Call::InitiatorBegin, lent)?;
    let mut machines = Machines {
        tables,
        n,
        me,
        initiator: begun.left.state.lent().to_vec(),
        participants: vec![Vec::new(); n],
        waiting: vec![None; n],
    };
    for p in participants(n, me) {
        let mut lent = machines.tables.clone();
        lent.state = Guarded::fresh(participant::WORDS);
        lent.names = [p as u64, me as u64, purpose];
        let first = runner.case(Kind::RealMessage, Call::ParticipantFirst, lent)?;
        machines.participants[p - 1] = first.left.state.lent().to_vec();
    }
    machines.send(&begun);
    Some(machines)
}

impl Machines {
    /// Takes what a step wrote apart, by the lengths that it gave.
    fn send(&mut self, outcome: &Outcome) {
        let mut at = 0;
        for p in 1..=self.n {
            let length = outcome.left.result.lent()[p - 1] as usize;
            if length > 0 {
                let bytes = outcome.left.out.lent()[at..at + length].to_vec();
                at += length;
                self.waiting[p - 1] = Some((false, bytes));
            }
        }
    }

    /// The case that delivers p's message.
    fn delivery(&self, p: usize) -> Option<(Call, Lent)> {
        let (upwards, bytes) = self.waiting[p - 1].as_ref()?;
        let mut lent = self.tables.clone();
        lent.bytes = Guarded::holding(bytes);
        lent.result = Guarded::fresh(SET_WORDS);
        if *upwards {
            lent.state = Guarded::holding(&self.initiator);
            lent.out = Guarded::fresh(strand_bytes(self.n));
            Some((Call::InitiatorReceive, lent))
        } else {
            lent.state = Guarded::holding(&self.participants[p - 1]);
            lent.out = Guarded::fresh(message_bytes(self.n));
            Some((Call::ParticipantReceive, lent))
        }
    }
}

/// Delivers p's message, after some variations of the same delivery.
fn deliver(runner: &mut Runner, random: &mut Random, machines: &mut Machines, p: usize) -> Option<()> {
    let (call, lent) = machines.delivery(p)?;
    for _ in 0..random.between(1, 5) {
        let (kind, other) = varied(random, call, &lent);
        runner.case(kind, call, other)?;
    }
    let outcome = runner.case(Kind::RealMessage, call, lent)?;
    runner.demand(outcome.answer == 0, "a message of a search is accepted", &outcome.left)?;
    machines.waiting[p - 1] = None;
    if call == Call::InitiatorReceive {
        machines.initiator = outcome.left.state.lent().to_vec();
        machines.send(&outcome);
    } else {
        machines.participants[p - 1] = outcome.left.state.lent().to_vec();
        let length = outcome.left.result.lent()[machines.me - 1] as usize;
        if length > 0 {
            machines.waiting[p - 1] = Some((true, outcome.left.out.lent()[..length].to_vec()));
        }
    }
    Some(())
}

/// Machines in made-up states that fit, each with a message that it takes, and variations.
pub fn forged(runner: &mut Runner, random: &mut Random) -> Option<()> {
    let book = any_book(random);
    let n = book.n();
    if n < 2 {
        return Some(());
    }
    for _ in 0..4 {
        let me = random.between(1, n);
        let purpose = random.one_of(&[1, 3]);
        let mut lent = lent_tables(&book);
        lent.result = Guarded::fresh(SET_WORDS);
        lent.out = Guarded::fresh(strand_bytes(n));
        let other = one_participant(random, n, me);
        let call = if random.once_in(2) {
            Call::InitiatorReceive
        } else {
            Call::ParticipantReceive
        };
        if call == Call::InitiatorReceive {
            let mut state = searching_initiator(random, &book, me, purpose, false);
            for p in participants(n, me).filter(|&p| p == other || random.once_in(3)) {
                state[initiator::AWAITED + p - 1] = 1;
            }
            lent.bytes = Guarded::holding(&report(random, &state, other).bytes());
            lent.state = Guarded::holding(&state);
        } else {
            let state = searching_participant(random, &book, me, other, purpose);
            lent.bytes = Guarded::holding(&poll(random, &state).bytes());
            lent.state = Guarded::holding(&state);
        }
        runner.case(Kind::ForgedMachine, call, lent.clone())?;
        for _ in 0..random.between(1, 3) {
            let (kind, other) = varied(random, call, &lent);
            runner.case(kind, call, other)?;
        }
    }
    Some(())
}
