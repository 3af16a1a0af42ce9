//! Journals as data, and random valid ones.

use crate::book::{numbers_of, push_number};
use crate::layout::{CHECKPOINTS, JOURNAL_BYTES, PROCESSES};
use crate::random::Random;

/// Kinds of events.
pub const SENT: u64 = 1;
pub const RECEIVED: u64 = 2;
pub const CHECKPOINT: u64 = 3;

/// An event; the partner of a checkpoint is 0 and not written.
#[derive(Clone, Copy, PartialEq, Eq, Debug)]
pub struct Event {
    pub kind: u64,
    pub process: u64,
    pub partner: u64,
}

/// The number of processes, and the events in their order.
#[derive(Clone, PartialEq, Eq, Debug)]
pub struct Journal {
    pub n: u64,
    pub events: Vec<Event>,
}

impl Journal {
    /// The numbers of the journal.
    pub fn numbers(&self) -> Vec<u64> {
        let mut numbers = vec![self.n];
        for event in &self.events {
            numbers.extend([event.kind, event.process]);
            if event.kind != CHECKPOINT {
                numbers.push(event.partner);
            }
        }
        numbers
    }

    /// The journal's bytes.
    pub fn bytes(&self) -> Vec<u8> {
        let mut bytes = Vec::new();
        self.numbers()
            .into_iter()
            .for_each(|number| push_number(&mut bytes, number));
        bytes
    }

    /// The journal of accepted bytes.
    pub fn of_bytes(bytes: &[u8]) -> Self {
        let mut numbers = numbers_of(bytes).into_iter();
        let mut next = || numbers.next();
        let n = next().expect("accepted bytes begin with n");
        let mut events = Vec::new();
        while let (Some(kind), Some(process)) = (next(), next()) {
            let partner = if kind == CHECKPOINT { Some(0) } else { next() };
            let partner = partner.expect("accepted bytes end with an event");
            events.push(Event { kind, process, partner });
        }
        Journal { n, events }
    }

    /// How many checkpoints there are in all, the first of each process included.
    pub fn checkpoints(&self) -> usize {
        let saved = self.events.iter().filter(|event| event.kind == CHECKPOINT).count();
        self.n as usize + saved
    }
}

/// What a random journal has.
pub struct Plan {
    pub n: usize,
    /// How many events are messages sent or received, and how many are checkpoints.
    pub messages: usize,
    pub checkpoints: usize,
    /// To how many of the next processes each sends.
    pub reach: usize,
    /// A message that is underway is received once in so many times.
    pub hold: usize,
}

/// A random journal after a plan; checkpoints are spread over it.
pub fn planned(random: &mut Random, plan: &Plan) -> Journal {
    let (mut messages, mut checkpoints) = (plan.messages, plan.checkpoints);
    let mut underway = Vec::new();
    let mut events = Vec::with_capacity(messages + checkpoints);
    while messages + checkpoints > 0 {
        if random.below(messages + checkpoints) < checkpoints {
            checkpoints -= 1;
            events.push(checkpoint(random.between(1, plan.n)));
        } else {
            messages -= 1;
            events.push(message(random, plan, &mut underway));
        }
    }
    Journal {
        n: plan.n as u64,
        events,
    }
}

pub fn checkpoint(process: usize) -> Event {
    Event {
        kind: CHECKPOINT,
        process: process as u64,
        partner: 0,
    }
}

/// A message is received, if one is underway, or sent; `underway` has sender and receiver of each.
fn message(random: &mut Random, plan: &Plan, underway: &mut Vec<(u64, u64)>) -> Event {
    if !underway.is_empty() && random.once_in(plan.hold) {
        let (partner, process) = underway.swap_remove(random.below(underway.len()));
        return Event {
            kind: RECEIVED,
            process,
            partner,
        };
    }
    let sender = random.between(1, plan.n);
    let receiver = (sender - 1 + random.between(1, plan.reach)) % plan.n + 1;
    let (process, partner) = (sender as u64, receiver as u64);
    underway.push((process, partner));
    Event {
        kind: SENT,
        process,
        partner,
    }
}

/// A random valid journal, most often short.
pub fn any_journal(random: &mut Random) -> Journal {
    let any_number = random.between(1, PROCESSES);
    let n = random.one_of(&[1, 2, 2, 3, 4, 16, any_number, any_number]);
    let most = CHECKPOINTS - n;
    let some = random.between(0, 20);
    let checkpoints = random.one_of(&[0, 1, 3, some, some, most]).min(most);
    let messages = random.one_of(&[0, 2, 10, 10, 60, 60, 500]);
    let messages = if n == 1 { 0 } else { random.between(0, messages) };
    with_traffic(random, n, messages, checkpoints)
}

/// A journal as long as may be, or nearly, or of some thousand bytes.
pub fn long_journal(random: &mut Random) -> Journal {
    let n = random.between(2, PROCESSES);
    let most = CHECKPOINTS - n;
    let some = random.between(0, most);
    let checkpoints = random.one_of(&[0, 1, some, most, most]);
    // With a multiple of three, messages fill the journal to its last byte.
    let checkpoints = random.one_of(&[checkpoints, checkpoints - checkpoints % 3]);
    let longest = messages_in(JOURNAL_BYTES, checkpoints);
    let shorter = random.between(longest / 20, longest);
    let messages = random.one_of(&[shorter, longest, longest]);
    with_traffic(random, n, messages, checkpoints)
}

/// How many messages a journal of at most so many bytes has room for beside n and some checkpoints.
pub fn messages_in(bytes: usize, checkpoints: usize) -> usize {
    (bytes - 1 - 2 * checkpoints) / 3
}

/// A journal with few or many channels, on which little or much is underway.
fn with_traffic(random: &mut Random, n: usize, messages: usize, checkpoints: usize) -> Journal {
    let reach = random.between(1, n.max(2) - 1);
    let hold = random.one_of(&[1, 2, 2, 3, 8]);
    let plan = Plan {
        n,
        messages,
        checkpoints,
        reach: random.one_of(&[1, reach, n.max(2) - 1]),
        hold,
    };
    planned(random, &plan)
}
