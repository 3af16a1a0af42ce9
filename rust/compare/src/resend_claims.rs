//! What is claimed of a list of what to send again, and what the lists of a run had.

use crate::book::{numbers_of, Book};
use crate::layout::{ORDER_RESEND, PROCESSES, RESEND_BYTES};
use crate::lists::{channels, Entry, List};
use crate::move_claims::Step;
use std::fmt;

/// The list that an order has, of which all is as claimed: "with it repeated, every channel has received what was sent". What was
/// received is 1 to r; first to last then goes on to s; and without an entry r is s. No other word is there.
pub fn list_of(step: &Step, n: usize, order: &[u64]) -> Result<List, String> {
    let list = List::of_words(n as u64, &order[ORDER_RESEND..]);
    let mut entries = list.entries.iter().peekable();
    for (sender, receiver) in step.channels() {
        let (sent, received) = (step.sent(sender, receiver), step.off(sender, receiver));
        let is_its = |entry: &&Entry| (entry.sender, entry.receiver) == (sender as u64, receiver as u64);
        let holds = match entries.next_if(is_its) {
            Some(entry) => entry.first == received + 1 && entry.first <= entry.last && entry.last == sent,
            None => sent == received,
        };
        if !holds {
            return Err(format!(
                "from {sender} to {receiver} {sent} were sent and {received} received; the list is {list:?}"
            ));
        }
    }
    match entries.next() {
        Some(other) => Err(format!("there is no such channel: {other:?}")),
        None => Ok(list),
    }
}

/// "last - first + 1 is the moved book's oldest sent counter", 0 where there is no entry.
pub fn is_left_on_its_way(list: &List, moved: &Book) -> Result<(), String> {
    for (sender, receiver) in channels(moved.n()) {
        let is_its = |entry: &&Entry| (entry.sender, entry.receiver) == (sender as u64, receiver as u64);
        let again = list.entries.iter().find(is_its);
        let messages = again.map_or(0, |entry| entry.last - entry.first + 1);
        if moved.sent_at(sender, 1, receiver) != messages {
            return Err(format!(
                "from {sender} to {receiver} {} are on their way, and {messages} are sent again",
                moved.sent_at(sender, 1, receiver)
            ));
        }
    }
    Ok(())
}

/// Why question 21 refuses a list.
#[derive(Clone, Copy, PartialEq, Eq, Debug)]
pub enum Cause {
    Falls,
    Twice,
    Own,
    NoFirst,
    PastLast,
    LeftOver,
}

const CAUSES: [(Cause, &str); 6] = [
    (Cause::Falls, "a list that falls"),
    (Cause::Twice, "a list with a channel twice"),
    (Cause::Own, "a list with a process's channel to itself"),
    (Cause::NoFirst, "a list with a first message 0"),
    (Cause::PastLast, "a list with a first message past the last"),
    (Cause::LeftOver, "a list with bytes left over"),
];

/// The causes for which question 21 refuses a list: those of the first entry that has any, or what is left over.
pub fn causes(bytes: &[u8]) -> Vec<Cause> {
    let numbers = numbers_of(bytes);
    let Some((&count, rest)) = numbers.split_first() else {
        return Vec::new();
    };
    let mut before = (0, 0);
    for entry in rest.chunks_exact(4).take(count as usize) {
        let (channel, first, last) = ((entry[0], entry[1]), entry[2], entry[3]);
        let found = [
            (Cause::Falls, channel < before),
            (Cause::Twice, channel == before),
            (Cause::Own, channel.0 == channel.1),
            (Cause::NoFirst, first == 0),
            (Cause::PastLast, first > last),
        ];
        let found: Vec<Cause> = found.iter().filter(|(_, is)| *is).map(|(cause, _)| *cause).collect();
        if !found.is_empty() {
            return found;
        }
        before = channel;
    }
    vec![Cause::LeftOver]
}

/// What the lists of a run had.
#[derive(Clone, Default)]
pub struct Met {
    /// Lists of orders with an entry, by purpose; those without; and those of which something had been received already.
    orders: [u64; 3],
    empty: u64,
    received: u64,
    /// Lists that were read, damaged ones among them, and those that a book was made for and that were written again.
    read: u64,
    damaged: u64,
    again: u64,
    /// Lists of every channel, and of as many bytes as there may be.
    full: u64,
    longest: u64,
    /// Refused by 21 for one cause alone.
    causes: [u64; CAUSES.len()],
}

impl Met {
    pub fn add_order(&mut self, purpose: u64, list: &List) {
        if list.entries.is_empty() {
            self.empty += 1;
        } else {
            self.orders[purpose as usize - 1] += 1;
        }
        self.received += u64::from(list.entries.iter().any(|entry| entry.first > 1));
    }

    pub fn add_read(&mut self, damaged: bool, list: &List, bytes: usize) {
        self.read += 1;
        self.damaged += u64::from(damaged);
        self.full += u64::from(list.entries.len() == PROCESSES * (PROCESSES - 1));
        self.longest += u64::from(bytes == RESEND_BYTES);
    }

    pub fn add_again(&mut self) {
        self.again += 1;
    }

    pub fn add_refused(&mut self, bytes: &[u8]) {
        let found = causes(bytes);
        for (count, (cause, _)) in self.causes.iter_mut().zip(&CAUSES) {
            *count += u64::from(found == [*cause]);
        }
    }

    pub fn merge(&mut self, other: &Met) {
        for (sum, count) in self.orders.iter_mut().zip(other.orders) {
            *sum += count;
        }
        for (sum, count) in self.causes.iter_mut().zip(other.causes) {
            *sum += count;
        }
        self.empty += other.empty;
        self.received += other.received;
        self.read += other.read;
        self.damaged += other.damaged;
        self.again += other.again;
        self.full += other.full;
        self.longest += other.longest;
    }

    /// What no case had.
    pub fn missing(&self) -> Vec<String> {
        let counts = [
            (self.orders[0], "something to send again with purpose 1"),
            (self.orders[1], "something to send again with purpose 2"),
            (self.orders[2], "something to send again with purpose 3"),
            (self.empty, "an order with nothing to send again"),
            (self.received, "a list that begins past the first message"),
            (self.damaged, "a damaged list that is read"),
            (self.again, "a list that is read and written"),
            (self.full, "a list of every channel"),
            (self.longest, "a list of as many bytes as may be"),
        ];
        let causes = self
            .causes
            .iter()
            .zip(&CAUSES)
            .map(|(count, (_, what))| (*count, *what));
        let never = counts.into_iter().chain(causes).filter(|(count, _)| *count == 0);
        never.map(|(_, what)| what.to_string()).collect()
    }
}

impl fmt::Display for Met {
    fn fmt(&self, f: &mut fmt::Formatter<'_>) -> fmt::Result {
        let [advances, restarts, both] = self.orders;
        write!(
            f,
            "of orders {advances} with purpose 1, {restarts} with 2, {both} with 3, {} empty, {} past a first message; {} read, \
             {} of them damaged, {} of every channel, {} of {RESEND_BYTES} bytes, {} written again",
            self.empty, self.received, self.read, self.damaged, self.full, self.longest, self.again
        )
    }
}
