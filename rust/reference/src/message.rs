//! Messages: "kind, purpose, sender, count of pairs, then pairs (process, counter), rising by
//! process".

use crate::book::{Counter, Row, MARK, PROCESSES};
use crate::varint;

/// Kind 1.
pub(crate) const INVITATION: u64 = 1;
/// Kind 2: polls, terminations and reports.
pub(crate) const OTHER: u64 = 2;

/// The purpose that only restarts; 1 (advance) and 3 (both) search.
pub(crate) const RESTART_ONLY: u64 = 2;

/// The bytes of a message's four leading numbers, and of one pair at its longest.
const HEAD_BYTES: usize = 4;
const PAIR_BYTES: usize = 1 + varint::MOST_GROUPS;

/// The bytes of the longest message among n processes.
pub(crate) const fn longest(n: usize) -> usize {
    HEAD_BYTES + (n - 1) * PAIR_BYTES
}

/// No pair names anybody.
pub(crate) const NO_PAIRS: Row = [MARK; PROCESSES];

#[derive(Clone, Copy)]
pub(crate) struct Message {
    pub kind: u64,
    pub purpose: u64,
    /// From 1, as it is written.
    pub sender: u64,
    /// The counter of each process that a pair names; for the others the mark, which is "never a
    /// counter in a book or message".
    pub pairs: Row,
}

/// The messages of one step, by receiver.
pub(crate) type Outbox = [Option<Message>; PROCESSES];

/// Nothing is sent.
pub(crate) const NOTHING: Outbox = [None; PROCESSES];

/// The pairs that tell who holds a row of the entries that differ from it.
pub(crate) fn differing(entries: &Row, held: &Row) -> Row {
    std::array::from_fn(|process| match entries[process] {
        entry if entry == held[process] => MARK,
        entry => entry,
    })
}

/// Takes pairs in that have passed question 16: each counter is lower than the entry held.
pub(crate) fn take_in(held: &mut Row, pairs: &Row) {
    for (entry, &counter) in held.iter_mut().zip(pairs) {
        *entry = counter.min(*entry);
    }
}

impl Message {
    /// Question 14, but for the pairs that no message at this end of the strand may have
    /// (`Participant::admits`, `Initiator::admits`). Inside a message, a number that is not whole
    /// or not shortest is a message not "formed as above".
    pub fn parse(bytes: &[u8], n: usize) -> Result<Message, u32> {
        Self::parsed(bytes, n).filter(Message::is_formed).ok_or(14)
    }

    /// The fields, "purposes 1 to 3, processes 1 to n", pairs "rising by process", none with the
    /// mark, and "nothing follows the pairs".
    fn parsed(bytes: &[u8], n: usize) -> Option<Message> {
        let mut at = 0;
        let kind = u64::from(varint::read(bytes, &mut at)?);
        let purpose = u64::from(varint::read(bytes, &mut at)?);
        let sender = u64::from(varint::read(bytes, &mut at)?);
        let count = varint::read(bytes, &mut at)?;
        if !(1..=3).contains(&purpose) || !(1..=n as u64).contains(&sender) {
            return None;
        }
        let mut pairs = NO_PAIRS;
        let mut last = 0;
        for _ in 0..count {
            let process = varint::read(bytes, &mut at)? as usize;
            let counter = varint::read(bytes, &mut at)?;
            if process <= last || process > n || counter == MARK {
                return None;
            }
            pairs[process - 1] = counter;
            last = process;
        }
        let message = Message {
            kind,
            purpose,
            sender,
            pairs,
        };
        Some(message).filter(|_| at == bytes.len())
    }

    /// "A searching invitation has one pair, naming the sender; one of purpose 2 has none"; and
    /// "purpose 2 only in an invitation".
    fn is_formed(&self) -> bool {
        match (self.kind, self.purpose) {
            (INVITATION, RESTART_ONLY) => self.has_no_pairs(),
            (INVITATION, _) => self.count() == 1 && self.names(self.sender as usize - 1),
            (OTHER, purpose) => purpose != RESTART_ONLY,
            _ => false,
        }
    }

    /// Whether a pair names the process.
    pub fn names(&self, process: usize) -> bool {
        self.pairs[process] != MARK
    }

    /// The count of pairs.
    pub fn count(&self) -> usize {
        self.pairs.iter().filter(|&&counter| counter != MARK).count()
    }

    pub fn has_no_pairs(&self) -> bool {
        self.pairs == NO_PAIRS
    }

    /// Question 16: "Is each counter lower than the entry now held?"
    pub fn is_lower_than(&self, held: &Row) -> bool {
        let pairs = self.pairs.iter().zip(held);
        pairs.fold(true, |all, (&counter, &entry)| {
            all & (counter == MARK || counter < entry)
        })
    }

    /// The number of bytes of the message when written: its leading numbers and processes take one
    /// each.
    pub fn size(&self) -> usize {
        let counters = self.pairs.iter().filter(|&&counter| counter != MARK);
        HEAD_BYTES + counters.map(|&counter| 1 + varint::size(counter)).sum::<usize>()
    }

    /// Writes the message at the start of `out`, where the caller has seen that it fits.
    pub fn write(&self, out: &mut [u8]) {
        let head = [self.kind, self.purpose, self.sender, self.count() as u64];
        let mut at = 0;
        head.into_iter()
            .for_each(|field| varint::write(field as Counter, out, &mut at));
        for process in (0..PROCESSES).filter(|&process| self.names(process)) {
            varint::write(process as Counter + 1, out, &mut at);
            varint::write(self.pairs[process], out, &mut at);
        }
    }
}

/// How long the message for each process is, "0 for none".
pub(crate) fn lengths_of(outbox: &Outbox) -> [u64; PROCESSES] {
    let mut lengths = [0; PROCESSES];
    for (length, message) in lengths.iter_mut().zip(outbox) {
        *length = message.as_ref().map_or(0, |message| message.size() as u64);
    }
    lengths
}

/// "Messages sent in one step are written one after another, rising by receiver; the answer gives
/// the length for each process." Question 17.
pub(crate) fn write_in_turn(outbox: &Outbox, out: &mut [u8]) -> Result<[u64; PROCESSES], u32> {
    let lengths = lengths_of(outbox);
    if lengths.iter().sum::<u64>() > out.len() as u64 {
        return Err(17);
    }
    let mut at = 0;
    for (message, length) in outbox.iter().zip(lengths) {
        if let Some(message) = message {
            message.write(&mut out[at..]);
            at += length as usize;
        }
    }
    Ok(lengths)
}
