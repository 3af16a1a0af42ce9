//! Lists of what to send again: their words, their entries and their bytes.

use crate::tables::{Counters, Tables, NO_SHAPE, PROCESSES};
use crate::text::Answer;
use crate::{calls, IN_WORDS};
use recovery_line::{sys, Counter};

pub const WORDS: usize = sys::RECOVERY_LINE_RESEND_WORDS;
const LAST: usize = sys::RECOVERY_LINE_RESEND_LAST_AT;

/// The most bytes of a list.
pub const MOST_BYTES: usize = sys::RECOVERY_LINE_MOST_RESEND_BYTES;

/// What a sender sends a receiver again; processes count from 0 here.
#[derive(Clone, Copy, PartialEq)]
pub struct Entry {
    pub sender: usize,
    pub receiver: usize,
    pub first: u64,
    pub last: u64,
}

impl Entry {
    /// How many messages it has.
    pub fn messages(&self) -> u64 {
        self.last.saturating_sub(self.first).saturating_add(1)
    }
}

/// The entries that words hold, of every channel with a word other than 0.
pub fn entries(words: &[u64]) -> Vec<Entry> {
    let channels = (0..LAST).filter(|&channel| words[channel] != 0 || words[LAST + channel] != 0);
    let entry = |channel: usize| Entry {
        sender: channel / PROCESSES,
        receiver: channel % PROCESSES,
        first: words[channel],
        last: words[LAST + channel],
    };
    channels.map(entry).collect()
}

/// The same, counted from 1.
pub fn from_one(entries: &[Entry]) -> Vec<Entry> {
    let counted = |entry: &Entry| Entry {
        first: 1,
        last: entry.messages(),
        ..*entry
    };
    entries.iter().map(counted).collect()
}

/// ` SENDER:RECEIVER:FIRST:LAST` of each.
pub fn put(answer: &mut Answer, entries: &[Entry]) {
    for entry in entries {
        let (sender, receiver) = (entry.sender + 1, entry.receiver + 1);
        answer.put(format_args!(" {sender}:{receiver}:{}:{}", entry.first, entry.last));
    }
}

/// The bytes of a list with these entries.
pub fn bytes(entries: &[Entry]) -> Vec<u8> {
    let of_entry = |entry: &Entry| {
        [
            entry.sender as u64 + 1,
            entry.receiver as u64 + 1,
            entry.first,
            entry.last,
        ]
    };
    let mut bytes = Vec::new();
    push_number(&mut bytes, entries.len() as u64);
    let numbers = entries.iter().flat_map(of_entry);
    numbers.for_each(|number| push_number(&mut bytes, number));
    bytes
}

fn push_number(bytes: &mut Vec<u8>, number: u64) {
    let mut rest = number;
    while rest >= 128 {
        bytes.push((rest % 128) as u8 | 128);
        rest /= 128;
    }
    bytes.push(rest as u8);
}

/// What a read of a list answered, and the words that it was lent.
#[derive(PartialEq)]
pub struct Read {
    pub question: u32,
    pub words: Vec<u64>,
}

impl Read {
    pub fn of(n: u64, list: &[u8]) -> Read {
        Read::into(n, list, WORDS)
    }

    /// Into so many words.
    pub fn into(n: u64, list: &[u8], length: usize) -> Read {
        let mut words = vec![IN_WORDS; length];
        let question = calls::read_resend(n, list, &mut words);
        Read { question, words }
    }

    /// Is no word written?
    pub fn is_untouched(&self) -> bool {
        self.words.iter().all(|&word| word == IN_WORDS)
    }
}

/// Tables of n processes whose line has just these entries: the newest of two checkpoints each have sent up to the last message
/// of each, and received those before the first. Nothing where a message's number is no counter.
pub fn tables_with(n: u64, entries: &[Entry]) -> Option<Tables> {
    let mut tables = Tables {
        shape: NO_SHAPE,
        counters: Counters::filled(0, 0),
    };
    tables.shape[0] = n;
    tables.shape[1..=usize::try_from(n).ok()?].fill(2);
    for entry in entries {
        let newest = |process: usize| (2 * process + 1) * PROCESSES;
        let last = Counter::try_from(entry.last).ok()?;
        if last == sys::RECOVERY_LINE_NOT_KNOWN {
            return None;
        }
        tables.counters.sent[newest(entry.sender) + entry.receiver] = last;
        tables.counters.received[newest(entry.receiver) + entry.sender] =
            Counter::try_from(entry.first.checked_sub(1)?).ok()?;
    }
    Some(tables)
}
