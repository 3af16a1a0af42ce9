//! Lists of what to send again, as data.

use crate::book::{push_number, Book, Table};
use crate::layout::{participants, Counter, LARGEST, NOT_KNOWN, PROCESSES, RESEND_LAST, RESEND_WORDS};
use crate::random::Random;

/// A sender sends a receiver the messages from the first to the last again.
#[derive(Clone, Copy, PartialEq, Eq, Debug)]
pub struct Entry {
    pub sender: u64,
    pub receiver: u64,
    pub first: u64,
    pub last: u64,
}

impl Entry {
    pub fn numbers(&self) -> [u64; 4] {
        [self.sender, self.receiver, self.first, self.last]
    }
}

/// A list among n processes; a damaged one may have any numbers.
#[derive(Clone, PartialEq, Eq, Debug)]
pub struct List {
    pub n: u64,
    pub entries: Vec<Entry>,
}

impl List {
    /// The list that words hold: an entry of each channel that has a word other than 0.
    pub fn of_words(n: u64, words: &[u64]) -> Self {
        let (first, last) = words.split_at(RESEND_LAST);
        let entry = |channel: usize| Entry {
            sender: (channel / PROCESSES) as u64 + 1,
            receiver: (channel % PROCESSES) as u64 + 1,
            first: first[channel],
            last: last[channel],
        };
        let has_entry = |&channel: &usize| first[channel] != 0 || last[channel] != 0;
        List {
            n,
            entries: (0..RESEND_LAST).filter(has_entry).map(entry).collect(),
        }
    }

    /// The words of a list that is none of the damaged ones.
    pub fn words(&self) -> Vec<u64> {
        let mut words = vec![0; RESEND_WORDS];
        for entry in &self.entries {
            let channel = (entry.sender as usize - 1) * PROCESSES + entry.receiver as usize - 1;
            words[channel] = entry.first;
            words[RESEND_LAST + channel] = entry.last;
        }
        words
    }

    /// "Seven-bit numbers after a leading count".
    pub fn numbers(&self) -> Vec<u64> {
        let count = self.entries.len() as u64;
        let entries = self.entries.iter().flat_map(Entry::numbers);
        std::iter::once(count).chain(entries).collect()
    }

    pub fn bytes(&self) -> Vec<u8> {
        let mut bytes = Vec::new();
        self.numbers()
            .iter()
            .for_each(|&number| push_number(&mut bytes, number));
        bytes
    }

    /// The same messages, counted from 1.
    pub fn from_one(&self) -> Self {
        let counted = |entry: &Entry| Entry {
            first: 1,
            last: entry.last - entry.first + 1,
            ..*entry
        };
        List {
            n: self.n,
            entries: self.entries.iter().map(counted).collect(),
        }
    }

    /// A book with two checkpoints each, whose newest are the line and have just these messages on their way; on the other
    /// channels they have received what was sent. None where a message's number is no counter.
    pub fn book(&self, random: &mut Random) -> Option<Book> {
        if self.entries.iter().any(|entry| entry.last > LARGEST) {
            return None;
        }
        let n = self.n as usize;
        let mut book = Book::of_zeros(&vec![2; n]);
        for j in 1..=n {
            for p in participants(n, j) {
                let all = random.one_of(&[0, 0, 1, 300, LARGEST]) as Counter;
                put_channel(&mut book, j, p, (all, all));
            }
        }
        for entry in &self.entries {
            let counters = (entry.last as Counter, entry.first as Counter - 1);
            put_channel(&mut book, entry.sender as usize, entry.receiver as usize, counters);
        }
        Some(book)
    }
}

/// What the newest checkpoints of a channel's ends have sent and received.
fn put_channel(book: &mut Book, sender: usize, receiver: usize, (sent, received): (Counter, Counter)) {
    *book.entry_mut(Table::Sent, sender, 2, receiver) = sent;
    *book.entry_mut(Table::Received, receiver, 2, sender) = received;
}

/// Numbers of messages at the borders between lengths, and the largest.
const BORDERS: [u64; 12] = [
    1,
    2,
    127,
    128,
    16_383,
    16_384,
    2_097_152,
    268_435_455,
    268_435_456,
    2_147_483_648,
    LARGEST,
    NOT_KNOWN,
];

/// A list of some of the channels of n processes, or of all; most have no message with a number that no counter has.
pub fn any_list(random: &mut Random) -> List {
    let n = random.one_of(&[1, 2, 2, 3, 3, 4, 8, 15, 16, 16]);
    let rare = random.one_of(&[1, 1, 2, 8, 40]);
    let most = random.one_of(&[LARGEST, LARGEST, LARGEST, NOT_KNOWN]);
    let channels = channels(n).filter(|_| random.once_in(rare)).collect::<Vec<_>>();
    let mut entry = |(sender, receiver): (usize, usize)| {
        let first = random.one_of(&BORDERS).min(most);
        let more = random.one_of(&[0, 0, 1, 200, 1 << 31]);
        Entry {
            sender: sender as u64,
            receiver: receiver as u64,
            first,
            last: (first + more).min(most),
        }
    };
    List {
        n: n as u64,
        entries: channels.into_iter().map(&mut entry).collect(),
    }
}

/// Every channel of sixteen processes, all messages with numbers of five bytes.
pub fn longest_list(random: &mut Random) -> List {
    let five_bytes = |random: &mut Random, least: u64| random.between(least as usize, LARGEST as usize) as u64;
    let entries = channels(PROCESSES).map(|(sender, receiver)| {
        let first = five_bytes(random, 1 << 28);
        Entry {
            sender: sender as u64,
            receiver: receiver as u64,
            first,
            last: five_bytes(random, first),
        }
    });
    List {
        n: PROCESSES as u64,
        entries: entries.collect(),
    }
}

/// The channels of n processes, rising by sender, then receiver.
pub fn channels(n: usize) -> impl Iterator<Item = (usize, usize)> {
    (1..=n).flat_map(move |sender| participants(n, sender).map(move |receiver| (sender, receiver)))
}
