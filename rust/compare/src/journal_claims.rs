//! What is claimed of an accepted journal, counted over its events.

use crate::book::Book;
use crate::journals::{Event, Journal, CHECKPOINT, RECEIVED, SENT};
use crate::layout::{CHECKPOINTS, JOURNAL_BYTES, PROCESSES};
use std::collections::{BTreeMap, BTreeSet};
use std::fmt;

/// The book that a journal builds: each checkpoint has what its process sent and received in the events before it.
pub fn book_of_events(journal: &Journal) -> Book {
    let n = journal.n;
    let places = |j: u64| {
        let is_checkpoint = move |event: &Event| event.kind == CHECKPOINT && event.process == j;
        let places = journal.events.iter().enumerate();
        places.filter_map(move |(place, event)| is_checkpoint(event).then_some(place))
    };
    let counts: Vec<usize> = (1..=n).map(|j| 1 + places(j).count()).collect();
    let mut book = Book::of_zeros(&counts);
    for j in 1..=n {
        for (earlier, place) in places(j).enumerate() {
            let row = book.place(j as usize, earlier + 2, 1);
            for event in journal.events[..place].iter().filter(|event| event.process == j) {
                let column = row + event.partner.saturating_sub(1) as usize;
                match event.kind {
                    SENT => book.sent[column] += 1,
                    RECEIVED => book.received[column] += 1,
                    _ => {}
                }
            }
        }
    }
    book
}

/// A channel: how many messages were sent and received, and the numbers of those underway.
#[derive(Default)]
struct Channel {
    sent: usize,
    received: usize,
    underway: BTreeSet<usize>,
}

/// On each channel and after every event, messages sent equal those received plus those underway: "the k-th sending is underway
/// until the channel's k-th receipt". An event leaves every other channel as it was.
pub fn channels_hold(journal: &Journal) -> Result<(), String> {
    let mut channels: BTreeMap<(u64, u64), Channel> = BTreeMap::new();
    for (place, event) in journal.events.iter().enumerate() {
        let ends = match event.kind {
            SENT => (event.process, event.partner),
            RECEIVED => (event.partner, event.process),
            _ => continue,
        };
        let channel = channels.entry(ends).or_default();
        if event.kind == SENT {
            channel.sent += 1;
            channel.underway.insert(channel.sent);
        } else {
            channel.received += 1;
            channel.underway.remove(&channel.received);
        }
        let (sent, received, underway) = (channel.sent, channel.received, channel.underway.len());
        if sent != received + underway {
            return Err(format!(
                "after event {place}, channel {ends:?}: {sent} sent, {received} received, {underway} underway"
            ));
        }
    }
    Ok(())
}

/// What the accepted journals of a run had.
#[derive(Clone, Default)]
pub struct Met {
    journals: u64,
    events: u64,
    /// How many of each number of processes, of as many bytes and of as many checkpoints as may be.
    processes: [u64; PROCESSES],
    longest: u64,
    full: u64,
}

impl Met {
    pub fn add(&mut self, journal: &Journal, bytes: usize) {
        self.journals += 1;
        self.events += journal.events.len() as u64;
        self.processes[journal.n as usize - 1] += 1;
        self.longest += u64::from(bytes == JOURNAL_BYTES);
        self.full += u64::from(journal.checkpoints() == CHECKPOINTS);
    }

    pub fn merge(&mut self, other: &Met) {
        self.journals += other.journals;
        self.events += other.events;
        for (sum, count) in self.processes.iter_mut().zip(other.processes) {
            *sum += count;
        }
        self.longest += other.longest;
        self.full += other.full;
    }

    /// What no accepted journal had.
    pub fn missing(&self) -> Vec<String> {
        let numbers = self.processes.iter().enumerate().filter(|(_, &count)| count == 0);
        let mut missing: Vec<String> = numbers
            .map(|(place, _)| format!("a journal of {} processes", place + 1))
            .collect();
        if self.longest == 0 {
            missing.push(format!("a journal of {JOURNAL_BYTES} bytes"));
        }
        if self.full == 0 {
            missing.push(format!("a journal of {CHECKPOINTS} checkpoints"));
        }
        missing
    }
}

impl fmt::Display for Met {
    fn fmt(&self, f: &mut fmt::Formatter<'_>) -> fmt::Result {
        let Met {
            journals,
            events,
            longest,
            full,
            ..
        } = self;
        write!(
            f,
            "{journals} accepted, {longest} of {JOURNAL_BYTES} bytes, {full} of {CHECKPOINTS} checkpoints; \
             the channels' law on {events} prefixes"
        )
    }
}
