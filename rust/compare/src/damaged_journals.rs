//! Journals damaged event by event, number by number and as bytes.

use crate::book::{push_long_number, push_number};
use crate::damaged_books::with_bytes_changed;
use crate::journals::{checkpoint, Journal, CHECKPOINT, RECEIVED, SENT};
use crate::layout::{CHECKPOINTS, JOURNAL_LARGEST};
use crate::random::Random;

/// The bytes of a journal with one damage, sometimes two.
pub fn damaged(random: &mut Random, journal: &Journal) -> Vec<u8> {
    let bytes = match random.below(12) {
        0 => random_bytes(random),
        1 | 2 => with_long_number(random, journal),
        3..=5 => with_changed_number(random, journal),
        6..=8 => with_changed_events(random, journal.clone()).bytes(),
        9 => with_more_checkpoints(random, journal.clone()).bytes(),
        10 => with_other_n(random, journal.clone()).bytes(),
        _ => with_bytes_changed(random, journal.bytes()),
    };
    if random.once_in(3) {
        with_bytes_changed(random, bytes)
    } else {
        bytes
    }
}

/// Small numbers, so that some of it are events.
fn random_bytes(random: &mut Random) -> Vec<u8> {
    let length = random.between(0, 40);
    let most = random.one_of(&[2, 3, 4, 17, 255]);
    (0..length).map(|_| random.between(0, most) as u8).collect()
}

/// A place, the first and the last ones more often than others.
fn place(random: &mut Random, length: usize) -> usize {
    let any = random.below(length);
    random.one_of(&[any, any, any, any / 8, length - 1 - any / 8, length - 1])
}

/// One number in a form that is not its shortest, or with too many groups.
fn with_long_number(random: &mut Random, journal: &Journal) -> Vec<u8> {
    let numbers = journal.numbers();
    let chosen = place(random, numbers.len());
    let extra = random.between(1, 6);
    let mut bytes = Vec::new();
    for (place, &number) in numbers.iter().enumerate() {
        push_long_number(&mut bytes, number, if place == chosen { extra } else { 0 });
    }
    bytes
}

/// One number replaced by another.
fn with_changed_number(random: &mut Random, journal: &Journal) -> Vec<u8> {
    let mut numbers = journal.numbers();
    let chosen = place(random, numbers.len());
    let neighbour = numbers[chosen.saturating_sub(1)];
    let within = [0, 1, 2, 3, 4, journal.n, journal.n + 1, neighbour];
    let beyond = [17, 127, 128, JOURNAL_LARGEST, JOURNAL_LARGEST + 1, 1 << 35];
    numbers[chosen] = if random.once_in(3) {
        random.one_of(&beyond)
    } else {
        random.one_of(&within)
    };
    let mut bytes = Vec::new();
    numbers.iter().for_each(|&number| push_number(&mut bytes, number));
    bytes
}

/// Events swapped, taken out, doubled, the other way round or of the other kind.
fn with_changed_events(random: &mut Random, mut journal: Journal) -> Journal {
    let events = &mut journal.events;
    for _ in 0..random.one_of(&[1, 1, 2, 5]) {
        if events.is_empty() {
            return journal;
        }
        let place = place(random, events.len());
        let event = &mut events[place];
        match random.below(5) {
            0 => events.swap(place, place.saturating_sub(1)),
            1 => drop(events.remove(place)),
            2 => events.insert(place, events[place]),
            3 => std::mem::swap(&mut event.process, &mut event.partner),
            _ if event.kind != CHECKPOINT => event.kind = SENT + RECEIVED - event.kind,
            _ => {}
        }
    }
    journal
}

/// As many checkpoints as there may be, or one or two more.
fn with_more_checkpoints(random: &mut Random, mut journal: Journal) -> Journal {
    let n = journal.n as usize;
    let wanted = CHECKPOINTS + random.between(0, 2);
    for _ in journal.checkpoints()..wanted {
        let place = random.between(0, journal.events.len());
        journal.events.insert(place, checkpoint(random.between(1, n)));
    }
    journal
}

/// Another number of processes, most often fewer than the events name.
fn with_other_n(random: &mut Random, mut journal: Journal) -> Journal {
    let n = journal.n;
    journal.n = random.one_of(&[0, n - 1, n / 2, n + 1, 16, 17, 1 << 32]);
    journal
}
