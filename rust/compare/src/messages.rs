//! Messages as data, real ones damaged field by field, and made-up ones that a state would take.

use crate::book::{numbers_of, push_long_number, push_number};
use crate::damaged_books::with_bytes_changed;
use crate::layout::{LARGEST, NOT_KNOWN};
use crate::random::Random;

pub const INVITATION: u64 = 1;
pub const OTHER: u64 = 2;

/// A message's fields; the count of pairs is that of the pairs, but for a damage.
#[derive(Clone)]
pub struct Message {
    pub kind: u64,
    pub purpose: u64,
    pub sender: u64,
    pub pairs: Vec<(u64, u64)>,
}

impl Message {
    /// The message's bytes.
    pub fn bytes(&self) -> Vec<u8> {
        let mut bytes = Vec::new();
        for number in self.numbers() {
            push_number(&mut bytes, number);
        }
        bytes
    }

    /// The message's numbers in their order.
    fn numbers(&self) -> Vec<u64> {
        let mut numbers = vec![self.kind, self.purpose, self.sender, self.pairs.len() as u64];
        for &(process, counter) in &self.pairs {
            numbers.extend([process, counter]);
        }
        numbers
    }

    /// The message of some bytes, if they have a whole head.
    fn of_bytes(bytes: &[u8]) -> Option<Self> {
        let numbers = numbers_of(bytes);
        let [kind, purpose, sender, _, pairs @ ..] = &numbers[..] else {
            return None;
        };
        let pairs = pairs.chunks_exact(2).map(|pair| (pair[0], pair[1])).collect();
        Some(Message {
            kind: *kind,
            purpose: *purpose,
            sender: *sender,
            pairs,
        })
    }
}

/// A message damaged in its bytes or in its fields; `held` are counters that the receiver may hold.
pub fn damaged(random: &mut Random, n: usize, bytes: &[u8], held: &[u64]) -> Vec<u8> {
    if random.once_in(4) {
        return with_bytes_changed(random, bytes.to_vec());
    }
    let Some(mut message) = Message::of_bytes(bytes) else {
        return vec![random.below(256) as u8; random.below(9)];
    };
    let both = random.once_in(4);
    let head = random.once_in(3);
    if both || head {
        change_head(random, n, &mut message);
    }
    if both || !head {
        change_pairs(random, n, &mut message, held);
    }
    if random.once_in(8) {
        with_one_number_changed(random, &message)
    } else {
        message.bytes()
    }
}

fn change_head(random: &mut Random, n: usize, message: &mut Message) {
    match random.below(4) {
        0 => message.kind = random.one_of(&[0, 1, 2, 3, 128]),
        1 => message.purpose = random.one_of(&[0, 1, 2, 3, 4, 256]),
        2 => message.sender = random.between(0, n + 1) as u64,
        _ => {
            message.kind = random.one_of(&[1, 2]);
            message.purpose = random.one_of(&[1, 2, 3]);
            if random.once_in(2) {
                message.pairs.clear();
            }
        }
    }
}

fn change_pairs(random: &mut Random, n: usize, message: &mut Message, held: &[u64]) {
    let pairs = &mut message.pairs;
    let process = random.between(0, n + 1) as u64;
    let counter = other_counter(random, held);
    let place = if pairs.is_empty() { 0 } else { random.below(pairs.len()) };
    match random.below(7) {
        0 if !pairs.is_empty() => drop(pairs.remove(place)),
        1 if !pairs.is_empty() => pairs[place].0 = process,
        2 | 3 if !pairs.is_empty() => pairs[place].1 = counter,
        4 if pairs.len() > 1 => pairs.swap(0, place),
        5 if !pairs.is_empty() => pairs.insert(place, pairs[place]),
        _ => {
            pairs.push((process, counter));
            if !random.once_in(4) {
                pairs.sort_unstable();
                pairs.dedup_by_key(|pair| pair.0);
            }
        }
    }
}

/// A counter: one that the receiver holds or close to it, none at all, or any.
fn other_counter(random: &mut Random, held: &[u64]) -> u64 {
    let near = if held.is_empty() { 1 } else { random.one_of(held) };
    match random.below(6) {
        0 => near,
        1 => near.saturating_sub(1),
        2 => near.wrapping_add(1) % (1 << 33),
        3 => NOT_KNOWN,
        4 => random.one_of(&[0, 1, LARGEST, 1 << 32, u64::MAX]),
        _ => random.number() % (1 << 32),
    }
}

/// One number of the message other than it was (also the count of pairs), or in a longer form.
fn with_one_number_changed(random: &mut Random, message: &Message) -> Vec<u8> {
    let numbers = message.numbers();
    let chosen = random.below(numbers.len());
    let mut bytes = Vec::new();
    for (place, &number) in numbers.iter().enumerate() {
        if place != chosen {
            push_number(&mut bytes, number);
        } else if random.once_in(2) {
            push_long_number(&mut bytes, number, random.between(1, 5));
        } else {
            push_number(
                &mut bytes,
                random.one_of(&[0, number + 1, number.saturating_sub(1), 17, 1 << 32]),
            );
        }
    }
    bytes
}

/// Pairs for the processes whose held counter may fall, each lower than what is held; each is named with chance one in
/// `rare`.
pub fn falling_pairs(random: &mut Random, held: &[(usize, u64)], rare: usize) -> Vec<(u64, u64)> {
    let mut pairs = Vec::new();
    for &(process, counter) in held {
        if counter > 0 && random.once_in(rare) {
            let lower = match random.below(3) {
                0 => counter - 1,
                1 => counter.min(1 << 16).saturating_sub(1),
                _ => random.number() % counter,
            };
            pairs.push((process as u64, lower.min(LARGEST)));
        }
    }
    pairs
}
