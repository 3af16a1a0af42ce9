//! Lists of what to send again, damaged entry by entry, number by number and as bytes, and lent with another n.

use crate::book::{push_long_number, push_number};
use crate::damaged_books::with_bytes_changed;
use crate::layout::{NOT_KNOWN, PROCESSES};
use crate::lists::{Entry, List};
use crate::random::Random;

/// A list with one damage, sometimes two: the n lent with it, and its bytes.
pub fn damaged(random: &mut Random, list: &List) -> (u64, Vec<u8>) {
    let bytes = match random.below(14) {
        0 => random_bytes(random),
        1 => Vec::new(),
        2 | 3 => with_long_number(random, list),
        4 | 5 => with_changed_number(random, list),
        6 | 7 => with_other_count(random, list),
        8 => with_more_bytes(random, list),
        _ => with_changed_entries(random, list.clone()).bytes(),
    };
    let bytes = if random.once_in(4) {
        with_bytes_changed(random, bytes)
    } else {
        bytes
    };
    let n = if random.once_in(6) {
        other_n(random, list.n)
    } else {
        list.n
    };
    (n, bytes)
}

/// Small numbers, so that some of it are entries.
fn random_bytes(random: &mut Random) -> Vec<u8> {
    let length = random.between(0, 30);
    let most = random.one_of(&[2, 3, 17, 255]);
    (0..length).map(|_| random.between(0, most) as u8).collect()
}

/// Another number of processes, or a number that none may be.
fn other_n(random: &mut Random, n: u64) -> u64 {
    let most = PROCESSES as u64;
    random.one_of(&[0, n - 1, n + 1, most, most + 1, (1 << 32) + n, u64::MAX])
}

/// One number in a form that is not its shortest, or with too many groups.
fn with_long_number(random: &mut Random, list: &List) -> Vec<u8> {
    let numbers = list.numbers();
    let chosen = random.below(numbers.len());
    let extra = random.between(1, 6);
    let mut bytes = Vec::new();
    for (place, &number) in numbers.iter().enumerate() {
        push_long_number(&mut bytes, number, if place == chosen { extra } else { 0 });
    }
    bytes
}

/// One number replaced by another.
fn with_changed_number(random: &mut Random, list: &List) -> Vec<u8> {
    let mut numbers = list.numbers();
    let chosen = random.below(numbers.len());
    let neighbour = numbers[chosen.saturating_sub(1)];
    let number = numbers[chosen];
    let near = [
        0,
        1,
        2,
        list.n,
        list.n + 1,
        neighbour,
        number + 1,
        number.saturating_sub(1),
    ];
    let far = [17, 127, 128, 256 + list.n, NOT_KNOWN, NOT_KNOWN + 1, 1 << 35];
    numbers[chosen] = if random.once_in(3) {
        random.one_of(&far)
    } else {
        random.one_of(&near)
    };
    in_bytes(&numbers)
}

/// A count of entries that is not theirs.
fn with_other_count(random: &mut Random, list: &List) -> Vec<u8> {
    let mut numbers = list.numbers();
    let count = numbers[0];
    let counts = [0, 1, count + 1, count.saturating_sub(1), 241, 256 + count, NOT_KNOWN];
    numbers[0] = random.one_of(&counts);
    in_bytes(&numbers)
}

/// Zeros or other bytes behind the list, or behind a count of 0 alone.
fn with_more_bytes(random: &mut Random, list: &List) -> Vec<u8> {
    let mut bytes = if random.once_in(2) { vec![0] } else { list.bytes() };
    let more = random.one_of(&[1, 2, 4, 100, 70_000]);
    bytes.resize(bytes.len() + more, random.one_of(&[0, 1, 128]));
    bytes
}

fn in_bytes(numbers: &[u64]) -> Vec<u8> {
    let mut bytes = Vec::new();
    numbers.iter().for_each(|&number| push_number(&mut bytes, number));
    bytes
}

/// Entries swapped, doubled, taken out or turned round, of a process with itself, or with other messages.
fn with_changed_entries(random: &mut Random, mut list: List) -> List {
    for _ in 0..random.one_of(&[1, 1, 1, 2]) {
        let place = match list.entries.len() {
            0 => return list,
            length => random.below(length),
        };
        match random.below(8) {
            0 => list.entries.swap(place, place.saturating_sub(1)),
            1 => list.entries.insert(place, list.entries[place]),
            2 => drop(list.entries.remove(place)),
            _ => change_entry(random, list.n, &mut list.entries[place]),
        }
    }
    list
}

fn change_entry(random: &mut Random, n: u64, entry: &mut Entry) {
    match random.below(7) {
        0 => std::mem::swap(&mut entry.sender, &mut entry.receiver),
        1 => entry.receiver = entry.sender,
        2 => entry.first = 0,
        3 => entry.first = entry.last + 1,
        4 => entry.last = entry.first - 1,
        5 => entry.sender = random.one_of(&[0, n + 1, n, 1]),
        _ => entry.receiver = random.one_of(&[0, n + 1, n, 1]),
    }
}
