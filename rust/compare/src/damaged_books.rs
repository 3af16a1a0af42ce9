//! Books damaged as bytes.

use crate::book::{push_long_number, push_number, Book, Field};
use crate::layout::{BOOK_BYTES, NOT_KNOWN};
use crate::random::Random;

/// The bytes of a book with one damage, sometimes two.
pub fn damaged(random: &mut Random, book: &Book) -> Vec<u8> {
    let bytes = match random.below(8) {
        0 => Vec::new(),
        1 => random_bytes(random),
        2..=3 => with_long_number(random, book),
        _ => with_changed_number(random, book),
    };
    let bytes = if bytes.is_empty() && !random.once_in(8) {
        book.bytes()
    } else {
        bytes
    };
    if random.once_in(2) {
        with_bytes_changed(random, bytes)
    } else {
        bytes
    }
}

fn random_bytes(random: &mut Random) -> Vec<u8> {
    let length = random.between(0, 40);
    let most = random.one_of(&[2, 4, 17, 127, 255]);
    (0..length).map(|_| random.between(0, most) as u8).collect()
}

/// Flips a bit, cuts, extends, takes out or doubles a byte.
pub fn with_bytes_changed(random: &mut Random, mut bytes: Vec<u8>) -> Vec<u8> {
    let place = if bytes.is_empty() { 0 } else { random.below(bytes.len()) };
    match random.below(7) {
        0 | 1 if !bytes.is_empty() => bytes[place] ^= 1 << random.below(8),
        2 => bytes.truncate(place),
        3 => bytes.push(random.one_of(&[0, 0, 1, 128, 255])),
        4 => bytes.resize(BOOK_BYTES + random.below(3), random.one_of(&[0, 1, 128])),
        5 if !bytes.is_empty() => drop(bytes.remove(place)),
        _ => {
            let byte = bytes.get(place).copied().unwrap_or(0);
            bytes.insert(place, byte);
        }
    }
    bytes
}

/// One number in a form that is not its shortest, or with too many groups.
fn with_long_number(random: &mut Random, book: &Book) -> Vec<u8> {
    let fields = book.fields();
    let chosen = chosen_field(random, &fields);
    let extra = random.between(1, 6);
    let mut bytes = Vec::new();
    for (place, &(_, number)) in fields.iter().enumerate() {
        push_long_number(&mut bytes, number, if place == chosen { extra } else { 0 });
    }
    bytes
}

/// One number replaced by another.
fn with_changed_number(random: &mut Random, book: &Book) -> Vec<u8> {
    let fields = book.fields();
    let chosen = chosen_field(random, &fields);
    let mut bytes = Vec::new();
    for (place, &(field, number)) in fields.iter().enumerate() {
        let written = if place == chosen {
            other_number(random, field, number)
        } else {
            number
        };
        push_number(&mut bytes, written);
    }
    bytes
}

/// The place of a field: n and counts are few among the counters, and are chosen as often.
fn chosen_field(random: &mut Random, fields: &[(Field, u64)]) -> usize {
    let counters = random.once_in(2);
    let wanted = |field: &Field| matches!(field, Field::Counter(..)) == counters;
    let places: Vec<usize> = (0..fields.len()).filter(|&place| wanted(&fields[place].0)).collect();
    if places.is_empty() {
        random.below(fields.len())
    } else {
        random.one_of(&places)
    }
}

fn other_number(random: &mut Random, field: Field, number: u64) -> u64 {
    let beyond = [1 << 32, (1 << 32) + number, (1 << 35) - 1, 1 << 35, u64::MAX];
    match field {
        _ if random.once_in(5) => random.one_of(&beyond),
        Field::Processes => random.one_of(&[0, 17, 16, number + 1, number.wrapping_sub(1) % 256, 128, NOT_KNOWN]),
        Field::Count(_) => random.one_of(&[0, 255, 256, 257, number + 1, number.saturating_sub(1), 1000, NOT_KNOWN]),
        Field::Counter(..) => random.one_of(&[
            0,
            NOT_KNOWN,
            NOT_KNOWN - 1,
            number + 1,
            number.saturating_sub(1),
            number / 2,
        ]),
    }
}
