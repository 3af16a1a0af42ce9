//! Tables damaged entry by entry, in their shapes and in their lengths.

use crate::call::Call;
use crate::layout::{Counter, CHECKPOINTS, NOT_KNOWN, PROCESSES, TABLE_ENTRIES};
use crate::lent::{Guarded, Lent, Pattern};
use crate::random::Random;

/// Numbers that no shape, name or checkpoint may be, or only some.
pub const ODD_NUMBERS: [u64; 8] = [0, 1, 16, 17, 257, (1 << 32) + 1, 1 << 63, u64::MAX];

/// Changes an entry of a table, or several, now and then in one row.
pub fn change_entries(random: &mut Random, lent: &mut Lent) {
    let Some(first) = entry_place(random, lent) else { return };
    let in_one_row = random.once_in(2);
    change_entry(random, lent, first);
    for _ in 1..random.one_of(&[1, 1, 1, 2, 2, 5]) {
        let other = if in_one_row {
            Some(first - first % PROCESSES + random.below(PROCESSES))
        } else {
            entry_place(random, lent)
        };
        if let Some(place) = other {
            change_entry(random, lent, place);
        }
    }
}

fn change_entry(random: &mut Random, lent: &mut Lent, place: usize) {
    let table = if random.once_in(2) {
        &mut lent.sent
    } else {
        &mut lent.received
    };
    let table = table.lent_mut();
    if place >= table.len() {
        return;
    }
    let row_before = table[place.saturating_sub(PROCESSES)];
    let old = table[place];
    table[place] = match random.below(6) {
        0 => NOT_KNOWN as Counter,
        1 => row_before.saturating_sub(1),
        2 => old.wrapping_add(1),
        3 => old.saturating_sub(1),
        4 => random.one_of(&[0, 1, 127, 128, NOT_KNOWN as Counter - 1]),
        _ => random.number() as Counter,
    };
}

/// The place of an entry: used, in an own or absent column, in an oldest row, or after the rows in use.
fn entry_place(random: &mut Random, lent: &Lent) -> Option<usize> {
    let shape = lent.shape.lent();
    let n = usize::try_from(*shape.first()?).ok()?.min(shape.len() - 1);
    let counts: Vec<usize> = shape[1..=n].iter().map(|&count| count.min(256) as usize).collect();
    let rows: usize = counts.iter().sum();
    if n == 0 || random.once_in(5) {
        let unused = (rows * PROCESSES).min(TABLE_ENTRIES - 1);
        let any = random.between(unused, TABLE_ENTRIES - 1);
        return Some(random.one_of(&[unused, any, TABLE_ENTRIES - 1]));
    }
    let j = random.below(n);
    let first_row: usize = counts[..j].iter().sum();
    let row = match random.below(4) {
        0 => first_row,
        1 => (first_row + counts[j]).saturating_sub(1),
        _ => first_row + random.below(counts[j].max(1)),
    };
    let column = match random.below(5) {
        0 => j,
        1 => random.below(PROCESSES),
        _ => random.below(n),
    };
    Some((row * PROCESSES + column).min(TABLE_ENTRIES - 1))
}

/// Changes a word of a shape.
pub fn change_shape(random: &mut Random, lent: &mut Lent) {
    let shape = lent.shape.lent_mut();
    if shape.is_empty() {
        return;
    }
    let n = (shape[0] as usize).min(shape.len() - 1);
    let place = match random.below(4) {
        0 => 0,
        1 | 2 => random.between(0, n),
        _ => random.below(shape.len()),
    };
    let old = shape[place];
    shape[place] = match random.below(5) {
        0 => random.one_of(&ODD_NUMBERS),
        3 => old.wrapping_add(1 << 32),
        1 => old.wrapping_add(1),
        2 => old.wrapping_sub(1),
        _ => old.wrapping_add(CHECKPOINTS as u64),
    };
}

/// Lends a table of the wrong length, or two.
pub fn change_table_lengths(random: &mut Random, lent: &mut Lent) {
    let length = random.one_of(&[0, 1, TABLE_ENTRIES - 1, TABLE_ENTRIES + 1, 2 * TABLE_ENTRIES]);
    match random.below(3) {
        0 => lent.sent = lent.sent.resized(length),
        1 => lent.received = lent.received.resized(length),
        _ => {
            lent.sent = lent.sent.resized(length);
            lent.received = lent.received.resized(length);
        }
    }
}

/// Lends a slice of words, or a column, of the wrong length.
pub fn change_word_lengths(random: &mut Random, call: Call, lent: &mut Lent) {
    if call == Call::TestCheckpoint && random.once_in(2) {
        lent.known = of_another_length(random, &lent.known);
        return;
    }
    if call == Call::ReadResend {
        lent.result = of_another_length(random, &lent.result);
        return;
    }
    let mut slices: Vec<&mut Guarded<u64>> = vec![&mut lent.shape];
    if call.takes_state() || matches!(call, Call::ParticipantFirst | Call::InitiatorBegin | Call::SessionStart) {
        slices.push(&mut lent.state);
    }
    if call == Call::TestSet {
        slices.push(&mut lent.set);
    }
    if !lent.result.lent().is_empty() {
        slices.push(&mut lent.result);
    }
    let chosen = random.below(slices.len());
    let slice = &mut *slices[chosen];
    *slice = of_another_length(random, slice);
}

fn of_another_length<T: Pattern>(random: &mut Random, slice: &Guarded<T>) -> Guarded<T> {
    let length = slice.lent().len();
    slice.resized(random.one_of(&[0, 1, length.saturating_sub(1), length + 1, 2 * length]))
}
