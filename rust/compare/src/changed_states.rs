//! States of machines and sessions with some words changed: any word to any value, and changes that often still fit.

use crate::layout::{initiator, participant, session, LARGEST, NOT_KNOWN, PROCESSES, TALLY_LIMIT};
use crate::lent::Lent;
use crate::random::Random;

/// Changes a participant's words.
pub fn change_participant(random: &mut Random, words: &mut [u64]) {
    if words.len() != participant::WORDS {
        return;
    }
    let n = processes(words[participant::N]);
    for _ in 0..random.one_of(&[1, 1, 1, 2, 3]) {
        let place = match random.below(6) {
            0 | 1 => random.below(participant::ROW),
            2 => participant::STAGE,
            3 => participant::ROW + random.below(n),
            4 => participant::COLUMN + random.below(n),
            _ => random.below(participant::WORDS),
        };
        if place >= participant::COLUMN && random.once_in(2) {
            words[place] = words[place].saturating_add(random.one_of(&[1, 5, 1000])).min(NOT_KNOWN);
        } else {
            words[place] = other_word(random, words, place, n);
        }
    }
}

/// Changes an initiator's words.
pub fn change_initiator(random: &mut Random, words: &mut [u64]) {
    if words.len() != initiator::WORDS {
        return;
    }
    let n = processes(words[initiator::N]);
    for _ in 0..random.one_of(&[1, 1, 1, 2, 3]) {
        let entry = random.below(n) * PROCESSES + random.below(n);
        match random.below(8) {
            0 | 1 => {
                let place = random.below(initiator::AWAITED);
                words[place] = other_word(random, words, place, n);
            }
            2 => {
                words[initiator::ROUNDS] =
                    random.one_of(&[TALLY_LIMIT - 2, TALLY_LIMIT - 1, TALLY_LIMIT, TALLY_LIMIT + 1])
            }
            3 => words[initiator::AWAITED + random.below(n)] ^= 1,
            4 => {
                let held = words[initiator::MATRIX + entry];
                words[initiator::MATRIX + entry] = held - (held / random.between(1, 9) as u64).min(held);
            }
            5 => {
                let held = words[initiator::COPY + entry];
                words[initiator::COPY + entry] =
                    held.saturating_add(random.one_of(&[1, 1000, NOT_KNOWN])).min(NOT_KNOWN);
            }
            6 => {
                let place = random.one_of(&[initiator::MATRIX, initiator::COPY]) + entry;
                words[place] = other_word(random, words, place, n);
            }
            _ => {
                let place = random.below(initiator::WORDS);
                words[place] = other_word(random, words, place, n);
            }
        }
    }
}

/// Changes a session's words: its own, or those of a machine in it.
pub fn change_session(random: &mut Random, words: &mut [u64]) {
    if words.len() != session::WORDS {
        return;
    }
    let n = processes(words[session::N]);
    let p = if random.once_in(6) {
        random.between(1, PROCESSES)
    } else {
        random.between(1, n)
    };
    match random.below(9) {
        0 => change_head(random, words, n),
        8 => change_names(random, words, n),
        1 | 2 => change_initiator(random, &mut words[session::MACHINE..session::PARTICIPANTS]),
        3..=5 => {
            let at = session::participant_at(p);
            change_participant(random, &mut words[at..at + participant::WORDS]);
        }
        6 => {
            let place = session::WAITING + p - 1;
            words[place] = other_word(random, words, place, n);
        }
        _ => {
            let place = random.below(session::WORDS);
            words[place] = other_word(random, words, place, n);
        }
    }
}

fn change_head(random: &mut Random, words: &mut [u64], n: usize) {
    if random.once_in(3) {
        words[session::DELIVERED] = random.one_of(&[0, TALLY_LIMIT - 2, TALLY_LIMIT - 1, TALLY_LIMIT, TALLY_LIMIT + 1]);
    } else {
        let place = random.below(session::MACHINE);
        words[place] = other_word(random, words, place, n);
    }
}

/// Changes names in the session or its machines, mostly several, so that the order of questions 10 and 11 shows.
fn change_names(random: &mut Random, words: &mut [u64], n: usize) {
    let of_machine = [
        session::MACHINE + initiator::PROCESS,
        session::MACHINE + initiator::PURPOSE,
    ];
    for _ in 0..random.between(1, 3) {
        let of_participant = session::participant_at(random.between(1, n));
        let place = match random.below(3) {
            0 => random.one_of(&[session::INITIATOR, session::PURPOSE]),
            1 => random.one_of(&of_machine),
            _ => of_participant + random.between(participant::PROCESS, participant::PURPOSE),
        };
        words[place] = random.one_of(&[0, 1, 2, 3, 4, n as u64, n as u64 + 1, (1 << 32) + 1, u64::MAX]);
    }
}

/// Changes bytes of waiting messages, or how many wait.
pub fn damage_strands(random: &mut Random, lent: &mut Lent) {
    let lengths: Vec<u64> = match lent.state.lent().get(session::WAITING..session::DELIVERED) {
        Some(waiting) => waiting.to_vec(),
        None => return,
    };
    let p = random.below(PROCESSES);
    if random.once_in(4) {
        let change = random.one_of(&[1, u64::MAX, 6, 1 << 40]);
        lent.state.lent_mut()[session::WAITING + p] = lengths[p].wrapping_add(change);
        return;
    }
    let strands = lent.out.lent_mut();
    for _ in 0..random.one_of(&[1, 1, 2, 6]) {
        if !strands.is_empty() {
            let place = random.below(strands.len());
            let old = strands[place];
            strands[place] = match random.below(4) {
                0 => old ^ (1 << random.below(8)),
                1 => old.wrapping_add(1),
                2 => old.wrapping_sub(1),
                _ => random.one_of(&[0, 1, 2, 3, 127, 128, 255]),
            };
        }
    }
}

/// How many processes a word names, if it is a number of processes.
fn processes(word: u64) -> usize {
    (word as usize).clamp(1, PROCESSES)
}

/// Another value for a word: an odd one, one close to the old, or one from another place.
fn other_word(random: &mut Random, words: &[u64], place: usize, n: usize) -> u64 {
    let old = words[place];
    match random.below(7) {
        0 => random.between(0, 4) as u64,
        1 => random.between(0, n + 1) as u64,
        2 => old.wrapping_add(1),
        3 => old.wrapping_sub(1),
        4 => random.one_of(&[LARGEST, NOT_KNOWN, 1 << 32, u64::MAX]),
        5 => old.wrapping_add(1 << 32),
        _ => random.one_of(words),
    }
}
