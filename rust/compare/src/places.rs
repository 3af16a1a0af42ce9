//! Sessions with another n or initiator, and with something at a place where no machine belongs, or nothing where one does:
//! which names questions 10 and 11 ask, and what is left to 13.

use crate::layout::{initiator, participant, session, PROCESSES};
use crate::lent::Lent;
use crate::random::Random;

/// Values of a field where everything else is zero; some do not decode, and some of those decode to zero.
const ALONE: [u64; 8] = [1, 2, 3, 4_294_967_295, 1 << 32, (1 << 32) + 1, 1 << 40, u64::MAX];

/// Numbers that no purpose has.
const NO_PURPOSE: [u64; 4] = [0, 4, (1 << 32) + 1, u64::MAX];

/// A process number: mostly one of n processes, else 0, one above n, or a large one.
fn any_process(random: &mut Random, n: usize) -> u64 {
    match random.below(8) {
        0 => 0,
        1 => n as u64 + 1,
        2 => random.one_of(&[9, 17, (1 << 32) + 1, u64::MAX]),
        _ => random.between(1, n) as u64,
    }
}

/// The words of the machine at a place, from 1.
fn place(words: &mut [u64], p: usize) -> &mut [u64] {
    let at = session::participant_at(p);
    &mut words[at..at + participant::WORDS]
}

/// How many processes a session has, if its word is such a number.
fn processes(words: &[u64]) -> usize {
    (words[session::N] as usize).clamp(1, PROCESSES)
}

/// Where the n of the session and of each of its machines stands.
fn counts(words: &[u64]) -> Vec<usize> {
    let machines = (1..=PROCESSES).map(session::participant_at);
    let named = machines.filter(|&at| words[at + participant::PROCESS] != 0);
    [session::N, session::MACHINE].into_iter().chain(named).collect()
}

/// Makes n another number in the session itself, in all its machines too, or nowhere; and now and then a purpose none.
pub fn change_count(random: &mut Random, words: &mut [u64], n: u64) {
    match random.below(4) {
        0 => words[session::N] = n,
        1 => counts(words).into_iter().for_each(|at| words[at] = n),
        _ => {}
    }
    if random.once_in(4) {
        change_purpose(random, words);
    }
}

/// Makes a purpose none: the session's, the initiator's machine's or that at some place.
fn change_purpose(random: &mut Random, words: &mut [u64]) {
    let p = random.between(1, PROCESSES);
    let at = [
        session::PURPOSE,
        session::MACHINE + initiator::PURPOSE,
        session::participant_at(p) + participant::PURPOSE,
    ];
    words[random.one_of(&at)] = random.one_of(&NO_PURPOSE);
}

/// Changes the session's n, its initiator or both; the turn may name any process then.
pub fn change_head(random: &mut Random, lent: &mut Lent) {
    let words = lent.state.lent_mut();
    if words.len() != session::WORDS {
        return;
    }
    let n = processes(words);
    if random.once_in(2) {
        let other = random.one_of(&[0, 1, n - 1, n + 1, PROCESSES, PROCESSES + 1]) as u64;
        change_count(random, words, other);
    }
    if random.once_in(2) {
        words[session::INITIATOR] = any_process(random, n);
    }
    if random.once_in(3) {
        words[session::MACHINE + initiator::PROCESS] = any_process(random, n);
    }
    if random.once_in(2) {
        lent.names[0] = any_process(random, n);
    }
}

/// Puts something where no machine belongs, or takes one away from where it does.
pub fn change_places(random: &mut Random, words: &mut [u64]) {
    if words.len() != session::WORDS {
        return;
    }
    let n = processes(words);
    let unused: Vec<usize> = (1..=PROCESSES)
        .filter(|&p| p > n || p as u64 == words[session::INITIATOR])
        .collect();
    for _ in 0..random.one_of(&[1, 1, 2]) {
        if unused.is_empty() || random.once_in(4) {
            let p = random.between(1, n);
            empty(random, place(words, p));
        } else {
            let p = random.one_of(&unused);
            fill(random, words, p, n);
        }
    }
    if random.once_in(8) {
        change_purpose(random, words);
    }
}

/// Empties a place, but now and then for one field.
fn empty(random: &mut Random, state: &mut [u64]) {
    let kept = random.below(participant::WORDS);
    let word = state[kept];
    state.fill(0);
    if random.once_in(3) {
        state[kept] = word;
    }
}

/// Fills a place: with one field alone, with names alone, or with a copy of another participant's machine, whose names may be
/// others then.
fn fill(random: &mut Random, words: &mut [u64], p: usize, n: usize) {
    let copied = random.between(1, n);
    let copy = place(words, copied).to_vec();
    let initiator = if random.once_in(3) {
        any_process(random, n)
    } else {
        words[session::INITIATOR]
    };
    let state = place(words, p);
    match random.below(4) {
        0 => {
            state.fill(0);
            state[random.below(participant::WORDS)] = random.one_of(&ALONE);
        }
        1 => {
            state.fill(0);
            state[participant::PROCESS] = any_process(random, n);
            state[participant::INITIATOR] = initiator;
            state[participant::PURPOSE] = random.between(0, 4) as u64;
        }
        _ => {
            state.copy_from_slice(&copy);
            rename(random, state, p, n);
        }
    }
}

/// Gives a machine the name of its place, another name, another initiator, or a purpose that is none; or leaves it.
fn rename(random: &mut Random, state: &mut [u64], p: usize, n: usize) {
    match random.below(5) {
        0 => state[participant::PROCESS] = p as u64,
        1 => state[participant::PROCESS] = any_process(random, n),
        2 => state[participant::INITIATOR] = any_process(random, n),
        3 => state[participant::PURPOSE] = random.one_of(&NO_PURPOSE),
        _ => {}
    }
}
