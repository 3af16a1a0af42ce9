//! Every order of messages, for many small books: all sessions that any list of accepted turns reaches, each met
//! once, with the claims of demand 3 in every one of them.

use crate::book::Book;
use crate::call::Call;
use crate::claims::Claims;
use crate::layout::{initiator, participants, session, strand_bytes};
use crate::lent::{Guarded, Lent};
use crate::ours;
use crate::scenarios::lent_tables;
use std::collections::HashMap;
use std::fmt;

/// What was explored.
#[derive(Default)]
pub struct Explored {
    pub books: u64,
    pub searches: u64,
    pub states: u64,
    pub turns: u64,
    /// How many lists of turns on waiting strands lead from a start to an end.
    pub orders: u128,
    /// The most deliveries of one list.
    pub deliveries: u64,
    /// The largest T.
    pub passed: u64,
}

impl Explored {
    /// Adds what was explored elsewhere.
    pub fn add(&mut self, other: &Explored) {
        self.books += other.books;
        self.searches += other.searches;
        self.states += other.states;
        self.turns += other.turns;
        self.orders += other.orders;
        self.deliveries = self.deliveries.max(other.deliveries);
        self.passed = self.passed.max(other.passed);
    }
}

impl fmt::Display for Explored {
    fn fmt(&self, f: &mut fmt::Formatter) -> fmt::Result {
        let Explored {
            books,
            searches,
            states,
            turns,
            orders,
            deliveries,
            passed,
        } = self;
        write!(
            f,
            "{books} books, {searches} searches, {states} states, {turns} turns, {orders} orders, "
        )?;
        write!(f, "T to {passed}, deliveries to {deliveries}")
    }
}

/// Explores all searches on a book: by each initiator, the purposes 1 and 3 in turn.
pub fn explore_book(book: &Book, explored: &mut Explored) -> Result<(), String> {
    for initiator in 1..=book.n() {
        let purpose = if explored.searches.is_multiple_of(2) { 1 } else { 3 };
        let orders = Exploration::new(book, initiator, purpose, explored)?.orders_from_start();
        explored.orders += orders.map_err(|what| {
            let bytes: Vec<String> = book.bytes().iter().map(|byte| format!("{byte:02X}")).collect();
            format!(
                "{what}\nbook {}, initiator {initiator}, purpose {purpose}",
                bytes.join(" ")
            )
        })?;
        explored.searches += 1;
    }
    explored.books += 1;
    Ok(())
}

/// One search in all its orders.
struct Exploration<'a> {
    claims: Claims,
    participants: Vec<usize>,
    /// What the next call is lent.
    lent: Lent,
    /// For each session met, with its strands: how many orders lead from it to an end.
    met: HashMap<u128, u128>,
    explored: &'a mut Explored,
}

/// A session with its strands.
struct State {
    words: Vec<u64>,
    strands: Vec<u8>,
}

impl<'a> Exploration<'a> {
    fn new(book: &Book, initiator: usize, purpose: u64, explored: &'a mut Explored) -> Result<Self, String> {
        let n = book.n();
        let mut lent = lent_tables(book);
        lent.state = Guarded::fresh(session::WORDS);
        lent.out = Guarded::fresh(strand_bytes(n));
        lent.names = [initiator as u64, purpose, 0];
        let claims = Claims::new(book, initiator)?;
        explored.passed = explored.passed.max(claims.passed);
        Ok(Exploration {
            claims,
            participants: participants(n, initiator).collect(),
            lent,
            met: HashMap::new(),
            explored,
        })
    }

    fn orders_from_start(mut self) -> Result<u128, String> {
        match ours::run(Call::SessionStart, &mut self.lent) {
            0 => {
                let state = self.state_left();
                let rounds = state.words[session::MACHINE + initiator::ROUNDS];
                if rounds != u64::from(!self.participants.is_empty()) {
                    return Err(format!("{rounds} rounds after the start"));
                }
                self.orders_from(&state, 0)
            }
            answer => Err(format!("the start was refused by {answer}")),
        }
    }

    fn state_left(&self) -> State {
        State {
            words: self.lent.state.lent().to_vec(),
            strands: self.lent.out.lent().to_vec(),
        }
    }

    /// How many orders lead from a session, reached by so many turns, to an end.
    fn orders_from(&mut self, state: &State, accepted: u64) -> Result<u128, String> {
        let key = hash(state);
        if let Some(&orders) = self.met.get(&key) {
            return Ok(orders);
        }
        self.explored.states += 1;
        self.claims.hold_after(&state.words, accepted)?;
        let mut orders = 0;
        for place in 0..self.participants.len() {
            let p = self.participants[place];
            if let Some(next) = self.turn(state, p)? {
                orders += self.orders_from(&next, accepted + 1)?;
            }
        }
        if orders == 0 {
            self.explored.deliveries = self.explored.deliveries.max(accepted);
            orders = 1;
        }
        self.met.insert(key, orders);
        Ok(orders)
    }

    /// Takes a turn; the session after it, if it was accepted, as claimed of strands where a message waits.
    fn turn(&mut self, state: &State, p: usize) -> Result<Option<State>, String> {
        self.lent.state.lent_mut().copy_from_slice(&state.words);
        self.lent.out.lent_mut().copy_from_slice(&state.strands);
        self.lent.names[0] = p as u64;
        self.explored.turns += 1;
        let answer = ours::run(Call::SessionTurn, &mut self.lent);
        self.claims
            .hold_of_turn(&state.words, p as u64, state.strands.len(), answer)?;
        if answer == 0 {
            let next = self.state_left();
            self.claims
                .hold_of_rounds(&state.words, &state.strands, p as u64, &next.words)?;
            return Ok(Some(next));
        }
        let kept = self.lent.state.lent() == state.words && self.lent.out.lent() == state.strands;
        if kept {
            Ok(None)
        } else {
            Err(format!(
                "a turn of {p}, refused by {answer}, changed the session or its strands"
            ))
        }
    }
}

/// A hash of 128 bits: among some millions of states two different ones do not meet.
fn hash(state: &State) -> u128 {
    let mut lanes = [0x243F_6A88_85A3_08D3u64, 0x1319_8A2E_0370_7344u64];
    let mut mix = |word: u64| {
        lanes[0] = (lanes[0] ^ word).wrapping_mul(0x9E37_79B9_7F4A_7C15).rotate_left(29);
        lanes[1] = (lanes[1].rotate_left(17) ^ word).wrapping_mul(0xD6E8_FEB8_6659_FD93);
    };
    state.words.iter().for_each(|&word| mix(word));
    for chunk in state.strands.chunks(8) {
        mix(chunk.iter().fold(1, |word, &byte| word << 8 | u64::from(byte)));
    }
    u128::from(lanes[0]) << 64 | u128::from(lanes[1])
}
