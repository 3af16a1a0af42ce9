//! Runs cases on both implementations and compares what they answer and leave.

use crate::book::Book;
use crate::call::{Call, ANSWERS};
use crate::lent::Lent;
use crate::show::describe;
use crate::tally::{Kind, Tally};
use crate::{journal_claims, move_claims, ours, pair_claims, resend_claims, theirs};

/// What the library answered to a case, and what it left.
pub struct Outcome {
    pub answer: u32,
    pub left: Lent,
}

/// A run of cases up to a limit; it stops at the first difference.
pub struct Runner {
    pub seed: u64,
    pub scenario: u64,
    pub limit: u64,
    pub tally: Tally,
    /// On how many sessions the claims of demand 3 were checked, how many of them were taken to their end, and how
    /// often.
    pub claimed_sessions: u64,
    pub ended_sessions: u64,
    pub claims: u64,
    /// The journals that were accepted, and of which their claims were asserted.
    pub journals: journal_claims::Met,
    /// The sets and checkpoints that were tested, and of which their claims were asserted.
    pub pairs: pair_claims::Met,
    /// The moves, and the lines of moved books, of which their claims were asserted.
    pub moves: move_claims::Met,
    /// The lists of what to send again of which their claims were asserted.
    pub lists: resend_claims::Met,
    pub difference: Option<String>,
}

impl Runner {
    /// A run that has not begun.
    pub fn new(seed: u64, limit: u64) -> Self {
        Runner {
            seed,
            scenario: 0,
            limit,
            tally: Tally::default(),
            claimed_sessions: 0,
            ended_sessions: 0,
            claims: 0,
            journals: journal_claims::Met::default(),
            pairs: pair_claims::Met::default(),
            moves: move_claims::Met::default(),
            lists: resend_claims::Met::default(),
            difference: None,
        }
    }

    /// Runs a case. `None` ends the scenario: the limit is reached, or a difference was found.
    pub fn case(&mut self, kind: Kind, call: Call, lent: Lent) -> Option<Outcome> {
        if self.tally.cases >= self.limit || self.difference.is_some() {
            return None;
        }
        let mut left = lent.clone();
        let mut expected = lent.clone();
        let answer = ours::run(call, &mut left);
        let expected_answer = theirs::run(call, &mut expected);
        let fault = fault_of(&lent, (answer, &left), (expected_answer, &expected));
        if let Some(fault) = fault {
            self.fail(&format!("{} ({kind:?}): {fault}\n{}", call.name(), describe(&lent)));
            return None;
        }
        self.tally.add(kind, call, answer);
        Some(Outcome { answer, left })
    }

    /// Notes a claim of demand 3 that does not hold; ends the scenario.
    pub fn claim(&mut self, holds: Result<(), String>, lent: &Lent) -> Option<()> {
        self.claims += 1;
        match holds {
            Ok(()) => Some(()),
            Err(what) => {
                self.fail(&format!("demand 3: {what}\n{}", describe(lent)));
                None
            }
        }
    }

    /// What no case had and enough of them must have.
    pub fn missing(&self) -> Vec<String> {
        [
            self.tally.missing(),
            self.journals.missing(),
            self.pairs.missing(),
            self.moves.missing(),
            self.lists.missing(),
        ]
        .concat()
    }

    /// Notes something that must hold of an outcome and does not; ends the scenario.
    pub fn demand(&mut self, holds: bool, what: &str, left: &Lent) -> Option<()> {
        if !holds {
            self.fail(&format!("does not hold: {what}\n{}", describe(left)));
        }
        holds.then_some(())
    }

    fn fail(&mut self, what: &str) {
        let (seed, scenario, case) = (self.seed, self.scenario, self.tally.cases + 1);
        self.difference = Some(format!(
            "DIFFERENCE: seed {seed}, scenario {scenario}, case {case}: {what}\n\
             replay: compare --seed {seed} --only {scenario}"
        ));
    }
}

/// What is wrong with an outcome, seen from the expected one; `None` if nothing is.
fn fault_of(lent: &Lent, ours: (u32, &Lent), theirs: (u32, &Lent)) -> Option<String> {
    let (answer, left) = ours;
    let (expected_answer, expected) = theirs;
    if answer != expected_answer {
        return Some(format!("answered {answer}, expected {expected_answer}"));
    }
    if !ANSWERS.contains(&answer) {
        return Some(format!("answered {answer}"));
    }
    if answer != 0 {
        let changed = [left.differences(lent), expected.differences(lent)].concat();
        return (!changed.is_empty()).then(|| format!("refused by {answer}, but changed {}", changed.join("; ")));
    }
    let differing = left.differences(expected);
    (!differing.is_empty()).then(|| format!("left, and expected: {}", differing.join("; ")))
}

/// The book of accepted tables.
pub fn book_of(lent: &Lent) -> Book {
    let shape = lent.shape.lent().try_into().expect("accepted tables have a shape");
    Book {
        shape,
        sent: lent.sent.lent().to_vec(),
        received: lent.received.lent().to_vec(),
    }
}
