//! A session in words, and what is printed of it.

use crate::machine::{self, Machine, Role};
use crate::tables::PROCESSES;
use crate::text::Answer;
use recovery_line::sys::{
    self, RECOVERY_LINE_SESSION_DELIVERED_AT as DELIVERED, RECOVERY_LINE_SESSION_INITIATOR_AT as INITIATOR,
    RECOVERY_LINE_SESSION_LENGTHS_AT as LENGTHS, RECOVERY_LINE_SESSION_MACHINE_AT as MACHINE,
    RECOVERY_LINE_SESSION_PARTICIPANTS_AT as PARTICIPANTS, RECOVERY_LINE_SESSION_PURPOSE_AT as PURPOSE,
};
use std::ops::Range;

const N: usize = 0;

#[derive(Clone, PartialEq)]
pub struct Session(pub Vec<u64>);

/// Where a machine stands in a session.
pub struct Place {
    pub role: Role,
    pub words: Range<usize>,
}

impl Session {
    /// Every word has this value.
    pub fn filled(word: u64) -> Session {
        Session(vec![word; sys::RECOVERY_LINE_SESSION_WORDS])
    }

    pub fn n(&self) -> u64 {
        self.0[N]
    }

    pub fn initiator(&self) -> u64 {
        self.0[INITIATOR]
    }

    /// How many bytes wait on each strand.
    pub fn lengths(&self) -> &[u64] {
        &self.0[LENGTHS..DELIVERED]
    }

    pub fn set_length(&mut self, k: usize, length: u64) {
        self.0[LENGTHS + k] = length;
    }

    /// Sets a field of the session's own.
    pub fn set_own(&mut self, name: &str, value: u64) -> Option<()> {
        let at = match name {
            "n" => N,
            "initiator" => INITIATOR,
            "purpose" => PURPOSE,
            "delivered" => DELIVERED,
            _ => return None,
        };
        self.0[at] = value;
        Some(())
    }

    /// Where process p's machine stands: the initiator's, or the one at p's place among the participants.
    pub fn place(&self, p: u64) -> Option<Place> {
        if p == self.initiator() {
            return Some(Place {
                role: Role::Initiator,
                words: MACHINE..PARTICIPANTS,
            });
        }
        self.place_among_participants(p)
    }

    pub fn place_among_participants(&self, p: u64) -> Option<Place> {
        let start = PARTICIPANTS + place_of(p)? * sys::RECOVERY_LINE_PARTICIPANT_WORDS;
        Some(Place {
            role: Role::Participant,
            words: start..start + sys::RECOVERY_LINE_PARTICIPANT_WORDS,
        })
    }

    pub fn machine(&self, p: u64) -> Option<Machine> {
        let Place { role, words } = self.place(p)?;
        let state = self.0[words].to_vec();
        Some(Machine { role, state })
    }

    /// One number of each process.
    fn put_each(&self, answer: &mut Answer, number: impl Fn(u64, &Machine) -> u64) {
        for p in 1..=self.n().min(PROCESSES as u64) {
            if let Some(machine) = self.machine(p) {
                answer.put_number(number(p, &machine));
            }
        }
    }

    /// How the session stands.
    pub fn put_end(&self, answer: &mut Answer) {
        let rounds = machine::rounds(&self.0[MACHINE..PARTICIPANTS]);
        let delivered = self.0[DELIVERED];
        answer.put(format_args!("end rounds {rounds} delivered {delivered} candidates"));
        self.put_each(answer, |_, machine| machine.role.candidate(&machine.state));
        answer.put(" ended");
        self.put_each(answer, |_, machine| machine.role.has_ended(&machine.state).into());
        answer.put(" waiting");
        self.put_each(answer, |p, _| {
            let waits = place_of(p).is_some_and(|k| self.lengths()[k] != 0);
            waits.into()
        });
    }
}

/// The place of process p, from 0.
pub fn place_of(p: u64) -> Option<usize> {
    let k = usize::try_from(p).ok()?.checked_sub(1)?;
    (k < PROCESSES).then_some(k)
}
