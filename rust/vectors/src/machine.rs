//! The machines' states in words, and edits of them.

use crate::calls;
use crate::edits::Edit;
use crate::given::Given;
use crate::mail::Mail;
use crate::tables::Counters;
use recovery_line::sys;

#[derive(Clone, Copy, PartialEq)]
pub enum Role {
    Participant,
    Initiator,
}

/// Where a participant's fields begin.
mod participant {
    pub use recovery_line::sys::RECOVERY_LINE_PARTICIPANT_CANDIDATE_AT as CANDIDATE;
    pub use recovery_line::sys::RECOVERY_LINE_PARTICIPANT_COLUMN_AT as COLUMN;
    pub use recovery_line::sys::RECOVERY_LINE_PARTICIPANT_INITIATOR_AT as INITIATOR;
    pub use recovery_line::sys::RECOVERY_LINE_PARTICIPANT_PROCESS_AT as PROCESS;
    pub use recovery_line::sys::RECOVERY_LINE_PARTICIPANT_PURPOSE_AT as PURPOSE;
    pub use recovery_line::sys::RECOVERY_LINE_PARTICIPANT_ROW_AT as ROW;
    pub use recovery_line::sys::RECOVERY_LINE_PARTICIPANT_STAGE_AT as STAGE;
}

/// Where an initiator's fields begin.
mod initiator {
    pub use recovery_line::sys::RECOVERY_LINE_INITIATOR_AWAITED_AT as AWAITED;
    pub use recovery_line::sys::RECOVERY_LINE_INITIATOR_CANDIDATE_AT as CANDIDATE;
    pub use recovery_line::sys::RECOVERY_LINE_INITIATOR_COPY_AT as COPY;
    pub use recovery_line::sys::RECOVERY_LINE_INITIATOR_ENDED_AT as ENDED;
    pub use recovery_line::sys::RECOVERY_LINE_INITIATOR_MATRIX_AT as MATRIX;
    pub use recovery_line::sys::RECOVERY_LINE_INITIATOR_PROCESS_AT as PROCESS;
    pub use recovery_line::sys::RECOVERY_LINE_INITIATOR_PURPOSE_AT as PURPOSE;
    pub use recovery_line::sys::RECOVERY_LINE_INITIATOR_ROUNDS_AT as ROUNDS;
}

impl Role {
    pub fn words(self) -> usize {
        match self {
            Role::Participant => sys::RECOVERY_LINE_PARTICIPANT_WORDS,
            Role::Initiator => sys::RECOVERY_LINE_INITIATOR_WORDS,
        }
    }

    /// Where a field begins, and how many words it has.
    fn field(self, name: &str) -> Option<(usize, usize)> {
        let place = match (self, name) {
            (_, "n") => (0, 1),
            (Role::Participant, "me") => (participant::PROCESS, 1),
            (Role::Initiator, "me") => (initiator::PROCESS, 1),
            (Role::Participant, "initiator") => (participant::INITIATOR, 1),
            (Role::Participant, "purpose") => (participant::PURPOSE, 1),
            (Role::Participant, "candidate") => (participant::CANDIDATE, 1),
            (Role::Participant, "row") => (participant::ROW, sys::RECOVERY_LINE_PROCESSES),
            (Role::Participant, "column") => (participant::COLUMN, sys::RECOVERY_LINE_PROCESSES),
            (Role::Initiator, "purpose") => (initiator::PURPOSE, 1),
            (Role::Initiator, "candidate") => (initiator::CANDIDATE, 1),
            (Role::Initiator, "rounds") => (initiator::ROUNDS, 1),
            (Role::Initiator, "awaited") => (initiator::AWAITED, sys::RECOVERY_LINE_PROCESSES),
            (Role::Initiator, "matrix") => (initiator::MATRIX, sys::RECOVERY_LINE_MATRIX_ENTRIES),
            (Role::Initiator, "copy") => (initiator::COPY, sys::RECOVERY_LINE_MATRIX_ENTRIES),
            _ => return None,
        };
        Some(place)
    }

    /// The number of a phase, and where it stands: a participant is before the invitation, searching or ended; an
    /// initiator waits or has ended.
    fn phase(self, word: &str) -> Option<(usize, u64)> {
        let place = match (self, word) {
            (Role::Participant, "before") => (participant::STAGE, 0),
            (Role::Participant, "searching") => (participant::STAGE, 1),
            (Role::Participant, "ended") => (participant::STAGE, 2),
            (Role::Initiator, "waiting") => (initiator::ENDED, 0),
            (Role::Initiator, "ended") => (initiator::ENDED, 1),
            _ => return None,
        };
        Some(place)
    }

    /// The checkpoint that a machine stands on.
    pub fn candidate(self, state: &[u64]) -> u64 {
        match self {
            Role::Participant => state[participant::CANDIDATE],
            Role::Initiator => state[initiator::CANDIDATE],
        }
    }

    pub fn has_ended(self, state: &[u64]) -> bool {
        match self {
            Role::Participant => state[participant::STAGE] == 2,
            Role::Initiator => state[initiator::ENDED] == 1,
        }
    }

    /// An edit of one field of a state.
    pub fn edit(self, state: &mut [u64], edit: &Edit) -> Option<()> {
        let (at, length) = self.field(edit.name)?;
        let index = edit.index.unwrap_or(0);
        if length <= index {
            return None;
        }
        state[at + index] = edit.value;
        Some(())
    }

    /// `phase=WORD`, of which the word is given.
    pub fn set_phase(self, state: &mut [u64], word: &str) -> Option<()> {
        let (at, number) = self.phase(word)?;
        state[at] = number;
        Some(())
    }
}

/// How many rounds an initiator counts.
pub fn rounds(state: &[u64]) -> u64 {
    state[initiator::ROUNDS]
}

#[derive(Clone, PartialEq)]
pub struct Machine {
    pub role: Role,
    pub state: Vec<u64>,
}

impl Machine {
    /// In the place of a machine that there is not.
    pub fn none(role: Role) -> Machine {
        Machine {
            role,
            state: vec![0; role.words()],
        }
    }

    /// The machine receives a message: what is answered, and the machine afterwards.
    pub fn receive(&self, given: &Given, counters: &Counters, message: &[u8]) -> (Mail, Machine) {
        let mut after = self.clone();
        let mail = Mail::of(given, |out, lengths| {
            let lent = given.lent(counters);
            calls::receive(self.role, &mut after.state, lent, message, out, lengths)
        });
        (mail, after)
    }
}
