//! The participant's machine.

use crate::head::Head;
use crate::messages::Messages;
use crate::names::{Checkpoint, Count, Process, Purpose};
use crate::raw;
use crate::refusal::Refusal;
use crate::sys::{
    RECOVERY_LINE_N_AT as N, RECOVERY_LINE_PARTICIPANT_CANDIDATE_AT as CANDIDATE,
    RECOVERY_LINE_PARTICIPANT_COLUMN_AT as COLUMN, RECOVERY_LINE_PARTICIPANT_INITIATOR_AT as INITIATOR,
    RECOVERY_LINE_PARTICIPANT_PROCESS_AT as PROCESS, RECOVERY_LINE_PARTICIPANT_PURPOSE_AT as PURPOSE,
    RECOVERY_LINE_PARTICIPANT_ROW_AT as ROW, RECOVERY_LINE_PARTICIPANT_STAGE_AT as STAGE,
    RECOVERY_LINE_PARTICIPANT_WORDS, RECOVERY_LINE_STAGE_BEFORE, RECOVERY_LINE_STAGE_ENDED,
    RECOVERY_LINE_STAGE_SEARCHING,
};
use crate::tables::Tables;

/// How far a participant has come.
#[derive(Clone, Copy, Debug, PartialEq, Eq, Hash)]
pub enum Stage {
    /// It waits for its invitation.
    BeforeInvitation,
    /// It takes part in a search.
    Searching,
    /// It has ended, and stands on its candidate.
    Ended,
}

/// A worker's machine in a search that another process begins; [`Tables::invited`] makes it when the invitation comes,
/// [`Tables::participant`] before. How it is used shows [Between machines](crate#between-machines).
#[derive(Clone, Debug, PartialEq, Eq)]
#[must_use = "a search waits for every machine"]
pub struct Participant([u64; RECOVERY_LINE_PARTICIPANT_WORDS]);

impl Participant {
    pub(crate) fn from_array(words: [u64; RECOVERY_LINE_PARTICIPANT_WORDS]) -> Participant {
        Participant(words)
    }

    /// Receives a message of the initiator and takes the step that it asks for; what it answers with is to be delivered to
    /// the initiator.
    ///
    /// Refused by: the tables' questions, 10, 13, 14, 15, 16.
    pub fn receive(&mut self, tables: &Tables, message: &[u8]) -> Result<Messages, Refusal> {
        Messages::written(|out, lengths| {
            raw::participant_receive(
                &mut self.0,
                tables.shape(),
                tables.sent(),
                tables.received(),
                message,
                out,
                lengths,
            )
        })
    }

    /// Its own process.
    #[must_use]
    pub fn process(&self) -> Process {
        Process::new(self.0[PROCESS])
    }

    /// The process that begins the search.
    #[must_use]
    pub fn initiator(&self) -> Process {
        Process::new(self.0[INITIATOR])
    }

    /// What the search is for.
    #[must_use]
    pub fn purpose(&self) -> Purpose {
        Purpose::in_word(self.0[PURPOSE])
    }

    /// How far it has come.
    #[must_use]
    pub fn stage(&self) -> Stage {
        match self.0[STAGE] {
            RECOVERY_LINE_STAGE_BEFORE => Stage::BeforeInvitation,
            RECOVERY_LINE_STAGE_SEARCHING => Stage::Searching,
            _ => Stage::Ended,
        }
    }

    /// Whether it has ended.
    #[must_use]
    pub fn ended(&self) -> bool {
        self.stage() == Stage::Ended
    }

    /// The checkpoint that it stands on: once all have ended that of the line, with [`Purpose::Restart`] checkpoint 1.
    #[must_use]
    pub fn candidate(&self) -> Checkpoint {
        Checkpoint::new(self.0[CANDIDATE])
    }

    /// The sent counter that it last reported for a partner; `None` before its first report, and for no partner: an absent
    /// process, or its own.
    #[must_use]
    pub fn reported(&self, partner: Process) -> Option<Count> {
        Count::known(self.0[ROW + self.place_of(partner)?])
    }

    /// What it knows to have been sent to it by a partner; `None` if it does not know, and for no partner: an absent process,
    /// or its own.
    #[must_use]
    pub fn known(&self, partner: Process) -> Option<Count> {
        Count::known(self.0[COLUMN + self.place_of(partner)?])
    }

    fn place_of(&self, partner: Process) -> Option<usize> {
        partner.place_beside(self.process(), self.0[N])
    }

    /// The state as words, to be stored, and with them the messages of its last step until they are sent.
    #[must_use]
    pub fn words(&self) -> &[u64; RECOVERY_LINE_PARTICIPANT_WORDS] {
        &self.0
    }

    /// The state that was stored as these words.
    ///
    /// Refused are a wrong length, a purpose that is none (11) and a stage that is none (13); whether the state fits the
    /// tables is asked by every step.
    pub fn from_words(words: &[u64]) -> Result<Participant, Refusal> {
        let words: [u64; RECOVERY_LINE_PARTICIPANT_WORDS] = words.try_into().map_err(|_| Refusal::WRONG_LENGTH)?;
        Purpose::from_number(words[PURPOSE])?;
        if words[STAGE] > RECOVERY_LINE_STAGE_ENDED {
            return Err(Refusal::MISFIT);
        }
        Ok(Participant(words))
    }
}

impl Tables {
    /// Makes the machine of process `me` from the invitation that has come to it, and receives that: the machine, and its
    /// report, which is to be delivered to the initiator.
    ///
    /// Refused by: the tables' questions, 14 where the bytes have no [`Head`], 10, 14, 15.
    pub fn invited(&self, me: Process, invitation: &[u8]) -> Result<(Participant, Messages), Refusal> {
        self.check()?;
        let head = Head::of(invitation).ok_or(Refusal::NOT_FORMED)?;
        let mut machine = self.participant(me, head.sender, head.purpose)?;
        let report = machine.receive(self, invitation)?;
        Ok((machine, report))
    }
}
