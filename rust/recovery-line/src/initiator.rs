//! The initiator's machine.

use crate::messages::Messages;
use crate::names::{Checkpoint, Count, Process, Purpose};
use crate::raw;
use crate::refusal::Refusal;
use crate::sys::{
    RECOVERY_LINE_INITIATOR_AWAITED_AT as AWAITED, RECOVERY_LINE_INITIATOR_CANDIDATE_AT as CANDIDATE,
    RECOVERY_LINE_INITIATOR_ENDED_AT as ENDED, RECOVERY_LINE_INITIATOR_MATRIX_AT as MATRIX,
    RECOVERY_LINE_INITIATOR_PROCESS_AT as PROCESS, RECOVERY_LINE_INITIATOR_PURPOSE_AT as PURPOSE,
    RECOVERY_LINE_INITIATOR_ROUNDS_AT as ROUNDS, RECOVERY_LINE_INITIATOR_WORDS, RECOVERY_LINE_NOT_AWAITED,
    RECOVERY_LINE_NOT_ENDED, RECOVERY_LINE_N_AT as N, RECOVERY_LINE_PROCESSES,
};
use crate::tables::Tables;

/// The machine of the worker that begins a search; [`Tables::initiator`] makes it. How it is used shows
/// [Between machines](crate#between-machines).
#[derive(Clone, Debug, PartialEq, Eq)]
#[must_use = "a search waits for every machine"]
pub struct Initiator(Box<[u64; RECOVERY_LINE_INITIATOR_WORDS]>);

impl Initiator {
    pub(crate) fn from_boxed(words: Box<[u64; RECOVERY_LINE_INITIATOR_WORDS]>) -> Initiator {
        Initiator(words)
    }

    /// Receives a participant's report and, when it was the last one awaited, takes its step; what it sends (nothing, polls
    /// or terminations) is to be delivered to the participants.
    ///
    /// Refused by: the tables' questions, 10, 13, 14, 15, 16.
    pub fn receive(&mut self, tables: &Tables, message: &[u8]) -> Result<Messages, Refusal> {
        Messages::written(|out, lengths| {
            raw::initiator_receive(
                &mut self.0[..],
                tables.shape(),
                tables.sent(),
                tables.received(),
                message,
                out,
                lengths,
            )
        })
    }

    /// Its own process.
    #[must_use]
    pub fn process(&self) -> Process {
        Process::new(self.0[PROCESS])
    }

    /// What the search is for.
    #[must_use]
    pub fn purpose(&self) -> Purpose {
        Purpose::in_word(self.0[PURPOSE])
    }

    /// Whether it has ended.
    #[must_use]
    pub fn ended(&self) -> bool {
        self.0[ENDED] != RECOVERY_LINE_NOT_ENDED
    }

    /// The checkpoint that it stands on: once all have ended that of the line, with [`Purpose::Restart`] checkpoint 1.
    #[must_use]
    pub fn candidate(&self) -> Checkpoint {
        Checkpoint::new(self.0[CANDIDATE])
    }

    /// How many waits have begun.
    #[must_use]
    pub fn rounds(&self) -> u64 {
        self.0[ROUNDS]
    }

    /// Whether it awaits a report of that process.
    #[must_use]
    pub fn awaits(&self, process: Process) -> bool {
        let place = process.place_among(self.0[N]);
        place.is_some_and(|place| self.0[AWAITED + place] != RECOVERY_LINE_NOT_AWAITED)
    }

    /// What it knows the sender's candidate to have sent to the receiver; `None` if it does not know, if one of them is absent,
    /// and if they are the same.
    #[must_use]
    pub fn known(&self, sender: Process, receiver: Process) -> Option<Count> {
        let n = self.0[N];
        let entry = sender.place_among(n)? * RECOVERY_LINE_PROCESSES + receiver.place_beside(sender, n)?;
        Count::known(self.0[MATRIX + entry])
    }

    /// The state as words, to be stored, and with them the messages of its last step until they are sent.
    #[must_use]
    pub fn words(&self) -> &[u64; RECOVERY_LINE_INITIATOR_WORDS] {
        &self.0
    }

    /// The state that was stored as these words.
    ///
    /// Refused are a wrong length and a purpose that is none (11); whether the state fits the tables is asked by every step.
    pub fn from_words(words: &[u64]) -> Result<Initiator, Refusal> {
        let words: [u64; RECOVERY_LINE_INITIATOR_WORDS] = words.try_into().map_err(|_| Refusal::WRONG_LENGTH)?;
        Purpose::from_number(words[PURPOSE])?;
        Ok(Initiator(Box::new(words)))
    }
}
