//! A session: all machines of one search in one place.

use crate::by_process::ByProcess;
use crate::names::{Checkpoint, Process, Purpose};
use crate::raw;
use crate::refusal::Refusal;
use crate::sys::{
    RECOVERY_LINE_INITIATOR_CANDIDATE_AT, RECOVERY_LINE_INITIATOR_ENDED_AT, RECOVERY_LINE_INITIATOR_ROUNDS_AT,
    RECOVERY_LINE_MESSAGE_BYTES, RECOVERY_LINE_NOT_ENDED, RECOVERY_LINE_N_AT as N,
    RECOVERY_LINE_PARTICIPANT_CANDIDATE_AT, RECOVERY_LINE_PARTICIPANT_STAGE_AT, RECOVERY_LINE_PARTICIPANT_WORDS,
    RECOVERY_LINE_PROCESSES, RECOVERY_LINE_SESSION_DELIVERED_AT as DELIVERED,
    RECOVERY_LINE_SESSION_INITIATOR_AT as INITIATOR, RECOVERY_LINE_SESSION_LENGTHS_AT as WAITING,
    RECOVERY_LINE_SESSION_MACHINE_AT as MACHINE, RECOVERY_LINE_SESSION_PARTICIPANTS_AT as PARTICIPANTS,
    RECOVERY_LINE_SESSION_PURPOSE_AT as PURPOSE, RECOVERY_LINE_SESSION_WORDS, RECOVERY_LINE_STAGE_ENDED,
    RECOVERY_LINE_STRAND_BYTES,
};
use crate::tables::Tables;

/// All machines of one search, with the messages that wait between them: each participant has one strand to the initiator,
/// with at most one message waiting on it.
#[derive(Clone, Debug, PartialEq, Eq)]
#[must_use = "a session goes on only by its turns"]
pub struct Session {
    words: Box<[u64; RECOVERY_LINE_SESSION_WORDS]>,
    strands: Vec<u8>,
}

impl Session {
    /// Starts a session: the initiator has begun, and its invitations wait; the whole book is needed
    /// ([Between machines](crate#between-machines)).
    ///
    /// Refused by: the tables' questions, 10.
    pub fn start(tables: &Tables, initiator: Process, purpose: Purpose) -> Result<Session, Refusal> {
        let mut session = Session {
            words: Box::new([0; RECOVERY_LINE_SESSION_WORDS]),
            strands: vec![0; RECOVERY_LINE_STRAND_BYTES(RECOVERY_LINE_PROCESSES)],
        };
        raw::session_start(
            tables.shape(),
            tables.sent(),
            tables.received(),
            initiator.number(),
            purpose.number(),
            &mut session.words[..],
            &mut session.strands,
        )?;
        Ok(session)
    }

    /// Delivers the message that waits on a participant's strand; the replies wait then.
    ///
    /// Refused by: the tables' questions, 10, 11, 13, 17, 18.
    pub fn turn(&mut self, tables: &Tables, participant: Process) -> Result<(), Refusal> {
        raw::session_turn(
            &mut self.words[..],
            tables.shape(),
            tables.sent(),
            tables.received(),
            participant.number(),
            &mut self.strands,
        )
    }

    /// The number of processes, n.
    #[must_use]
    pub fn processes(&self) -> u64 {
        self.words[N]
    }

    /// The process that began the search.
    #[must_use]
    pub fn initiator(&self) -> Process {
        Process::new(self.words[INITIATOR])
    }

    /// What the search is for.
    #[must_use]
    pub fn purpose(&self) -> Purpose {
        Purpose::in_word(self.words[PURPOSE])
    }

    /// The checkpoint that a process stands on; `None` for an absent one.
    #[must_use]
    pub fn candidate(&self, process: Process) -> Option<Checkpoint> {
        let word = if process == self.initiator() {
            self.words[MACHINE + RECOVERY_LINE_INITIATOR_CANDIDATE_AT]
        } else {
            self.words[self.state_of(process)? + RECOVERY_LINE_PARTICIPANT_CANDIDATE_AT]
        };
        (word != 0).then_some(Checkpoint::new(word))
    }

    /// Whether a process has ended; an absent one never has.
    #[must_use]
    pub fn ended(&self, process: Process) -> bool {
        if process == self.initiator() {
            return self.words[MACHINE + RECOVERY_LINE_INITIATOR_ENDED_AT] != RECOVERY_LINE_NOT_ENDED;
        }
        let state = self.state_of(process);
        state.is_some_and(|at| self.words[at + RECOVERY_LINE_PARTICIPANT_STAGE_AT] == RECOVERY_LINE_STAGE_ENDED)
    }

    /// Whether every process has ended.
    #[must_use]
    pub fn all_ended(&self) -> bool {
        Process::all(self.processes()).all(|process| self.ended(process))
    }

    /// How many waits of the initiator have begun.
    #[must_use]
    pub fn rounds(&self) -> u64 {
        self.words[MACHINE + RECOVERY_LINE_INITIATOR_ROUNDS_AT]
    }

    /// How many messages were delivered.
    #[must_use]
    pub fn delivered(&self) -> u64 {
        self.words[DELIVERED]
    }

    /// The participants on whose strand a message waits, in rising order.
    pub fn waiting(&self) -> ByProcess<Process> {
        ByProcess::of(|process| self.message(process).map(|_| process))
    }

    /// The message that waits on a participant's strand, if one does.
    #[must_use]
    pub fn message(&self, participant: Process) -> Option<&[u8]> {
        let place = participant.place_among(self.processes())?;
        let length = usize::try_from(self.words[WAITING + place]).ok()?;
        let start = self.strand_start(participant)?;
        let end = start.checked_add(length)?;
        self.strands.get(start..end).filter(|message| !message.is_empty())
    }

    /// The session as words, to be stored with its strands.
    #[must_use]
    pub fn words(&self) -> &[u64; RECOVERY_LINE_SESSION_WORDS] {
        &self.words
    }

    /// The bytes of the strands.
    #[must_use]
    pub fn strands(&self) -> &[u8] {
        &self.strands
    }

    /// The session that was stored as these words and strands.
    ///
    /// Refused are a wrong length of the words and a purpose that is none (11); whether the session fits the tables is asked
    /// by every turn. No turn can tell that it was not changed meanwhile: only one that was stored as it is ends on the line.
    pub fn from_words(words: &[u64], strands: &[u8]) -> Result<Session, Refusal> {
        let words: [u64; RECOVERY_LINE_SESSION_WORDS] = words.try_into().map_err(|_| Refusal::WRONG_LENGTH)?;
        Purpose::from_number(words[PURPOSE])?;
        Ok(Session {
            words: Box::new(words),
            strands: strands.to_vec(),
        })
    }

    /// Where a participant's state stands in the words.
    fn state_of(&self, participant: Process) -> Option<usize> {
        let place = participant.place_among(self.processes())?;
        Some(PARTICIPANTS + place * RECOVERY_LINE_PARTICIPANT_WORDS)
    }

    /// Where a participant's slot starts: those of the participants follow one another, and the initiator has none.
    fn strand_start(&self, participant: Process) -> Option<usize> {
        let n = usize::try_from(self.processes())
            .ok()
            .filter(|n| (1..=RECOVERY_LINE_PROCESSES).contains(n))?;
        let before = participant
            .place()?
            .checked_sub(usize::from(participant > self.initiator()))?;
        Some(before * RECOVERY_LINE_MESSAGE_BYTES(n))
    }
}
