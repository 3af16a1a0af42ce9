//! Sets of checkpoints, and what is found.

use crate::by_process::ByProcess;
use crate::names::{Checkpoint, Process};
use crate::refusal::Refusal;
use crate::sys::RECOVERY_LINE_SET_WORDS;
use std::fmt;

/// One checkpoint for each process, none for absent ones.
#[derive(Clone, Copy, PartialEq, Eq, Hash)]
#[must_use = "a set only says something when it is looked at"]
pub struct Set([u64; RECOVERY_LINE_SET_WORDS]);

impl Set {
    /// The set of these checkpoints, of processes 1, 2 and so on; more than sixteen are refused by
    /// [`Refusal::WRONG_LENGTH`].
    pub fn new(checkpoints: &[Checkpoint]) -> Result<Set, Refusal> {
        let mut words = [0; RECOVERY_LINE_SET_WORDS];
        let named = words.get_mut(..checkpoints.len()).ok_or(Refusal::WRONG_LENGTH)?;
        for (word, checkpoint) in named.iter_mut().zip(checkpoints) {
            *word = checkpoint.number();
        }
        Ok(Set(words))
    }

    pub(crate) fn from_array(words: [u64; RECOVERY_LINE_SET_WORDS]) -> Set {
        Set(words)
    }

    /// The checkpoint of a process, if the set has one.
    #[must_use]
    pub fn checkpoint(&self, process: Process) -> Option<Checkpoint> {
        let word = self.0[process.place()?];
        (word != 0).then_some(Checkpoint::new(word))
    }

    /// Each process that has a checkpoint, with it, in rising order.
    pub fn iter(&self) -> ByProcess<(Process, Checkpoint)> {
        ByProcess::of(|process| Some((process, self.checkpoint(process)?)))
    }

    /// Sixteen checkpoint numbers, 0 for absent processes.
    #[must_use]
    pub fn words(&self) -> &[u64; RECOVERY_LINE_SET_WORDS] {
        &self.0
    }

    /// The set of sixteen words; any other number of them is refused by [`Refusal::WRONG_LENGTH`].
    pub fn from_words(words: &[u64]) -> Result<Set, Refusal> {
        words.try_into().map(Set).map_err(|_| Refusal::WRONG_LENGTH)
    }
}

impl IntoIterator for Set {
    type Item = (Process, Checkpoint);
    type IntoIter = ByProcess<(Process, Checkpoint)>;

    fn into_iter(self) -> Self::IntoIter {
        self.iter()
    }
}

impl IntoIterator for &Set {
    type Item = (Process, Checkpoint);
    type IntoIter = ByProcess<(Process, Checkpoint)>;

    fn into_iter(self) -> Self::IntoIter {
        self.iter()
    }
}

impl TryFrom<&[Checkpoint]> for Set {
    type Error = Refusal;

    fn try_from(checkpoints: &[Checkpoint]) -> Result<Set, Refusal> {
        Set::new(checkpoints)
    }
}

impl fmt::Debug for Set {
    /// As the processes that have a checkpoint, each with it.
    fn fmt(&self, f: &mut fmt::Formatter<'_>) -> fmt::Result {
        f.write_str("Set ")?;
        f.debug_map().entries(self).finish()
    }
}

impl fmt::Display for Set {
    /// The checkpoint numbers of the processes that have one, with spaces between.
    fn fmt(&self, f: &mut fmt::Formatter<'_>) -> fmt::Result {
        for (i, (_, checkpoint)) in self.iter().enumerate() {
            let space = if i == 0 { "" } else { " " };
            write!(f, "{space}{checkpoint}")?;
        }
        Ok(())
    }
}

/// The recovery line.
#[derive(Clone, Copy, Debug, PartialEq, Eq, Hash)]
#[must_use = "the line is what the call was for"]
pub struct Line {
    /// The checkpoint of each process.
    pub set: Set,
    /// How many checkpoints are newer than the line's.
    pub passed: u64,
}

/// What a search came to.
#[derive(Clone, Copy, Debug, PartialEq, Eq, Hash)]
#[must_use = "where the search ended is what the call was for"]
pub struct Search {
    /// The set on which everybody ended: the line, or with [`Purpose::Restart`](crate::Purpose::Restart) checkpoint 1
    /// everywhere.
    pub set: Set,
    /// How many checkpoints are newer than those of the set.
    pub newer: u64,
    /// How many waits of the initiator it took.
    pub rounds: u64,
    /// How many messages were delivered.
    pub messages: u64,
}
