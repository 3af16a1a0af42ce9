//! The messages of one step.

use crate::by_process::ByProcess;
use crate::names::Process;
use crate::refusal::Refusal;
use crate::sys::{RECOVERY_LINE_LENGTHS_WORDS, RECOVERY_LINE_PROCESSES, RECOVERY_LINE_STRAND_BYTES};

/// The messages that a machine sends in one step, each to be delivered to its receiver, once and whole: it does not name him.
#[derive(Clone, Debug, PartialEq, Eq, Default)]
#[must_use = "a message that is not delivered stalls the search for ever"]
pub struct Messages {
    bytes: Vec<u8>,
    lengths: [u64; RECOVERY_LINE_LENGTHS_WORDS],
}

impl Messages {
    /// The messages that a call writes, which is lent as many bytes as always suffice.
    pub(crate) fn written(
        call: impl FnOnce(&mut [u8], &mut [u64]) -> Result<(), Refusal>,
    ) -> Result<Messages, Refusal> {
        let mut out = [0; RECOVERY_LINE_STRAND_BYTES(RECOVERY_LINE_PROCESSES)];
        let mut lengths = [0; RECOVERY_LINE_LENGTHS_WORDS];
        call(&mut out, &mut lengths)?;
        let length = lengths.iter().sum::<u64>() as usize;
        Ok(Messages {
            bytes: out[..length].to_vec(),
            lengths,
        })
    }

    /// Each receiver with its message, in rising order.
    pub fn iter(&self) -> ByProcess<(Process, &[u8])> {
        let mut rest = &self.bytes[..];
        let mut lengths = self.lengths.iter();
        ByProcess::of(|receiver| {
            let (message, later) = rest.split_at(*lengths.next()? as usize);
            rest = later;
            (!message.is_empty()).then_some((receiver, message))
        })
    }

    /// The message to a process, if there is one.
    #[must_use]
    pub fn to(&self, receiver: Process) -> Option<&[u8]> {
        self.iter().find(|(to, _)| *to == receiver).map(|(_, message)| message)
    }

    /// How many messages there are.
    #[must_use]
    pub fn len(&self) -> usize {
        self.lengths.iter().filter(|length| **length != 0).count()
    }

    /// Whether nothing is sent.
    #[must_use]
    pub fn is_empty(&self) -> bool {
        self.bytes.is_empty()
    }

    /// All messages, one after another.
    #[must_use]
    pub fn bytes(&self) -> &[u8] {
        &self.bytes
    }

    /// The length of the message to each of sixteen processes, 0 for none.
    #[must_use]
    pub fn lengths(&self) -> &[u64; RECOVERY_LINE_LENGTHS_WORDS] {
        &self.lengths
    }
}

impl<'a> IntoIterator for &'a Messages {
    type Item = (Process, &'a [u8]);
    type IntoIter = ByProcess<(Process, &'a [u8])>;

    fn into_iter(self) -> Self::IntoIter {
        self.iter()
    }
}

impl IntoIterator for Messages {
    type Item = (Process, Vec<u8>);
    type IntoIter = ByProcess<(Process, Vec<u8>)>;

    fn into_iter(self) -> Self::IntoIter {
        let mut messages = self.iter().peekable();
        ByProcess::of(|process| {
            let (receiver, message) = messages.next_if(|(receiver, _)| *receiver == process)?;
            Some((receiver, message.to_vec()))
        })
    }
}
