//! Journals: a book made event by event.

use crate::names::Process;
use crate::numbers::push_number;
use crate::refusal::Refusal;
use crate::sys::{RECOVERY_LINE_EVENT_CHECKPOINT, RECOVERY_LINE_EVENT_RECEIVED, RECOVERY_LINE_EVENT_SENT};
use crate::tables::Tables;

/// What the processes do, written down event by event, in the order in which it happens.
///
/// Checkpoint 1 of every process is there from the start, and has sent and received nothing: a journal cannot go on from a moved
/// book. Every event is written as it is given: one that cannot be (of an absent process, of one with itself, or a receipt of
/// what was not sent) is refused when the journal is read, by [`Journal::tables`]. A journal has at most
/// [`RECOVERY_LINE_JOURNAL_BYTES`] bytes, 65,536, which is some 21,800 events of messages: a longer one is refused by question 1,
/// though that speaks of book bytes.
///
/// [`RECOVERY_LINE_JOURNAL_BYTES`]: crate::sys::RECOVERY_LINE_JOURNAL_BYTES
///
/// ```
/// use recovery_line::{Checkpoint, Count, Journal, Process};
///
/// # fn main() -> Result<(), recovery_line::Refusal> {
/// let (one, two) = (Process::new(1), Process::new(2));
/// let mut journal = Journal::new(2);
/// journal.sent(one, two).checkpoint(one);
/// journal.received(two, one).checkpoint(two);
/// let tables = journal.tables()?;
/// assert_eq!(tables.received_from(two, Checkpoint::new(2), one), Some(Count::new(1)));
///
/// // Process 1 has nothing to receive.
/// journal.received(one, two);
/// assert_eq!(journal.tables().unwrap_err().question(), 20);
/// # Ok(())
/// # }
/// ```
#[derive(Clone, Debug, PartialEq, Eq, Hash)]
#[must_use = "a journal only says something when it is read"]
pub struct Journal(Vec<u8>);

impl Journal {
    /// A journal of n processes, without an event.
    pub fn new(n: u64) -> Journal {
        let mut bytes = Vec::new();
        push_number(&mut bytes, n);
        Journal(bytes)
    }

    /// Process `from` sends a message to process `to`.
    pub fn sent(&mut self, from: Process, to: Process) -> &mut Journal {
        self.event(&[RECOVERY_LINE_EVENT_SENT, from.number(), to.number()])
    }

    /// Process `by` receives a message from process `from`.
    pub fn received(&mut self, by: Process, from: Process) -> &mut Journal {
        self.event(&[RECOVERY_LINE_EVENT_RECEIVED, by.number(), from.number()])
    }

    /// A process saves its next checkpoint.
    pub fn checkpoint(&mut self, process: Process) -> &mut Journal {
        self.event(&[RECOVERY_LINE_EVENT_CHECKPOINT, process.number()])
    }

    fn event(&mut self, numbers: &[u64]) -> &mut Journal {
        numbers.iter().for_each(|number| push_number(&mut self.0, *number));
        self
    }

    /// The book that the journal builds, by [`Tables::read_journal`].
    ///
    /// Refused by: 1, of n 3 and 4, then event by event 19, 10, 20, 5.
    pub fn tables(&self) -> Result<Tables, Refusal> {
        Tables::read_journal(&self.0)
    }

    /// The bytes, to be stored.
    #[must_use]
    pub fn bytes(&self) -> &[u8] {
        &self.0
    }

    /// The journal that was stored as these bytes, to be continued. Any bytes are taken: the reader judges them.
    pub fn from_bytes(bytes: &[u8]) -> Journal {
        Journal(bytes.to_vec())
    }
}
