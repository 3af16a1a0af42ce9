//! Books made checkpoint by checkpoint.

use crate::names::{Count, Process};
use crate::numbers::push_number;
use crate::refusal::Refusal;
use crate::sys::RECOVERY_LINE_PROCESSES;
use crate::tables::Tables;

type Row = [u64; RECOVERY_LINE_PROCESSES];

/// A book in the making: [`Tables::builder`] begins it, checkpoints are appended, and [`BookBuilder::build`] reads it.
///
/// Nothing is there that was not appended, the oldest checkpoints too. Each process's own checkpoints go in their order; those
/// of different processes in any. A counter that is not named stays what it was at the process's checkpoint before, and is zero
/// at the oldest.
///
/// Messages are counted from the present line, which is of the oldest checkpoints: these have received nothing, as question 7
/// asks, and have sent what was on its way when the line became theirs. Who counts from the start of the program takes off, at
/// both ends of each channel, what the receiver's oldest checkpoint had received.
///
/// ```
/// use recovery_line::{Count, Process, Tables};
///
/// # fn main() -> Result<(), recovery_line::Refusal> {
/// let (one, two) = (Process::new(1), Process::new(2));
/// let mut book = Tables::builder(2);
/// for process in [one, two] {
///     book.checkpoint(process); // the oldest, of zeros
/// }
/// book.checkpoint(one).received_from(two, Count::new(4));
/// book.checkpoint(two).sent_to(one, Count::new(3));
/// let tables = book.build()?;
/// assert_eq!(tables.find_line()?.set.to_string(), "1 2");
/// # Ok(())
/// # }
/// ```
#[derive(Clone, Debug, PartialEq, Eq)]
#[must_use = "a book only says something when it is built"]
pub struct BookBuilder {
    n: u64,
    checkpoints: Vec<Counters>,
    misplaced: bool,
}

/// A checkpoint with its counters, by partner.
#[derive(Clone, Debug, PartialEq, Eq)]
struct Counters {
    process: Process,
    sent: Row,
    received: Row,
}

/// The checkpoint that was just appended to a [`BookBuilder`], whose counters can be given.
#[derive(Debug)]
pub struct NewCheckpoint<'a> {
    counters: &'a mut Counters,
    misplaced: &'a mut bool,
    n: u64,
}

impl BookBuilder {
    pub(crate) fn new(n: u64) -> BookBuilder {
        BookBuilder {
            n,
            checkpoints: Vec::new(),
            misplaced: false,
        }
    }

    /// Appends a checkpoint as the newest of a process; its counters can be given right after.
    pub fn checkpoint(&mut self, process: Process) -> NewCheckpoint<'_> {
        let before = self.checkpoints.iter().rfind(|before| before.process == process);
        let counters = before.cloned().unwrap_or(Counters {
            process,
            sent: [0; RECOVERY_LINE_PROCESSES],
            received: [0; RECOVERY_LINE_PROCESSES],
        });
        let place = self.checkpoints.len();
        self.checkpoints.push(counters);
        NewCheckpoint {
            counters: &mut self.checkpoints[place],
            misplaced: &mut self.misplaced,
            n: self.n,
        }
    }

    /// Appends one checkpoint of zeros for every process that has none yet.
    ///
    /// So a worker that knows only its own checkpoints makes the tables that it lends its machine
    /// ([Between machines](crate#between-machines)):
    ///
    /// ```
    /// use recovery_line::{Count, Process, Purpose, Tables};
    ///
    /// # fn main() -> Result<(), recovery_line::Refusal> {
    /// let (me, partner) = (Process::new(2), Process::new(1));
    /// let mut book = Tables::builder(3);
    /// book.checkpoint(me); // the oldest, of zeros
    /// book.checkpoint(me).sent_to(partner, Count::new(3));
    /// let own = book.zeros_elsewhere().build()?;
    /// assert_eq!(own.newest().to_string(), "1 2 1");
    /// let (machine, invitations) = own.initiator(me, Purpose::Advance)?;
    /// assert_eq!((machine.process(), invitations.len()), (me, 2));
    /// # Ok(())
    /// # }
    /// ```
    pub fn zeros_elsewhere(&mut self) -> &mut BookBuilder {
        for process in present(self.n) {
            if self.checkpoints.iter().all(|of| of.process != process) {
                self.checkpoint(process);
            }
        }
        self
    }

    /// Makes the bytes of the book, and reads them as [`Tables::read`] does: of a process without a checkpoint question 5
    /// refuses it, of a counter that is too large 3 or 6, of a received one above zero in an oldest checkpoint 7, and of one
    /// lower than in the checkpoint before 8.
    ///
    /// What has no place in a book is asked after that: a counter above zero for a partner that is absent, or the process
    /// itself, is refused by 9, as it would be in tables, and a checkpoint of an absent process by 10.
    ///
    /// Refused by: 1, then along the book 3 to 8, then 9, 10.
    pub fn build(&self) -> Result<Tables, Refusal> {
        let tables = Tables::read(&self.bytes())?;
        if self.misplaced {
            return Err(Refusal::NOT_UNUSED);
        }
        let all_present = self
            .checkpoints
            .iter()
            .all(|of| of.process.place_among(self.n).is_some());
        if !all_present {
            return Err(Refusal::NO_PROCESS);
        }
        Ok(tables)
    }

    fn bytes(&self) -> Vec<u8> {
        let mut bytes = Vec::new();
        push_number(&mut bytes, self.n);
        present(self.n).for_each(|process| self.push_process(&mut bytes, process));
        bytes
    }

    fn push_process(&self, bytes: &mut Vec<u8>, process: Process) {
        let own = self.checkpoints.iter().filter(|of| of.process == process);
        push_number(bytes, own.clone().count() as u64);
        let places = || present(self.n).filter_map(|partner| partner.place_beside(process, self.n));
        let counters = own.flat_map(|of| places().map(|p| of.sent[p]).chain(places().map(|p| of.received[p])));
        counters.for_each(|counter| push_number(bytes, counter));
    }
}

/// The processes of a book of n, at most sixteen: of a larger n nothing but the number is read.
fn present(n: u64) -> impl Iterator<Item = Process> {
    Process::all(n.min(RECOVERY_LINE_PROCESSES as u64))
}

impl NewCheckpoint<'_> {
    /// At this checkpoint its process had sent so many messages to a partner, counted from the present line: but for those that
    /// the partner's oldest checkpoint had received.
    pub fn sent_to(self, partner: Process, count: Count) -> Self {
        match self.place_of(partner) {
            Some(place) => self.counters.sent[place] = count.number(),
            None => *self.misplaced |= count.number() != 0,
        }
        self
    }

    /// At this checkpoint its process had received so many messages from a partner, counted from the present line: but for those
    /// that its own oldest checkpoint had received, of which question 7 asks that none are counted.
    pub fn received_from(self, partner: Process, count: Count) -> Self {
        match self.place_of(partner) {
            Some(place) => self.counters.received[place] = count.number(),
            None => *self.misplaced |= count.number() != 0,
        }
        self
    }

    fn place_of(&self, partner: Process) -> Option<usize> {
        partner.place_beside(self.counters.process, self.n)
    }
}
