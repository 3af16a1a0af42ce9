//! Books in memory: the shape and the two tables.

use crate::builder::BookBuilder;
use crate::initiator::Initiator;
use crate::messages::Messages;
use crate::names::{Checkpoint, Count, Process, Purpose};
use crate::order::Order;
use crate::participant::Participant;
use crate::raw;
use crate::refusal::Refusal;
use crate::set::{Line, Search, Set};
use crate::sys::{
    Counter, RECOVERY_LINE_BOOK_BYTES, RECOVERY_LINE_INITIATOR_WORDS, RECOVERY_LINE_ORDER_WORDS,
    RECOVERY_LINE_PAIR_WORDS, RECOVERY_LINE_PARTICIPANT_WORDS, RECOVERY_LINE_PROCESSES, RECOVERY_LINE_SET_WORDS,
    RECOVERY_LINE_SHAPE_WORDS, RECOVERY_LINE_TABLE_ENTRIES,
};
use std::fmt;

/// The number of processes, and how many checkpoints each of sixteen has.
pub type Shape = [u64; RECOVERY_LINE_SHAPE_WORDS];

/// A table: a row of sixteen counters for each checkpoint.
pub type Table = Box<[Counter; RECOVERY_LINE_TABLE_ENTRIES]>;

/// A checkpoint book in memory: which checkpoints there are, and what each had sent and received.
///
/// Every method that can refuse puts the questions of tables first, those of [`Tables::check`]: so tables from elsewhere
/// ([`Tables::from_parts`]) are refused where they are wrong, and tables that were read from a book never are.
#[derive(Clone, PartialEq, Eq)]
#[must_use = "tables only say something when they are looked at"]
pub struct Tables {
    shape: Shape,
    sent: Table,
    received: Table,
}

impl Tables {
    /// Reads a checkpoint book.
    ///
    /// Refused by: 1, then along the book 3 to 9.
    pub fn read(bytes: &[u8]) -> Result<Tables, Refusal> {
        let mut tables = Tables::of_zeros();
        tables.read_over(bytes)?;
        Ok(tables)
    }

    /// Reads a checkpoint book in the place of this one, which stays if the new one is refused.
    ///
    /// Refused by: the questions of [`Tables::read`].
    pub fn read_over(&mut self, bytes: &[u8]) -> Result<(), Refusal> {
        raw::read(bytes, &mut self.shape, &mut self.sent[..], &mut self.received[..])
    }

    /// Reads a journal; [`Journal`](crate::Journal) writes one.
    ///
    /// A journal is n, then the events in the order in which they happened: kind (1 sent, 2 received, 3 checkpoint), process,
    /// and for 1 and 2 the partner. Checkpoint 1 of every process is there from the start.
    ///
    /// Refused by: 1, of n 3 and 4, then event by event 19, 10, 20, 5.
    ///
    /// ```
    /// use recovery_line::{Checkpoint, Count, Process, Tables};
    ///
    /// # fn main() -> Result<(), recovery_line::Refusal> {
    /// // Of two processes, 1 sends a message and checkpoints; then 2 receives it and checkpoints.
    /// let tables = Tables::read_journal(&[2, 1, 1, 2, 3, 1, 2, 2, 1, 3, 2])?;
    /// let (one, two, newest) = (Process::new(1), Process::new(2), Checkpoint::new(2));
    /// assert_eq!(tables.sent_to(one, newest, two), Some(Count::new(1)));
    /// assert_eq!(tables.received_from(two, newest, one), Some(Count::new(1)));
    /// # Ok(())
    /// # }
    /// ```
    pub fn read_journal(bytes: &[u8]) -> Result<Tables, Refusal> {
        let mut tables = Tables::of_zeros();
        tables.read_journal_over(bytes)?;
        Ok(tables)
    }

    /// Reads a journal in the place of this book, which stays if the journal is refused.
    ///
    /// Refused by: the questions of [`Tables::read_journal`].
    pub fn read_journal_over(&mut self, bytes: &[u8]) -> Result<(), Refusal> {
        raw::read_journal(bytes, &mut self.shape, &mut self.sent[..], &mut self.received[..])
    }

    /// Begins a book of n processes, to which checkpoints are appended one by one.
    pub fn builder(n: u64) -> BookBuilder {
        BookBuilder::new(n)
    }

    /// What a read fills: no book yet.
    fn of_zeros() -> Tables {
        Tables {
            shape: [0; RECOVERY_LINE_SHAPE_WORDS],
            sent: Box::new([0; RECOVERY_LINE_TABLE_ENTRIES]),
            received: Box::new([0; RECOVERY_LINE_TABLE_ENTRIES]),
        }
    }

    /// Takes a shape and two tables as they are.
    pub fn from_parts(shape: Shape, sent: Table, received: Table) -> Tables {
        Tables { shape, sent, received }
    }

    /// Gives back the shape, the sent and the received table.
    #[must_use]
    pub fn into_parts(self) -> (Shape, Table, Table) {
        (self.shape, self.sent, self.received)
    }

    /// Puts the questions of tables, and changes nothing.
    ///
    /// Refused by: 4, all of 5, then 6 to 8 in book order, then 9. These are the tables' questions.
    pub fn check(&self) -> Result<(), Refusal> {
        raw::check(&self.shape, &self.sent[..], &self.received[..])
    }

    /// Writes the book; of tables that were read from one, the same bytes.
    ///
    /// Refused by: the tables' questions.
    pub fn write(&self) -> Result<Vec<u8>, Refusal> {
        let mut bytes = vec![0; RECOVERY_LINE_BOOK_BYTES];
        let length = self.write_to(&mut bytes)?;
        bytes.truncate(length);
        Ok(bytes)
    }

    /// Writes the book to the start of a buffer, whose other bytes stay, and gives its length.
    ///
    /// Refused by: the tables' questions, 17 (the room).
    pub fn write_to(&self, out: &mut [u8]) -> Result<usize, Refusal> {
        let mut length = 0;
        raw::write(&self.shape, &self.sent[..], &self.received[..], out, &mut length)?;
        Ok(length as usize)
    }

    /// Tests a set: `None` if it is consistent, else the first pair (j, p) at fault, of the lowest j and for it the lowest p: j's
    /// checkpoint received more from p than p's had sent to j; the whole book is needed
    /// ([Between machines](crate#between-machines)).
    ///
    /// Refused by: the tables' questions, 12.
    ///
    /// ```
    /// use recovery_line::{Process, Tables};
    ///
    /// # fn main() -> Result<(), recovery_line::Refusal> {
    /// // Process 1's newest checkpoint has received a message from process 2, which that has not sent.
    /// let tables = Tables::read(&[2, 2, 0, 0, 0, 1, 1, 0, 0])?;
    /// let (one, two) = (Process::new(1), Process::new(2));
    /// assert_eq!(tables.test_set(&tables.newest())?, Some((one, two)));
    /// # Ok(())
    /// # }
    /// ```
    pub fn test_set(&self, set: &Set) -> Result<Option<(Process, Process)>, Refusal> {
        let mut pair = [0; RECOVERY_LINE_PAIR_WORDS];
        raw::test_set(&self.shape, &self.sent[..], &self.received[..], set.words(), &mut pair)?;
        Ok((pair != [0, 0]).then(|| (Process::new(pair[0]), Process::new(pair[1]))))
    }

    /// Tests one checkpoint of a process against what each other process is known to have sent to it, `None` for "not known",
    /// which permits everything: the lowest one from which it received more, `None` exactly if there is none.
    ///
    /// Refused by: the tables' questions, 10, 12.
    ///
    /// ```
    /// use recovery_line::{Checkpoint, Count, Process, Tables};
    ///
    /// # fn main() -> Result<(), recovery_line::Refusal> {
    /// let tables = Tables::read(&[
    ///     3, 2, 0, 0, 0, 0, 0, 0, 4, 5, // process 1 received 4 from process 2 and 5 from 3
    ///     2, 0, 0, 0, 0, 3, 0, 0, 0, // process 2 sent it 3
    ///     2, 0, 0, 0, 0, 7, 0, 0, 0, // process 3 sent it 7
    /// ])?;
    /// let (one, two, newest) = (Process::new(1), Process::new(2), Checkpoint::new(2));
    /// // Why can process 1 not stay on its newest checkpoint, where the others stay on theirs?
    /// let why = tables.test_checkpoint(one, newest, |partner| tables.sent_to(partner, newest, one))?;
    /// assert_eq!(why, Some(two));
    /// // Its oldest has received nothing.
    /// assert_eq!(tables.test_checkpoint(one, Checkpoint::OLDEST, |_| Some(Count::new(0)))?, None);
    /// // While nothing is known, nothing is against it.
    /// assert_eq!(tables.test_checkpoint(one, newest, |_| None)?, None);
    /// # Ok(())
    /// # }
    /// ```
    pub fn test_checkpoint(
        &self,
        process: Process,
        checkpoint: Checkpoint,
        known: impl Fn(Process) -> Option<Count>,
    ) -> Result<Option<Process>, Refusal> {
        let column: [Counter; RECOVERY_LINE_PROCESSES] =
            std::array::from_fn(|place| Count::entry(known(Process::at(place))));
        let mut partner = 0;
        raw::test_checkpoint(
            &self.shape,
            &self.sent[..],
            &self.received[..],
            process.number(),
            checkpoint.number(),
            &column,
            &mut partner,
        )?;
        Ok((partner != 0).then_some(Process::new(partner)))
    }

    /// Finds the line: the consistent set that is nowhere earlier than any other; the whole book is needed
    /// ([Between machines](crate#between-machines)).
    ///
    /// Refused by: the tables' questions.
    pub fn find_line(&self) -> Result<Line, Refusal> {
        let mut line = [0; RECOVERY_LINE_SET_WORDS];
        let mut passed = 0;
        raw::find_line(&self.shape, &self.sent[..], &self.received[..], &mut line, &mut passed)?;
        Ok(Line {
            set: Set::from_array(line),
            passed,
        })
    }

    /// Runs a search by messages from its start to its end, lowest waiting strand first; the whole book is needed
    /// ([Between machines](crate#between-machines)).
    ///
    /// Refused by: the tables' questions, 10.
    pub fn search(&self, initiator: Process, purpose: Purpose) -> Result<Search, Refusal> {
        let mut set = [0; RECOVERY_LINE_SET_WORDS];
        let (mut newer, mut rounds, mut messages) = (0, 0, 0);
        raw::search(
            &self.shape,
            &self.sent[..],
            &self.received[..],
            initiator.number(),
            purpose.number(),
            &mut set,
            &mut newer,
            &mut rounds,
            &mut messages,
        )?;
        Ok(Search {
            set: Set::from_array(set),
            newer,
            rounds,
            messages,
        })
    }

    /// Moves the line in these tables, and gives the restart order, whose checkpoints are numbered as before the move;
    /// the whole book is needed ([Between machines](crate#between-machines)).
    ///
    /// On the channel from one process to another, what the receiver's line checkpoint had received comes off at both ends: off
    /// what was sent, and off what was received. So the oldest checkpoints have received nothing then, and have sent what crosses
    /// the line. With [`Purpose::Restart`], by which the line stays, nothing comes off.
    ///
    /// Refused by: the tables' questions.
    ///
    /// ```
    /// use recovery_line::{Checkpoint, Count, Process, Purpose, Tables};
    ///
    /// # fn main() -> Result<(), recovery_line::Refusal> {
    /// // Process 2 has sent a message before its newest checkpoint, and process 1 has not received it yet.
    /// let mut tables = Tables::read(&[2, 1, 0, 0, 2, 0, 0, 1, 0])?;
    /// let (one, two) = (Process::new(1), Process::new(2));
    /// let order = tables.move_line(Purpose::Advance)?;
    /// assert_eq!(order.of(two).map(|restart| restart.from), Some(Checkpoint::new(2)));
    /// assert_eq!(tables.sent_to(two, Checkpoint::OLDEST, one), Some(Count::new(1)));
    /// # Ok(())
    /// # }
    /// ```
    pub fn move_line(&mut self, purpose: Purpose) -> Result<Order, Refusal> {
        let mut order = [0; RECOVERY_LINE_ORDER_WORDS];
        raw::move_line(
            &mut self.shape,
            &mut self.sent[..],
            &mut self.received[..],
            purpose.number(),
            &mut order,
        )?;
        Ok(Order::from_array(order))
    }

    /// Gives the restart order that [`Tables::move_line`] would give, and moves nothing;
    /// the whole book is needed ([Between machines](crate#between-machines)).
    ///
    /// Refused by: the tables' questions.
    pub fn restart_order(&self, purpose: Purpose) -> Result<Order, Refusal> {
        let mut order = [0; RECOVERY_LINE_ORDER_WORDS];
        raw::restart_order(
            &self.shape,
            &self.sent[..],
            &self.received[..],
            purpose.number(),
            &mut order,
        )?;
        Ok(Order::from_array(order))
    }

    /// Makes the machine of process `me`, which waits for the initiator's invitation. Who learns from the invitation who begins,
    /// and for what, calls [`Tables::invited`].
    ///
    /// Of the tables only the rows of process `me` matter beyond the check: [`BookBuilder::zeros_elsewhere`] makes such.
    ///
    /// Refused by: the tables' questions, 10.
    pub fn participant(&self, me: Process, initiator: Process, purpose: Purpose) -> Result<Participant, Refusal> {
        let mut state = [0; RECOVERY_LINE_PARTICIPANT_WORDS];
        raw::participant_first(
            &self.shape,
            &self.sent[..],
            &self.received[..],
            me.number(),
            initiator.number(),
            purpose.number(),
            &mut state,
        )?;
        Ok(Participant::from_array(state))
    }

    /// Begins a search, or with [`Purpose::Restart`] a bare restart: the machine of process `me`, and the invitations.
    ///
    /// Of the tables only the rows of process `me` matter beyond the check: [`BookBuilder::zeros_elsewhere`] makes such.
    ///
    /// Refused by: the tables' questions, 10.
    pub fn initiator(&self, me: Process, purpose: Purpose) -> Result<(Initiator, Messages), Refusal> {
        let mut state = Box::new([0; RECOVERY_LINE_INITIATOR_WORDS]);
        let messages = Messages::written(|out, lengths| {
            raw::initiator_begin(
                &self.shape,
                &self.sent[..],
                &self.received[..],
                me.number(),
                purpose.number(),
                &mut state[..],
                out,
                lengths,
            )
        })?;
        Ok((Initiator::from_boxed(state), messages))
    }

    /// The shape: n, then sixteen counts of checkpoints.
    #[must_use]
    pub fn shape(&self) -> &Shape {
        &self.shape
    }

    /// The sent counters.
    #[must_use]
    pub fn sent(&self) -> &[Counter; RECOVERY_LINE_TABLE_ENTRIES] {
        &self.sent
    }

    /// The received counters.
    #[must_use]
    pub fn received(&self) -> &[Counter; RECOVERY_LINE_TABLE_ENTRIES] {
        &self.received
    }
}

impl fmt::Debug for Tables {
    fn fmt(&self, f: &mut fmt::Formatter<'_>) -> fmt::Result {
        f.debug_struct("Tables")
            .field("shape", &self.shape)
            .finish_non_exhaustive()
    }
}
