//! Restart orders.

use crate::by_process::ByProcess;
use crate::names::{Checkpoint, Process};
use crate::refusal::Refusal;
use crate::resend::{Repeat, Repeats, Resend};
use crate::sys::{
    RECOVERY_LINE_ORDER_AFTER_AT as AFTER, RECOVERY_LINE_ORDER_BEFORE_AT as BEFORE,
    RECOVERY_LINE_ORDER_RESEND_AT as RESEND, RECOVERY_LINE_ORDER_WORDS,
};
use std::fmt;

/// What one process does in a restart order.
#[derive(Clone, Copy, Debug, PartialEq, Eq, Hash)]
pub struct Restart {
    /// The process.
    pub process: Process,
    /// The checkpoint that it restarts from, numbered as before the move. With [`Purpose::Advance`](crate::Purpose::Advance)
    /// the line's checkpoint, which becomes the oldest: nobody restarts.
    pub from: Checkpoint,
    /// How many checkpoints older than it are dropped.
    pub before: u64,
    /// How many checkpoints newer than it are dropped.
    pub after: u64,
}

/// A restart order: for each process the checkpoint restarted from, and how many older and newer ones are dropped; and what is
/// sent again.
#[derive(Clone, Copy, PartialEq, Eq, Hash)]
#[must_use = "an order that nobody follows restarts no process"]
pub struct Order([u64; RECOVERY_LINE_ORDER_WORDS]);

impl Order {
    pub(crate) fn from_array(words: [u64; RECOVERY_LINE_ORDER_WORDS]) -> Order {
        Order(words)
    }

    /// What a process does; `None` for an absent one.
    #[must_use]
    pub fn of(&self, process: Process) -> Option<Restart> {
        let place = process.place()?;
        let from = self.0[place];
        (from != 0).then(|| Restart {
            process,
            from: Checkpoint::new(from),
            before: self.0[BEFORE + place],
            after: self.0[AFTER + place],
        })
    }

    /// What each process does, in rising order.
    pub fn iter(&self) -> ByProcess<Restart> {
        ByProcess::of(|process| self.of(process))
    }

    /// What each sender sends each receiver again, rising by sender, then receiver: of each channel the messages that the
    /// sender's checkpoint of this order has sent and the receiver's has not received, as counted before the move. With them
    /// repeated, every receiver has what was sent to it. With [`Purpose::Advance`](crate::Purpose::Advance) nobody restarts, and
    /// so nobody sends anything again: these messages cross the line.
    ///
    /// ```
    /// use recovery_line::{Count, Process, Purpose, Tables};
    ///
    /// # fn main() -> Result<(), recovery_line::Refusal> {
    /// // Process 2 has sent 4 messages to process 1, which has received the first of them.
    /// let tables = Tables::read(&[2, 2, 0, 0, 0, 1, 2, 0, 0, 4, 0])?;
    /// let order = tables.restart_order(Purpose::AdvanceAndRestart)?;
    /// let repeat = order.sent_again().next().expect("three messages cross the line");
    /// assert_eq!((repeat.sender, repeat.receiver), (Process::new(2), Process::new(1)));
    /// assert_eq!((repeat.first, repeat.last), (Count::new(2), Count::new(4)));
    /// assert_eq!(order.sent_again().len(), 1);
    /// # Ok(())
    /// # }
    /// ```
    pub fn sent_again(&self) -> Repeats<'_> {
        Repeats::of(&self.0[RESEND..])
    }

    /// What a sender sends a receiver again; `None` for nothing.
    #[must_use]
    pub fn repeat(&self, sender: Process, receiver: Process) -> Option<Repeat> {
        Repeat::in_words(&self.0[RESEND..], sender, receiver)
    }

    /// What is sent again, as [`Resend::read`] gives it for the list that [`Tables::write_resend`](crate::Tables::write_resend)
    /// writes.
    pub fn resend(&self) -> Resend {
        Resend::from_array(std::array::from_fn(|place| self.0[RESEND + place]))
    }

    /// Sixteen checkpoints restarted from, sixteen numbers of older ones that are dropped, sixteen of newer ones, and the words
    /// of [`Order::resend`].
    #[must_use]
    pub fn words(&self) -> &[u64; RECOVERY_LINE_ORDER_WORDS] {
        &self.0
    }

    /// The order of [`RECOVERY_LINE_ORDER_WORDS`] words; any other number of them is refused by [`Refusal::WRONG_LENGTH`].
    pub fn from_words(words: &[u64]) -> Result<Order, Refusal> {
        words.try_into().map(Order).map_err(|_| Refusal::WRONG_LENGTH)
    }
}

impl fmt::Debug for Order {
    /// As its restarts, and what is sent again if anything is.
    fn fmt(&self, f: &mut fmt::Formatter<'_>) -> fmt::Result {
        f.write_str("Order ")?;
        f.debug_list().entries(self).finish()?;
        if self.sent_again().len() == 0 {
            return Ok(());
        }
        f.write_str(", sent again ")?;
        f.debug_list().entries(self.sent_again()).finish()
    }
}

impl IntoIterator for Order {
    type Item = Restart;
    type IntoIter = ByProcess<Restart>;

    fn into_iter(self) -> ByProcess<Restart> {
        self.iter()
    }
}

impl IntoIterator for &Order {
    type Item = Restart;
    type IntoIter = ByProcess<Restart>;

    fn into_iter(self) -> ByProcess<Restart> {
        self.iter()
    }
}
