//! What to send again: the list that a restart order has, and lists as bytes.

use crate::names::{Count, Process, Purpose};
use crate::raw;
use crate::refusal::Refusal;
use crate::sys::{
    RECOVERY_LINE_MATRIX_ENTRIES as CHANNELS, RECOVERY_LINE_MOST_RESEND_BYTES, RECOVERY_LINE_PROCESSES as PROCESSES,
    RECOVERY_LINE_RESEND_LAST_AT as LAST, RECOVERY_LINE_RESEND_WORDS,
};
use crate::tables::Tables;
use std::fmt;
use std::iter::FusedIterator;
use std::ops::Range;

/// What one process sends another one again: the messages from `first` to `last`, both included, as counted before the move.
#[derive(Clone, Copy, Debug, PartialEq, Eq, Hash)]
pub struct Repeat {
    /// The process that sends them.
    pub sender: Process,
    /// The process that they are for.
    pub receiver: Process,
    /// The number of the first one: one more than the receiver has received.
    pub first: Count,
    /// The number of the last one: as many as the sender has sent.
    pub last: Count,
}

impl Repeat {
    /// The messages, one after another.
    pub fn messages(&self) -> impl DoubleEndedIterator<Item = Count> + Clone {
        (self.first.number()..=self.last.number()).map(Count::new)
    }

    /// What the words of a list say of the channel at a place; `None` where it has no entry.
    fn at(words: &[u64], place: usize) -> Option<Repeat> {
        (words[place] != 0).then(|| Repeat {
            sender: Process::at(place / PROCESSES),
            receiver: Process::at(place % PROCESSES),
            first: Count::new(words[place]),
            last: Count::new(words[LAST + place]),
        })
    }

    /// What they say of the channel from a sender to a receiver.
    pub(crate) fn in_words(words: &[u64], sender: Process, receiver: Process) -> Option<Repeat> {
        Repeat::at(words, sender.place()? * PROCESSES + receiver.place()?)
    }
}

/// What is sent again, rising by sender, then receiver: [`Order::sent_again`](crate::Order::sent_again) and [`Resend::iter`]
/// give it.
#[derive(Clone, Debug)]
#[must_use = "iterators do nothing unless they are consumed"]
pub struct Repeats<'a> {
    words: &'a [u64],
    places: Range<usize>,
}

impl<'a> Repeats<'a> {
    /// The entries of a list of so many words.
    pub(crate) fn of(words: &'a [u64]) -> Repeats<'a> {
        Repeats {
            words,
            places: 0..CHANNELS,
        }
    }
}

impl Iterator for Repeats<'_> {
    type Item = Repeat;

    fn next(&mut self) -> Option<Repeat> {
        self.places.find_map(|place| Repeat::at(self.words, place))
    }

    fn size_hint(&self) -> (usize, Option<usize>) {
        let left = self.places.clone().filter(|&place| self.words[place] != 0).count();
        (left, Some(left))
    }
}

impl DoubleEndedIterator for Repeats<'_> {
    fn next_back(&mut self) -> Option<Repeat> {
        let words = self.words;
        self.places.by_ref().rev().find_map(|place| Repeat::at(words, place))
    }
}

impl ExactSizeIterator for Repeats<'_> {}

impl FusedIterator for Repeats<'_> {}

/// A list of what to send again, which crosses between machines as bytes: [`Tables::write_resend`] writes it.
///
/// ```
/// use recovery_line::{Purpose, Resend, Tables};
///
/// # fn main() -> Result<(), recovery_line::Refusal> {
/// // Process 2 has sent 4 messages to process 1, which has received the first of them.
/// let tables = Tables::read(&[2, 2, 0, 0, 0, 1, 2, 0, 0, 4, 0])?;
/// let bytes = tables.write_resend(Purpose::AdvanceAndRestart)?;
/// assert_eq!(bytes, [1, 2, 1, 2, 4]);
///
/// // Wherever the sender is:
/// let resend = Resend::read(2, &bytes)?;
/// for repeat in &resend {
///     println!("{} sends {} messages {} to {}", repeat.sender, repeat.receiver, repeat.first, repeat.last);
/// }
/// assert_eq!(resend, tables.restart_order(Purpose::AdvanceAndRestart)?.resend());
/// # Ok(())
/// # }
/// ```
#[derive(Clone, PartialEq, Eq, Hash)]
#[must_use = "what nobody sends again is not received"]
pub struct Resend(Box<[u64; RECOVERY_LINE_RESEND_WORDS]>);

impl Resend {
    /// Reads a list, among n processes. It is refused, or read to its end: a list has one form. Its messages may have any
    /// number up to 4,294,967,295.
    ///
    /// Refused by: 4 (n), 3 (the count), then entry by entry 3, 10, 21, and 21 by what is left over.
    pub fn read(n: u64, bytes: &[u8]) -> Result<Resend, Refusal> {
        let mut words = Box::new([0; RECOVERY_LINE_RESEND_WORDS]);
        raw::read_resend(n, bytes, &mut words[..])?;
        Ok(Resend(words))
    }

    pub(crate) fn from_array(words: [u64; RECOVERY_LINE_RESEND_WORDS]) -> Resend {
        Resend(Box::new(words))
    }

    /// What a sender sends a receiver again; `None` for nothing.
    #[must_use]
    pub fn of(&self, sender: Process, receiver: Process) -> Option<Repeat> {
        Repeat::in_words(&self.0[..], sender, receiver)
    }

    /// What is sent again, rising by sender, then receiver.
    pub fn iter(&self) -> Repeats<'_> {
        Repeats::of(&self.0[..])
    }

    /// The first messages, a row of sixteen for each sender, then the last ones; 0 for a channel that has no entry.
    #[must_use]
    pub fn words(&self) -> &[u64; RECOVERY_LINE_RESEND_WORDS] {
        &self.0
    }

    /// The list of [`RECOVERY_LINE_RESEND_WORDS`] words; any other number of them is refused by [`Refusal::WRONG_LENGTH`].
    pub fn from_words(words: &[u64]) -> Result<Resend, Refusal> {
        words
            .try_into()
            .map(Resend::from_array)
            .map_err(|_| Refusal::WRONG_LENGTH)
    }
}

impl<'a> IntoIterator for &'a Resend {
    type Item = Repeat;
    type IntoIter = Repeats<'a>;

    fn into_iter(self) -> Repeats<'a> {
        self.iter()
    }
}

impl fmt::Debug for Resend {
    /// As its entries.
    fn fmt(&self, f: &mut fmt::Formatter<'_>) -> fmt::Result {
        f.write_str("Resend ")?;
        f.debug_list().entries(self).finish()
    }
}

impl Tables {
    /// Writes the list of what the restart order for a purpose has sent again
    /// ([`Order::sent_again`](crate::Order::sent_again)); the whole book is needed
    /// ([Between machines](crate#between-machines)).
    ///
    /// Refused by: the tables' questions.
    pub fn write_resend(&self, purpose: Purpose) -> Result<Vec<u8>, Refusal> {
        let mut bytes = vec![0; RECOVERY_LINE_MOST_RESEND_BYTES];
        let length = self.write_resend_to(purpose, &mut bytes)?;
        bytes.truncate(length);
        Ok(bytes)
    }

    /// Writes the list to the start of a buffer, whose other bytes stay, and gives its length;
    /// [`RECOVERY_LINE_MOST_RESEND_BYTES`] bytes always suffice.
    ///
    /// Refused by: the tables' questions, 17 (the room).
    pub fn write_resend_to(&self, purpose: Purpose, out: &mut [u8]) -> Result<usize, Refusal> {
        let mut length = 0;
        raw::write_resend(
            self.shape(),
            &self.sent()[..],
            &self.received()[..],
            purpose.number(),
            out,
            &mut length,
        )?;
        Ok(length as usize)
    }
}
