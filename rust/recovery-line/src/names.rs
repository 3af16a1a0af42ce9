//! Processes, checkpoints, counts and purposes: small integers that are never interchangeable.

use crate::refusal::Refusal;
use crate::sys;
use std::fmt;

/// Gives a tuple struct of one number its constructor, with what becomes of a number that is none of its kind, its accessor and
/// its display.
macro_rules! number {
    ($name:ident, $any:literal) => {
        impl $name {
            #[doc = concat!("Takes any number: ", $any)]
            #[must_use]
            pub const fn new(number: u64) -> Self {
                $name(number)
            }

            /// The number itself.
            #[must_use]
            pub const fn number(self) -> u64 {
                self.0
            }
        }

        impl fmt::Display for $name {
            fn fmt(&self, f: &mut fmt::Formatter<'_>) -> fmt::Result {
                fmt::Display::fmt(&self.0, f)
            }
        }
    };
}

/// A process, numbered from 1.
#[derive(Clone, Copy, Debug, PartialEq, Eq, PartialOrd, Ord, Hash)]
pub struct Process(u64);
number!(
    Process,
    "whether there is such a process is asked by each call that it is lent to."
);

impl Process {
    /// The processes that a book of `n` has, in rising order.
    pub fn all(n: u64) -> impl DoubleEndedIterator<Item = Process> + Clone {
        (1..=n).map(Process)
    }

    /// The process whose place in a row of sixteen that is.
    pub(crate) const fn at(place: usize) -> Process {
        Process(place as u64 + 1)
    }

    /// Its place in a row of sixteen, if it is one of the processes from 1 to n.
    pub(crate) fn place_among(self, n: u64) -> Option<usize> {
        self.place().filter(|_| self.0 <= n)
    }

    /// Its place in a row of `other`, if it is another one of the processes from 1 to n: nobody sends to himself.
    pub(crate) fn place_beside(self, other: Process, n: u64) -> Option<usize> {
        self.place_among(n).filter(|_| self != other)
    }

    /// Its place in a row of sixteen, if it is one of sixteen.
    pub(crate) fn place(self) -> Option<usize> {
        let place = usize::try_from(self.0.checked_sub(1)?).ok()?;
        (place < sys::RECOVERY_LINE_PROCESSES).then_some(place)
    }
}

/// A checkpoint of a process, numbered from 1, the oldest.
#[derive(Clone, Copy, Debug, PartialEq, Eq, PartialOrd, Ord, Hash)]
pub struct Checkpoint(u64);
number!(
    Checkpoint,
    "whether there is such a checkpoint is asked by each call that it is lent to."
);

impl Checkpoint {
    /// The oldest checkpoint of every process.
    pub const OLDEST: Checkpoint = Checkpoint(1);
}

/// A number of messages that a checkpoint had sent or received, counted from the present line. In a
/// [`Repeat`](crate::Repeat) it names a message: the one by which the count came to that number.
#[derive(Clone, Copy, Debug, PartialEq, Eq, PartialOrd, Ord, Hash)]
pub struct Count(u64);
number!(
    Count,
    "one above the largest counter, 4,294,967,294, is refused by the book that it is given to."
);

impl Count {
    /// The counter in a word or an entry; `None` if it is not known.
    pub(crate) fn known(number: u64) -> Option<Count> {
        (number != u64::from(sys::RECOVERY_LINE_NOT_KNOWN)).then_some(Count(number))
    }

    /// The entry that says what is known to have been sent. A count above every counter permits as much as "not known".
    pub(crate) fn entry(known: Option<Count>) -> sys::Counter {
        known.map_or(sys::RECOVERY_LINE_NOT_KNOWN, |count| {
            count.0.min(sys::RECOVERY_LINE_NOT_KNOWN.into()) as sys::Counter
        })
    }
}

/// What a search, a restart order or a move is for.
#[derive(Clone, Copy, Debug, PartialEq, Eq, Hash)]
pub enum Purpose {
    /// The line's checkpoints become the oldest: older ones are dropped, newer ones are kept, and nobody restarts. Counters are
    /// then counted from the new line ([`Tables::move_line`](crate::Tables::move_line)).
    Advance,
    /// No search: everybody goes back to checkpoint 1, and newer ones are dropped. Counters stay.
    Restart,
    /// Both: only the line's checkpoints are kept, with what crosses the line in their sent counters, and everybody restarts from
    /// them.
    AdvanceAndRestart,
}

impl Purpose {
    /// Its number: 1, 2 or 3.
    #[must_use]
    pub const fn number(self) -> u64 {
        match self {
            Purpose::Advance => sys::RECOVERY_LINE_ADVANCE,
            Purpose::Restart => sys::RECOVERY_LINE_RESTART,
            Purpose::AdvanceAndRestart => sys::RECOVERY_LINE_ADVANCE_AND_RESTART,
        }
    }

    /// The purpose of that number; any other than 1, 2 and 3 is refused by question 11.
    pub const fn from_number(number: u64) -> Result<Purpose, Refusal> {
        match number {
            sys::RECOVERY_LINE_ADVANCE => Ok(Purpose::Advance),
            sys::RECOVERY_LINE_RESTART => Ok(Purpose::Restart),
            sys::RECOVERY_LINE_ADVANCE_AND_RESTART => Ok(Purpose::AdvanceAndRestart),
            _ => Err(Refusal::NO_PURPOSE),
        }
    }

    /// The purpose in a word that [`Purpose::from_number`] takes.
    pub(crate) const fn in_word(word: u64) -> Purpose {
        match word {
            sys::RECOVERY_LINE_ADVANCE => Purpose::Advance,
            sys::RECOVERY_LINE_RESTART => Purpose::Restart,
            _ => Purpose::AdvanceAndRestart,
        }
    }
}

impl TryFrom<u64> for Purpose {
    type Error = Refusal;

    fn try_from(number: u64) -> Result<Purpose, Refusal> {
        Purpose::from_number(number)
    }
}

impl fmt::Display for Purpose {
    fn fmt(&self, f: &mut fmt::Formatter<'_>) -> fmt::Result {
        f.write_str(match self {
            Purpose::Advance => "advance",
            Purpose::Restart => "restart",
            Purpose::AdvanceAndRestart => "advance and restart",
        })
    }
}
