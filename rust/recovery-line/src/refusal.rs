//! Why a call refuses.

use crate::sys;
use std::error::Error;
use std::fmt;
use std::num::NonZeroU32;

/// The first question that a call fails; the call has then changed nothing that was lent to it.
///
/// The questions are numbered as in the repository's README, section "Questions"; [`Refusal::sentence`] has them too.
#[derive(Clone, Copy, PartialEq, Eq, PartialOrd, Ord, Hash)]
pub struct Refusal(NonZeroU32);

impl Refusal {
    /// The refusal of a slice of words, or of sixteen counters, whose length is not the named one.
    pub const WRONG_LENGTH: Refusal = Refusal::numbered(sys::RECOVERY_LINE_WRONG_LENGTH);
    /// The refusal of a purpose that is not 1, 2 or 3.
    pub(crate) const NO_PURPOSE: Refusal = Refusal::numbered(11);
    /// The refusal of a counter that stands where none belongs.
    pub(crate) const NOT_UNUSED: Refusal = Refusal::numbered(9);
    /// The refusal of a process that there is not.
    pub(crate) const NO_PROCESS: Refusal = Refusal::numbered(10);
    /// The refusal of a state that does not fit.
    pub(crate) const MISFIT: Refusal = Refusal::numbered(13);
    /// The refusal of a message that is not formed.
    pub(crate) const NOT_FORMED: Refusal = Refusal::numbered(14);

    const fn numbered(number: u32) -> Refusal {
        match NonZeroU32::new(number) {
            Some(number) => Refusal(number),
            None => Refusal(NonZeroU32::MIN),
        }
    }

    /// What the answer of a call of the C interface says: 0 accepts, every other number refuses.
    pub fn from_answer(answer: u32) -> Result<(), Refusal> {
        match NonZeroU32::new(answer) {
            Some(question) => Err(Refusal(question)),
            None => Ok(()),
        }
    }

    /// The number of the question, or 100 for a wrong length.
    #[must_use]
    pub const fn question(self) -> u32 {
        self.0.get()
    }

    /// The question in words, as README has it; for a wrong length, what is wrong.
    #[must_use]
    pub const fn sentence(self) -> &'static str {
        match self.question() {
            1 => "Are there at most 65,536 book bytes?",
            2 => "Has each table 4,096 entries?",
            3 => "Is the number whole, shortest, at most 5 bytes and 4,294,967,295?",
            4 => "Is n from 1 to 16?",
            5 => "Is the count at least 1 and the sum so far at most 256?",
            6 => "Is the counter other than 4,294,967,295?",
            7 => "Of a received counter: is it zero, in an oldest checkpoint?",
            8 => "Is it no lower than the same counter one checkpoint before?",
            9 => "Does nothing follow, and in tables, is everything unused zero?",
            10 => "Is each process named from 1 to n (a participant: other than the initiator)?",
            11 => "Is the purpose 1, 2 or 3?",
            12 => "Does each named checkpoint exist?",
            13 => "Does the state fit the tables?",
            14 => "Is the message formed (purposes 1 to 3, processes 1 to n), purpose 2 only in an invitation?",
            15 => {
                "Is it awaited here: right sender, purpose, kind, and in a first report (the sender's row all \
                 \"not known\") n - 1 pairs?"
            }
            16 => "Is each counter lower than the entry now held (by the initiator, in its matrix)?",
            17 => "Do the bytes to be written fit the buffer?",
            18 => "Is a message waiting on that strand?",
            19 => "Is the event formed: its kind 1, 2 or 3, its numbers, and a partner other than the process?",
            20 => "Of a receipt: is a message underway from the partner to the process?",
            21 => {
                "Does the list rise by sender, then receiver, with two processes and a first message from 1 to the last \
                 in each entry, and nothing after it?"
            }
            sys::RECOVERY_LINE_WRONG_LENGTH => "A slice of words, or of sixteen counters, has the wrong length.",
            _ => "The specification has no such question.",
        }
    }
}

impl fmt::Display for Refusal {
    /// As "refused by question 4: Is n from 1 to 16?".
    fn fmt(&self, f: &mut fmt::Formatter<'_>) -> fmt::Result {
        let what = if *self == Refusal::WRONG_LENGTH {
            ""
        } else {
            "question "
        };
        write!(f, "refused by {what}{}: {}", self.question(), self.sentence())
    }
}

impl fmt::Debug for Refusal {
    /// With the sentence: this is what `unwrap` shows, and a `main` that returns a refusal.
    fn fmt(&self, f: &mut fmt::Formatter<'_>) -> fmt::Result {
        f.debug_tuple("Refusal").field(&self.0).field(&self.sentence()).finish()
    }
}

impl Error for Refusal {}
