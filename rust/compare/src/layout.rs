//! The layouts of `recovery_line.h`, written down a second time: where each number stands in a slice of words.

use recovery_line::sys;

/// Most processes, and the length of a row.
pub const PROCESSES: usize = 16;
/// Most checkpoints of all processes.
pub const CHECKPOINTS: usize = 256;
/// Most bytes of a book.
pub const BOOK_BYTES: usize = 65536;
/// Most bytes of a journal.
pub const JOURNAL_BYTES: usize = 65536;
/// The largest number of a journal, whatever a book's may be.
pub const JOURNAL_LARGEST: u64 = 4_294_967_295;
/// Entries of each table.
pub const TABLE_ENTRIES: usize = CHECKPOINTS * PROCESSES;
/// An entry.
pub type Counter = sys::Counter;
/// The counter that is not known.
pub const NOT_KNOWN: u64 = 4_294_967_295;
/// The largest counter.
pub const LARGEST: u64 = NOT_KNOWN - 1;
/// What counts of rounds and of deliveries stay below.
pub const TALLY_LIMIT: u64 = 4_294_967_295;

/// Words of a shape.
pub const SHAPE_WORDS: usize = 1 + PROCESSES;
/// Words of a set or line, and of lengths.
pub const SET_WORDS: usize = PROCESSES;
/// Words of a pair at fault.
pub const PAIR_WORDS: usize = 2;
/// Words of a list of what to send again, and where its last messages begin.
pub const RESEND_LAST: usize = PROCESSES * PROCESSES;
pub const RESEND_WORDS: usize = 2 * RESEND_LAST;
/// Where that list begins in a restart order, and all words of one.
pub const ORDER_RESEND: usize = 3 * PROCESSES;
pub const ORDER_WORDS: usize = ORDER_RESEND + RESEND_WORDS;

/// Places in a participant's words.
pub mod participant {
    use super::PROCESSES;

    pub const N: usize = 0;
    pub const PROCESS: usize = N + 1;
    pub const INITIATOR: usize = PROCESS + 1;
    pub const PURPOSE: usize = INITIATOR + 1;
    pub const STAGE: usize = PURPOSE + 1;
    pub const CANDIDATE: usize = STAGE + 1;
    pub const ROW: usize = CANDIDATE + 1;
    pub const COLUMN: usize = ROW + PROCESSES;
    pub const WORDS: usize = COLUMN + PROCESSES;
    pub const BEFORE_INVITATION: u64 = 0;
    pub const SEARCHING: u64 = 1;
    pub const ENDED: u64 = 2;
}

/// Places in an initiator's words.
pub mod initiator {
    use super::PROCESSES;

    pub const N: usize = 0;
    pub const PROCESS: usize = N + 1;
    pub const PURPOSE: usize = PROCESS + 1;
    pub const ENDED: usize = PURPOSE + 1;
    pub const CANDIDATE: usize = ENDED + 1;
    pub const ROUNDS: usize = CANDIDATE + 1;
    pub const AWAITED: usize = ROUNDS + 1;
    pub const MATRIX: usize = AWAITED + PROCESSES;
    pub const COPY: usize = MATRIX + PROCESSES * PROCESSES;
    pub const WORDS: usize = COPY + PROCESSES * PROCESSES;
}

/// Places in a session's words.
pub mod session {
    use super::{initiator, participant, PROCESSES};

    pub const N: usize = 0;
    pub const INITIATOR: usize = N + 1;
    pub const PURPOSE: usize = INITIATOR + 1;
    pub const MACHINE: usize = PURPOSE + 1;
    pub const PARTICIPANTS: usize = MACHINE + initiator::WORDS;
    pub const WAITING: usize = PARTICIPANTS + PROCESSES * participant::WORDS;
    pub const DELIVERED: usize = WAITING + PROCESSES;
    pub const WORDS: usize = DELIVERED + 1;

    /// Where the words of participant `p` begin.
    pub fn participant_at(p: usize) -> usize {
        PARTICIPANTS + (p - 1) * participant::WORDS
    }
}

const _: () = assert!(participant::WORDS == sys::RECOVERY_LINE_PARTICIPANT_WORDS);
const _: () = assert!(initiator::WORDS == sys::RECOVERY_LINE_INITIATOR_WORDS);
const _: () = assert!(session::WORDS == sys::RECOVERY_LINE_SESSION_WORDS);
const _: () = assert!(ORDER_WORDS == sys::RECOVERY_LINE_ORDER_WORDS);
const _: () = assert!(strand_bytes(16) == sys::RECOVERY_LINE_STRAND_BYTES(16));
const _: () = assert!(RESEND_BYTES == sys::RECOVERY_LINE_MOST_RESEND_BYTES);

/// Puts a number at each of some places.
pub fn put(words: &mut [u64], numbers: &[(usize, u64)]) {
    numbers.iter().for_each(|&(at, number)| words[at] = number);
}

/// The most bytes of a number, of the four numbers before a message's pairs, and of a pair.
const GROUPS: usize = 5;
const HEAD_BYTES: usize = 4;
const PAIR_BYTES: usize = 1 + GROUPS;

/// Bytes of the longest message among n processes.
pub const fn message_bytes(n: usize) -> usize {
    HEAD_BYTES + (n - 1) * PAIR_BYTES
}

/// Bytes that suffice for a session's strands, and for the messages of one step.
pub const fn strand_bytes(n: usize) -> usize {
    (n - 1) * message_bytes(n)
}

/// Bytes of the longest list of what to send again: a count of two, and for each channel two processes of one byte each and two
/// numbers.
pub const RESEND_BYTES: usize = 2 + PROCESSES * (PROCESSES - 1) * (2 + 2 * GROUPS);

/// Where the slot of participant `p`'s strand begins.
pub fn slot_start(n: usize, initiator: usize, p: usize) -> usize {
    let before = if p > initiator { p - 2 } else { p - 1 };
    before * message_bytes(n)
}

/// The participants of a search, rising.
pub fn participants(n: usize, initiator: usize) -> impl Iterator<Item = usize> {
    (1..=n).filter(move |&p| p != initiator)
}
