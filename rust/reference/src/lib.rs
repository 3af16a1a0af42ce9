//! The recovery line of checkpointing processes: document 01, and of document 02 the journal (E1), the
//! first pair at fault (E3), messages on their way when the line moves (E4) and what to send again (E5),
//! in plain Rust.
//!
//! Each call puts the questions of 01 and 02 that concern it, in turn. A refusal is `Err` with the number
//! of the first question that fails, and changes nothing lent or owned. No call relies on an
//! earlier one: tables, states and sessions are asked anew each time.
//!
//! Processes and checkpoints count from 1 in all public values; absent processes have 0.

#![forbid(unsafe_code)]

mod book;
mod initiator;
mod journal;
mod layout;
mod line;
mod machine;
mod message;
mod participant;
mod resend;
mod restart;
mod session;
mod varint;
pub mod words;

pub use book::{check, read, write, Counter, Shape, BOOK_BYTES, CHECKPOINTS, ENTRIES, MARK, PROCESSES};
pub use initiator::{initiator_begin, initiator_receive, Initiator, Matrix};
pub use journal::{read_journal, JOURNAL_BYTES};
pub use line::{find_line, test_checkpoint, test_set};
pub use machine::TALLY_LIMIT;
pub use participant::{participant_first, participant_receive, Participant, BEFORE, ENDED, SEARCHING};
pub use resend::{read_resend, write_resend, Repeat};
pub use restart::{move_line, restart_order, Order};
pub use session::{search, session_start, session_turn, Searched, Session};
