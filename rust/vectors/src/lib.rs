//! What the programs share that run test vectors: each reads lines from standard input, makes the calls that a line
//! says, and prints what is answered. The answer that a line states is not taken from it, so that what is printed can
//! be compared with it. Where something else that must hold does not, what is printed ends in an exclamation mark and a
//! word.

#![deny(unsafe_code)]

pub mod books;
#[allow(unsafe_code)]
pub mod calls;
mod cells;
pub mod edited_tables;
pub mod edits;
pub mod given;
pub mod lists;
pub mod machine;
pub mod mail;
pub mod moves;
pub mod session;
pub mod session_edits;
pub mod sets;
pub mod strands;
pub mod tables;
pub mod taken_off;
pub mod text;
pub mod trial;

use recovery_line::Counter;

/// What stands in whatever is lent before a call writes to it, so that a call that is refused, and what it does not
/// write, shows.
pub const IN_BYTES: u8 = 0xAA;
pub const IN_SENT: Counter = 0xAAAA_AAAA;
pub const IN_RECEIVED: Counter = 0x5555_5555;
pub const IN_WORDS: u64 = 0xAAAA_AAAA_AAAA_AAAA;
