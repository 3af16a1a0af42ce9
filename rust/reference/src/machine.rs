//! What both machines share: the questions of names, and rows of which nothing is known.

use crate::book::{others, Row, MARK, PROCESSES};

/// "Counts of rounds and deliveries are below 4,294,967,295."
pub const TALLY_LIMIT: u32 = 4_294_967_295;

/// Question 10 of one process.
pub(crate) fn process_question(n: usize, process: u64) -> Result<(), u32> {
    if (1..=n as u64).contains(&process) {
        Ok(())
    } else {
        Err(10)
    }
}

/// Question 11.
pub(crate) fn purpose_question(purpose: u64) -> Result<(), u32> {
    if (1..=3).contains(&purpose) {
        Ok(())
    } else {
        Err(11)
    }
}

/// Question 10 of a participant: "other than the initiator".
pub(crate) fn participant_question(n: usize, process: u64, initiator: u64) -> Result<(), u32> {
    process_question(n, process)?;
    process_question(n, initiator)?;
    if process != initiator {
        Ok(())
    } else {
        Err(10)
    }
}

/// "Not known" for every process but `own`; "the diagonal and the entries of absent processes are
/// zero".
pub(crate) fn not_known(n: usize, own: usize) -> Row {
    let mut row = [0; PROCESSES];
    others(n, own).for_each(|process| row[process] = MARK);
    row
}

/// Whether the entries of `own` and of absent processes are zero.
pub(crate) fn unused_is_zero(row: &Row, n: usize, own: usize) -> bool {
    row[own] == 0 && row[n..].iter().all(|&entry| entry == 0)
}
