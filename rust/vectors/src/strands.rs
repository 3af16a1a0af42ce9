//! Where the strands' messages lie in the lent buffer: a slot for each participant, in rising order, as long as the longest
//! message.
//! Worked out here anew, so that a session with another layout shows.

use crate::session::Session;
use crate::tables::PROCESSES;
use crate::text::Answer;
use std::ops::Range;

/// The most bytes of a number, of the four numbers before a message's pairs, and of a pair.
const GROUPS: usize = 5;
const HEAD_BYTES: usize = 4;
const PAIR_BYTES: usize = 1 + GROUPS;

/// The longest messages of sixteen processes, one for each participant.
pub const STRANDS: usize = (PROCESSES - 1) * longest(PROCESSES);

/// A mark for each strand.
pub type Marks = [bool; PROCESSES];

const fn longest(n: usize) -> usize {
    HEAD_BYTES + (n - 1) * PAIR_BYTES
}

/// How many bytes the longest message of n processes takes; of no such n, as many as there can be.
fn slot_size(n: u64) -> usize {
    match n {
        1..=16 => longest(n as usize),
        _ => longest(PROCESSES),
    }
}

/// Where process k's slot begins, k from 0, and where a message of some bytes ends there, within the buffer.
pub fn slot(session: &Session, k: usize, length: u64) -> Range<usize> {
    let before = if k > 0 && session.initiator() <= k as u64 {
        k - 1
    } else {
        k
    };
    let start = STRANDS.min(before * slot_size(session.n()));
    let length = usize::try_from(length).unwrap_or(STRANDS);
    start..start + length.min(STRANDS - start)
}

/// The message that waits on process k's strand.
fn waiting(session: &Session, k: usize) -> Range<usize> {
    slot(session, k, session.lengths()[k])
}

/// What newly waits after an accepted call: where nothing waited before, and on the strand whose message was delivered.
pub fn newly(before: &Session, after: &Session, delivered: u64) -> Marks {
    let (was, is) = (before.lengths(), after.lengths());
    std::array::from_fn(|k| is[k] != 0 && (was[k] == 0 || k as u64 + 1 == delivered))
}

/// Does everything that does not newly wait, wait as before, and nothing on the strand whose message was delivered?
pub fn rest_waits(before: &Session, after: &Session, marked: &Marks, delivered: u64) -> bool {
    (0..PROCESSES).all(|k| {
        let kept = if k as u64 + 1 == delivered {
            0
        } else {
            before.lengths()[k]
        };
        marked[k] || after.lengths()[k] == kept
    })
}

/// Are the bytes the same as before, but for the messages that newly wait?
pub fn rest_untouched(before: &[u8], after: &[u8], session: &Session, marked: &Marks) -> bool {
    let mut may_differ = vec![false; STRANDS];
    for k in (0..PROCESSES).filter(|&k| marked[k]) {
        may_differ[waiting(session, k)].fill(true);
    }
    (0..STRANDS).all(|i| before[i] == after[i] || may_differ[i])
}

/// `wrote`, and the messages on the strands that are marked.
pub fn put_wrote(answer: &mut Answer, session: &Session, strands: &[u8], marked: &Marks) {
    answer.put("wrote");
    for k in (0..PROCESSES).filter(|&k| marked[k]) {
        answer.put_message(k + 1, &strands[waiting(session, k)]);
    }
}
