//! The calls over 64-bit words, with the parameters of `include/recovery_line.h`.
//!
//! Each answers 0 if it accepts, and else the number of the first question that fails; it writes
//! only if it accepts. A slice of words, or of sixteen counters, of the wrong length is refused first of
//! all.

use crate::book::{self, Book, Counter};
use crate::layout::{shape_of, Decoder, Encoder};
use crate::machine::{process_question, purpose_question};
use crate::{initiator, journal, line, participant, resend, restart, session};

pub use crate::layout::{
    initiator_words, participant_words, session_words, INITIATOR_WORDS, LENGTHS_WORDS, ORDER_WORDS, PAIR_WORDS,
    PARTICIPANT_WORDS, RESEND_WORDS, SESSION_WORDS, SET_WORDS, SHAPE_WORDS,
};

/// The answer to a slice of words, or of sixteen counters, of the wrong length.
pub const WRONG_LENGTH: u32 = 100;

fn length_question(words: &[u64], length: usize) -> Result<(), u32> {
    if words.len() == length {
        Ok(())
    } else {
        Err(WRONG_LENGTH)
    }
}

/// The number that a call answers.
fn answer(call: impl FnOnce() -> Result<(), u32>) -> u32 {
    call().err().unwrap_or(0)
}

/// `recovery_line_read`
pub fn read(bytes: &[u8], shape: &mut [u64], sent: &mut [Counter], received: &mut [Counter]) -> u32 {
    answer(|| {
        length_question(shape, SHAPE_WORDS)?;
        let read = book::read(bytes, sent, received)?;
        Encoder::new(shape).shape(&read);
        Ok(())
    })
}

/// `recovery_line_journal`
pub fn journal(bytes: &[u8], shape: &mut [u64], sent: &mut [Counter], received: &mut [Counter]) -> u32 {
    answer(|| {
        length_question(shape, SHAPE_WORDS)?;
        let read = journal::read_journal(bytes, sent, received)?;
        Encoder::new(shape).shape(&read);
        Ok(())
    })
}

/// `recovery_line_check`
pub fn check(shape: &[u64], sent: &[Counter], received: &[Counter]) -> u32 {
    answer(|| {
        length_question(shape, SHAPE_WORDS)?;
        book::check(&shape_of(shape), sent, received)
    })
}

/// `recovery_line_write`
pub fn write(shape: &[u64], sent: &[Counter], received: &[Counter], out: &mut [u8], length: &mut u64) -> u32 {
    answer(|| {
        length_question(shape, SHAPE_WORDS)?;
        *length = book::write(&shape_of(shape), sent, received, out)? as u64;
        Ok(())
    })
}

/// `recovery_line_test_set`: `pair` becomes 0 0 if the set is consistent.
pub fn test_set(shape: &[u64], sent: &[Counter], received: &[Counter], set: &[u64], pair: &mut [u64]) -> u32 {
    answer(|| {
        length_question(shape, SHAPE_WORDS)?;
        length_question(pair, PAIR_WORDS)?;
        let set = set.try_into().map_err(|_| WRONG_LENGTH)?;
        let (j, p) = line::test_set(&shape_of(shape), sent, received, set)?.unwrap_or((0, 0));
        pair.copy_from_slice(&[j, p]);
        Ok(())
    })
}

/// `recovery_line_test_checkpoint`: `partner` becomes 0 if there is none.
pub fn test_checkpoint(
    shape: &[u64],
    sent: &[Counter],
    received: &[Counter],
    process: u64,
    checkpoint: u64,
    known: &[Counter],
    partner: &mut u64,
) -> u32 {
    answer(|| {
        length_question(shape, SHAPE_WORDS)?;
        let known = known.try_into().map_err(|_| WRONG_LENGTH)?;
        let offender = line::test_checkpoint(&shape_of(shape), sent, received, process, checkpoint, known)?;
        *partner = offender.unwrap_or(0);
        Ok(())
    })
}

/// `recovery_line_find`
pub fn find(shape: &[u64], sent: &[Counter], received: &[Counter], line: &mut [u64], passed: &mut u64) -> u32 {
    answer(|| {
        length_question(shape, SHAPE_WORDS)?;
        length_question(line, SET_WORDS)?;
        let (found, newer) = line::find_line(&shape_of(shape), sent, received)?;
        line.copy_from_slice(&found);
        *passed = newer;
        Ok(())
    })
}

/// `recovery_line_participant_first`
pub fn participant_first(
    shape: &[u64],
    sent: &[Counter],
    received: &[Counter],
    me: u64,
    initiator: u64,
    purpose: u64,
    state: &mut [u64],
) -> u32 {
    answer(|| {
        length_question(shape, SHAPE_WORDS)?;
        length_question(state, PARTICIPANT_WORDS)?;
        let shape = shape_of(shape);
        let first = participant::participant_first(&shape, sent, received, me, initiator, purpose)?;
        Encoder::new(state).participant(&first);
        Ok(())
    })
}

/// `recovery_line_participant_receive`
pub fn participant_receive(
    state: &mut [u64],
    shape: &[u64],
    sent: &[Counter],
    received: &[Counter],
    message: &[u8],
    out: &mut [u8],
    lengths: &mut [u64],
) -> u32 {
    answer(|| {
        length_question(state, PARTICIPANT_WORDS)?;
        length_question(shape, SHAPE_WORDS)?;
        length_question(lengths, LENGTHS_WORDS)?;
        let book = Book::accepted(&shape_of(shape), sent, received)?;
        let mut decoder = Decoder::new(state);
        let mut participant = decoder.participant();
        participant.process_questions(book.n)?;
        purpose_question(participant.purpose)?;
        decoder.question()?;
        let written = participant.receive(&book, message, out)?;
        Encoder::new(state).participant(&participant);
        lengths.copy_from_slice(&written);
        Ok(())
    })
}

/// `recovery_line_initiator_begin`
#[allow(clippy::too_many_arguments)]
pub fn initiator_begin(
    shape: &[u64],
    sent: &[Counter],
    received: &[Counter],
    me: u64,
    purpose: u64,
    state: &mut [u64],
    out: &mut [u8],
    lengths: &mut [u64],
) -> u32 {
    answer(|| {
        length_question(shape, SHAPE_WORDS)?;
        length_question(state, INITIATOR_WORDS)?;
        length_question(lengths, LENGTHS_WORDS)?;
        let shape = shape_of(shape);
        let (begun, written) = initiator::initiator_begin(&shape, sent, received, me, purpose, out)?;
        Encoder::new(state).initiator(&begun);
        lengths.copy_from_slice(&written);
        Ok(())
    })
}

/// `recovery_line_initiator_receive`
pub fn initiator_receive(
    state: &mut [u64],
    shape: &[u64],
    sent: &[Counter],
    received: &[Counter],
    message: &[u8],
    out: &mut [u8],
    lengths: &mut [u64],
) -> u32 {
    answer(|| {
        length_question(state, INITIATOR_WORDS)?;
        length_question(shape, SHAPE_WORDS)?;
        length_question(lengths, LENGTHS_WORDS)?;
        let book = Book::accepted(&shape_of(shape), sent, received)?;
        let mut decoder = Decoder::new(state);
        let mut initiator = decoder.initiator();
        process_question(book.n, initiator.me)?;
        purpose_question(initiator.purpose)?;
        decoder.question()?;
        let written = initiator.receive(&book, message, out)?;
        Encoder::new(state).initiator(&initiator);
        lengths.copy_from_slice(&written);
        Ok(())
    })
}

/// `recovery_line_session_start`
pub fn session_start(
    shape: &[u64],
    sent: &[Counter],
    received: &[Counter],
    initiator: u64,
    purpose: u64,
    session: &mut [u64],
    strands: &mut [u8],
) -> u32 {
    answer(|| {
        length_question(shape, SHAPE_WORDS)?;
        length_question(session, SESSION_WORDS)?;
        let shape = shape_of(shape);
        let started = session::session_start(&shape, sent, received, initiator, purpose, strands)?;
        Encoder::new(session).session(&started);
        Ok(())
    })
}

/// `recovery_line_session_turn`
pub fn session_turn(
    session: &mut [u64],
    shape: &[u64],
    sent: &[Counter],
    received: &[Counter],
    p: u64,
    strands: &mut [u8],
) -> u32 {
    answer(|| {
        length_question(session, SESSION_WORDS)?;
        length_question(shape, SHAPE_WORDS)?;
        let book = Book::accepted(&shape_of(shape), sent, received)?;
        let mut decoder = Decoder::new(session);
        let mut decoded = decoder.session();
        decoded.name_questions(book.n, p)?;
        decoder.question()?;
        decoded.turn(&book, p, strands)?;
        Encoder::new(session).session(&decoded);
        Ok(())
    })
}

/// `recovery_line_search`
#[allow(clippy::too_many_arguments)]
pub fn search(
    shape: &[u64],
    sent: &[Counter],
    received: &[Counter],
    initiator: u64,
    purpose: u64,
    set: &mut [u64],
    newer: &mut u64,
    rounds: &mut u64,
    messages: &mut u64,
) -> u32 {
    answer(|| {
        length_question(shape, SHAPE_WORDS)?;
        length_question(set, SET_WORDS)?;
        let found = session::search(&shape_of(shape), sent, received, initiator, purpose)?;
        set.copy_from_slice(&found.set);
        *newer = found.newer;
        *rounds = u64::from(found.rounds);
        *messages = u64::from(found.messages);
        Ok(())
    })
}

/// `recovery_line_move`
pub fn move_line(
    shape: &mut [u64],
    sent: &mut [Counter],
    received: &mut [Counter],
    purpose: u64,
    order: &mut [u64],
) -> u32 {
    answer(|| {
        length_question(shape, SHAPE_WORDS)?;
        length_question(order, ORDER_WORDS)?;
        let mut moved = shape_of(shape);
        let given = restart::move_line(&mut moved, sent, received, purpose)?;
        Encoder::new(shape).shape(&moved);
        Encoder::new(order).order(&given);
        Ok(())
    })
}

/// `recovery_line_restart_order`
pub fn restart_order(shape: &[u64], sent: &[Counter], received: &[Counter], purpose: u64, order: &mut [u64]) -> u32 {
    answer(|| {
        length_question(shape, SHAPE_WORDS)?;
        length_question(order, ORDER_WORDS)?;
        let given = restart::restart_order(&shape_of(shape), sent, received, purpose)?;
        Encoder::new(order).order(&given);
        Ok(())
    })
}

/// `recovery_line_write_resend`
pub fn write_resend(
    shape: &[u64],
    sent: &[Counter],
    received: &[Counter],
    purpose: u64,
    out: &mut [u8],
    length: &mut u64,
) -> u32 {
    answer(|| {
        length_question(shape, SHAPE_WORDS)?;
        *length = resend::write_resend(&shape_of(shape), sent, received, purpose, out)? as u64;
        Ok(())
    })
}

/// `recovery_line_read_resend`
pub fn read_resend(n: u64, bytes: &[u8], resend: &mut [u64]) -> u32 {
    answer(|| {
        length_question(resend, RESEND_WORDS)?;
        let list = resend::read_resend(n, bytes)?;
        Encoder::new(resend).resend(&list);
        Ok(())
    })
}
