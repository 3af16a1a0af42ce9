//! The library's calls. Each answers the question that refuses, 0 for none. The calls are made on copies, see
//! [`Cells`].

use crate::cells::Cells;
use crate::machine::Role;
use crate::tables::{Lent, Tables};
use recovery_line::{sys, Counter};

/// Calls a function with slices, then values, then slices, and perhaps values again; a slice is passed as its pointer and its
/// length.
macro_rules! call {
    ($function:expr, [$($slice:expr),*], [$($value:expr),*], [$($last:expr),*] $(, [$($number:expr),*])?) => {{
        let function = $function;
        // SAFETY: every pointer is that of cells of its own, which are initialised, live until the call is back, and
        // are as many as the length says; every value that is a pointer is that of a number of the caller's.
        unsafe {
            function(
                $($slice.pointer(), $slice.len(),)*
                $($value,)*
                $($last.pointer(), $last.len(),)*
                $($($number,)*)?
            )
        }
    }};
}

/// Tables that a call may only read.
struct Reading {
    shape: Cells<u64>,
    sent: Cells<Counter>,
    received: Cells<Counter>,
}

impl Reading {
    fn of(lent: Lent) -> Reading {
        Reading {
            shape: Cells::of(lent.shape),
            sent: Cells::of(lent.sent),
            received: Cells::of(lent.received),
        }
    }

    fn expect_same(&self, lent: Lent) {
        self.shape.expect_same(lent.shape);
        self.sent.expect_same(lent.sent);
        self.received.expect_same(lent.received);
    }
}

/// A call that reads bytes into a shape and two tables.
type FillingCall =
    unsafe extern "C" fn(*const u8, usize, *mut u64, usize, *mut Counter, usize, *mut Counter, usize) -> u32;

fn fill(call: FillingCall, bytes: &[u8], shape: &mut [u64], sent: &mut [Counter], received: &mut [Counter]) -> u32 {
    let (mut byte_cells, mut shape_cells) = (Cells::of(bytes), Cells::of(shape));
    let (mut sent_cells, mut received_cells) = (Cells::of(sent), Cells::of(received));
    let question = call!(call, [byte_cells, shape_cells, sent_cells, received_cells], [], []);
    byte_cells.expect_same(bytes);
    shape_cells.put_into(shape);
    sent_cells.put_into(sent);
    received_cells.put_into(received);
    question
}

pub fn read(book: &[u8], shape: &mut [u64], sent: &mut [Counter], received: &mut [Counter]) -> u32 {
    fill(sys::recovery_line_read, book, shape, sent, received)
}

pub fn journal(journal: &[u8], shape: &mut [u64], sent: &mut [Counter], received: &mut [Counter]) -> u32 {
    fill(sys::recovery_line_journal, journal, shape, sent, received)
}

pub fn check(lent: Lent) -> u32 {
    let mut t = Reading::of(lent);
    let question = call!(sys::recovery_line_check, [t.shape, t.sent, t.received], [], []);
    t.expect_same(lent);
    question
}

pub fn write(lent: Lent, out: &mut [u8], length: &mut u64) -> u32 {
    let mut t = Reading::of(lent);
    let mut cells = Cells::of(out);
    let question = call!(
        sys::recovery_line_write,
        [t.shape, t.sent, t.received, cells],
        [length],
        []
    );
    t.expect_same(lent);
    cells.put_into(out);
    question
}

pub fn test_set(lent: Lent, set: &[u64], pair: &mut [u64]) -> u32 {
    let mut t = Reading::of(lent);
    let (mut set_cells, mut cells) = (Cells::of(set), Cells::of(pair));
    let question = call!(
        sys::recovery_line_test_set,
        [t.shape, t.sent, t.received, set_cells, cells],
        [],
        []
    );
    t.expect_same(lent);
    set_cells.expect_same(set);
    cells.put_into(pair);
    question
}

pub fn test_checkpoint(lent: Lent, process: u64, checkpoint: u64, known: &[Counter], partner: &mut u64) -> u32 {
    let mut t = Reading::of(lent);
    let mut cells = Cells::of(known);
    let question = call!(
        sys::recovery_line_test_checkpoint,
        [t.shape, t.sent, t.received],
        [process, checkpoint],
        [cells],
        [partner]
    );
    t.expect_same(lent);
    cells.expect_same(known);
    question
}

pub fn find(lent: Lent, line: &mut [u64], passed: &mut u64) -> u32 {
    let mut t = Reading::of(lent);
    let mut cells = Cells::of(line);
    let question = call!(
        sys::recovery_line_find,
        [t.shape, t.sent, t.received, cells],
        [passed],
        []
    );
    t.expect_same(lent);
    cells.put_into(line);
    question
}

pub fn participant_first(lent: Lent, me: u64, initiator: u64, purpose: u64, state: &mut [u64]) -> u32 {
    let mut t = Reading::of(lent);
    let mut cells = Cells::of(state);
    let question = call!(
        sys::recovery_line_participant_first,
        [t.shape, t.sent, t.received],
        [me, initiator, purpose],
        [cells]
    );
    t.expect_same(lent);
    cells.put_into(state);
    question
}

pub fn initiator_begin(
    lent: Lent,
    me: u64,
    purpose: u64,
    state: &mut [u64],
    out: &mut [u8],
    lengths: &mut [u64],
) -> u32 {
    let mut t = Reading::of(lent);
    let (mut cells, mut out_cells, mut length_cells) = (Cells::of(state), Cells::of(out), Cells::of(lengths));
    let question = call!(
        sys::recovery_line_initiator_begin,
        [t.shape, t.sent, t.received],
        [me, purpose],
        [cells, out_cells, length_cells]
    );
    t.expect_same(lent);
    cells.put_into(state);
    out_cells.put_into(out);
    length_cells.put_into(lengths);
    question
}

/// A machine of either role receives a message.
pub fn receive(role: Role, state: &mut [u64], lent: Lent, message: &[u8], out: &mut [u8], lengths: &mut [u64]) -> u32 {
    let mut t = Reading::of(lent);
    let (mut cells, mut bytes) = (Cells::of(state), Cells::of(message));
    let (mut out_cells, mut length_cells) = (Cells::of(out), Cells::of(lengths));
    let function = match role {
        Role::Participant => sys::recovery_line_participant_receive,
        Role::Initiator => sys::recovery_line_initiator_receive,
    };
    let question = call!(
        function,
        [cells, t.shape, t.sent, t.received, bytes, out_cells, length_cells],
        [],
        []
    );
    t.expect_same(lent);
    bytes.expect_same(message);
    cells.put_into(state);
    out_cells.put_into(out);
    length_cells.put_into(lengths);
    question
}

pub fn session_start(lent: Lent, initiator: u64, purpose: u64, session: &mut [u64], strands: &mut [u8]) -> u32 {
    let mut t = Reading::of(lent);
    let (mut cells, mut bytes) = (Cells::of(session), Cells::of(strands));
    let question = call!(
        sys::recovery_line_session_start,
        [t.shape, t.sent, t.received],
        [initiator, purpose],
        [cells, bytes]
    );
    t.expect_same(lent);
    cells.put_into(session);
    bytes.put_into(strands);
    question
}

pub fn session_turn(session: &mut [u64], lent: Lent, p: u64, strands: &mut [u8]) -> u32 {
    let mut t = Reading::of(lent);
    let (mut cells, mut bytes) = (Cells::of(session), Cells::of(strands));
    let question = call!(
        sys::recovery_line_session_turn,
        [cells, t.shape, t.sent, t.received],
        [p],
        [bytes]
    );
    t.expect_same(lent);
    cells.put_into(session);
    bytes.put_into(strands);
    question
}

/// Moves the line in tables of which so many entries are lent.
pub fn move_line(tables: &mut Tables, entries: [usize; 2], purpose: u64, order: &mut [u64]) -> u32 {
    let sent = &mut tables.counters.sent[..entries[0]];
    let received = &mut tables.counters.received[..entries[1]];
    let (mut shape_cells, mut cells) = (Cells::of(&tables.shape), Cells::of(order));
    let (mut sent_cells, mut received_cells) = (Cells::of(sent), Cells::of(received));
    let question = call!(
        sys::recovery_line_move,
        [shape_cells, sent_cells, received_cells],
        [purpose],
        [cells]
    );
    shape_cells.put_into(&mut tables.shape);
    sent_cells.put_into(sent);
    received_cells.put_into(received);
    cells.put_into(order);
    question
}

pub fn write_resend(lent: Lent, purpose: u64, out: &mut [u8], length: &mut u64) -> u32 {
    let mut t = Reading::of(lent);
    let mut cells = Cells::of(out);
    let question = call!(
        sys::recovery_line_write_resend,
        [t.shape, t.sent, t.received],
        [purpose],
        [cells],
        [length]
    );
    t.expect_same(lent);
    cells.put_into(out);
    question
}

pub fn read_resend(n: u64, bytes: &[u8], resend: &mut [u64]) -> u32 {
    let (mut byte_cells, mut cells) = (Cells::of(bytes), Cells::of(resend));
    let question = call!(sys::recovery_line_read_resend, [], [n], [byte_cells, cells]);
    byte_cells.expect_same(bytes);
    cells.put_into(resend);
    question
}

pub fn restart_order(lent: Lent, purpose: u64, order: &mut [u64]) -> u32 {
    let mut t = Reading::of(lent);
    let mut cells = Cells::of(order);
    let question = call!(
        sys::recovery_line_restart_order,
        [t.shape, t.sent, t.received],
        [purpose],
        [cells]
    );
    t.expect_same(lent);
    cells.put_into(order);
    question
}
