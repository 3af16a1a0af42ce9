//! Moves that are tried: the restart order, the moved tables, and what must hold of them.

use crate::given::Given;
use crate::tables::{Lent, Tables, BUFFER, PROCESSES};
use crate::taken_off::TakenOff;
use crate::text::{self, Answer};
use crate::{calls, IN_WORDS};
use recovery_line::sys;

/// The purpose that advances the line, and that of a bare restart.
pub const ADVANCE: u64 = 1;
pub const RESTART: u64 = 2;

const WORDS: usize = sys::RECOVERY_LINE_ORDER_WORDS;

/// Sixteen checkpoints restarted from, how many go before and after each, and what is sent again.
#[derive(Clone, Copy, PartialEq)]
pub struct Order([u64; WORDS]);

/// What stands in an order before a move, and before one is asked for alone: not the same, so that what neither writes
/// shows.
const IN_MOVED: Order = Order([IN_WORDS; WORDS]);
const IN_ASKED: Order = Order([!IN_WORDS; WORDS]);

impl Order {
    /// The order that is asked for alone, or the question that refuses.
    pub fn asked(lent: Lent, purpose: u64) -> Result<Order, u32> {
        let mut order = IN_ASKED;
        match calls::restart_order(lent, purpose, &mut order.0) {
            0 => Ok(order),
            question => Err(question),
        }
    }

    /// The checkpoint that a process, counted from 0, restarts from.
    pub fn from(&self, process: usize) -> u64 {
        self.0[process]
    }

    pub fn before(&self, process: usize) -> u64 {
        self.0[PROCESSES + process]
    }

    pub fn after(&self, process: usize) -> u64 {
        self.0[2 * PROCESSES + process]
    }

    /// The words of what is sent again.
    pub fn resend(&self) -> &[u64] {
        &self.0[sys::RECOVERY_LINE_ORDER_RESEND_AT..]
    }
}

/// What a move answered, and what it left.
pub struct Moved {
    pub question: u32,
    pub tables: Tables,
    pub order: Order,
}

impl Moved {
    /// A move of whole tables.
    pub fn of(tables: &Tables, purpose: u64) -> Moved {
        Moved::lent(tables, Given::all(tables.shape).entries(), purpose)
    }

    /// A move of tables of which so many entries are lent.
    pub fn lent(tables: &Tables, entries: [usize; 2], purpose: u64) -> Moved {
        let (mut tables, mut order) = (tables.clone(), IN_MOVED);
        let question = calls::move_line(&mut tables, entries, purpose, &mut order.0);
        Moved {
            question,
            tables,
            order,
        }
    }
}

/// What a line says.
struct Call {
    tables: Tables,
    given: Given,
    purpose: u64,
}

/// What is printed for edits of the tables, and a book and a purpose: the question that refuses, or 0, the moved book and
/// the restart order.
pub fn try_fields(edits: &str, fields: &str) -> Option<Answer> {
    let (book, fields) = text::first(fields);
    let mut tables = Tables::of_field(book)?;
    let purpose = text::decimal(text::first(fields).0)?;
    let mut given = Given::all(tables.shape);
    given.edit_all(edits, &mut tables.counters)?;
    tables.shape = given.shape;
    Some(try_call(&Call { tables, given, purpose }))
}

/// The order is asked for, and then the move is made: both have the same answer.
fn try_call(call: &Call) -> Answer {
    let mut answer = Answer::default();
    let mut order = IN_ASKED;
    let question = calls::restart_order(call.given.lent(&call.tables.counters), call.purpose, &mut order.0);
    let moved = Moved::lent(&call.tables, call.given.entries(), call.purpose);
    if moved.question == 0 {
        put_moved(&mut answer, &moved);
        expect_moved(&mut answer, call, &moved);
        answer.expect(question == 0 && order == moved.order, "order");
    } else {
        answer.put(moved.question);
        answer.expect(moved.tables == call.tables, "tables");
        answer.expect(moved.order == IN_MOVED, "none");
        answer.expect(question == moved.question && order == IN_ASKED, "order");
    }
    answer
}

/// `0`, the moved book, and from:before:after for each process.
fn put_moved(answer: &mut Answer, moved: &Moved) {
    let Moved { tables, order, .. } = moved;
    answer.put("0 ");
    match tables.lent().write(BUFFER).bytes() {
        Some(book) => answer.put_bytes(book),
        None => answer.put("?"),
    }
    for j in 0..tables.processes() {
        let (from, before, after) = (order.from(j), order.before(j), order.after(j));
        answer.put(format_args!(" {from}:{before}:{after}"));
    }
}

/// What must hold of a move that is not refused.
fn expect_moved(answer: &mut Answer, call: &Call, moved: &Moved) {
    let tables = &moved.tables;
    answer.expect(calls::check(tables.lent()) == 0, "check");
    answer.expect(has_oldest_line(tables), "line");
    answer.expect(stays(tables), "again");
    answer.expect(goes_by_line(call, &moved.order), "from");
    let off = TakenOff::by(&moved.order, &call.tables);
    answer.expect(off.leaves(&call.tables, tables), "off");
}

/// Is a set checkpoint 1 of each of n processes, and 0 of absent ones?
fn is_oldest(set: &[u64], n: u64) -> bool {
    (0..).zip(set).all(|(j, &r)| r == u64::from(j < n))
}

/// Is the tables' line checkpoint 1 of each process?
fn has_oldest_line(tables: &Tables) -> bool {
    let found = tables.lent().find_line();
    found.is_ok_and(|(line, _)| is_oldest(&line, tables.shape[0]))
}

/// Moved once more with purpose 1, are the tables still the same?
fn stays(tables: &Tables) -> bool {
    let again = Moved::of(tables, 1);
    again.question == 0 && again.tables == *tables
}

/// Does a move go by the line of the tables as they were, with purpose 2 by the oldest checkpoints?
fn goes_by_line(call: &Call, order: &Order) -> bool {
    let from = &order.0[..PROCESSES];
    if call.purpose == RESTART {
        return is_oldest(from, call.tables.shape[0]);
    }
    let found = call.tables.lent().find_line();
    found.is_ok_and(|(line, _)| line == from)
}
