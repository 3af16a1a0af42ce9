//! Reads lines of lists of what to send again: of an order (edits of the tables, `order`, a book, a purpose), of a buffer for it
//! (edits, `room`, a book, a purpose, a number of bytes) and of lists to be read (`list`, n, the list), each with what must be
//! answered behind it. Prints for each what is answered: of an order the question that refuses, or 0, the list that is written
//! and its entries; of a buffer the question, or 0; of a list the question, or 0 and its entries. Only what is tried is taken
//! from a line.

use std::io;
use vectors::given::Given;
use vectors::lists::{self, Entry, Read};
use vectors::moves::{Moved, Order, ADVANCE, RESTART};
use vectors::tables::{Lent, Tables};
use vectors::text::{self, Answer};

/// The question of the room, and the answer to words of the wrong length.
const NO_ROOM: u32 = 17;
const WRONG_LENGTH: u32 = 100;

/// The most room that a line may lend.
const MOST_ROOM: u64 = 1 << 24;

fn main() -> io::Result<()> {
    let unreadable = || Answer::unreadable("?");
    text::answer_lines(|line| (!line.is_empty()).then(|| try_line(line).unwrap_or_else(unreadable)))
}

fn try_line(line: &str) -> Option<Answer> {
    let (edits, call) = text::edits_and_call(line, text::is_no_edit);
    let (kind, fields) = text::first(call);
    let (first, rest) = text::first(fields);
    let (second, rest) = text::first(rest);
    match kind {
        "order" => Call::of(edits, first, second)?.map_or_else(Some, |call| Some(try_order(&call))),
        "room" => {
            let room = text::decimal(text::first(rest).0).filter(|&room| room <= MOST_ROOM)?;
            Call::of(edits, first, second)?.map_or_else(Some, |call| Some(try_room(&call, room as usize)))
        }
        "list" if edits.is_empty() => Some(try_list(text::decimal(first)?, &text::joined_bytes(second)?)),
        _ => None,
    }
}

/// What a line says of an order.
struct Call {
    tables: Tables,
    given: Given,
    purpose: u64,
}

impl Call {
    /// Of edits, a book and a purpose; or what is answered to a book that is refused.
    fn of(edits: &str, book: &str, purpose: &str) -> Option<Result<Call, Answer>> {
        let (question, mut tables) = Tables::of_book(&text::joined_bytes(book)?);
        if question != 0 {
            let mut answer = Answer::default();
            answer.put(question);
            answer.expect(tables == Tables::unwritten(), "tables");
            return Some(Err(answer));
        }
        let mut given = Given::all(tables.shape);
        given.edit_all(edits, &mut tables.counters)?;
        tables.shape = given.shape;
        let purpose = text::decimal(purpose)?;
        Some(Ok(Call { tables, given, purpose }))
    }

    fn lent(&self) -> Lent<'_> {
        self.given.lent(&self.tables.counters)
    }
}

fn try_order(call: &Call) -> Answer {
    let mut answer = Answer::default();
    let written = call.lent().write_resend(call.purpose, lists::MOST_BYTES);
    let moved = Moved::lent(&call.tables, call.given.entries(), call.purpose);
    match (written.bytes(), Order::asked(call.lent(), call.purpose)) {
        (Some(list), Ok(order)) => {
            answer.put("0 ");
            answer.put_bytes(list);
            let entries = lists::entries(order.resend());
            lists::put(&mut answer, &entries);
            answer.expect(written.is_just(list), "write");
            answer.expect(moved.question == 0 && moved.order == order, "move");
            expect_list(&mut answer, call, list, &order);
            expect_moved(&mut answer, call, &moved, &entries);
        }
        (list, order) => {
            answer.put(written.question);
            answer.expect(list.is_none() && written.is_untouched(), "none");
            answer.expect(order.err() == Some(written.question), "order");
            answer.expect(moved.question == written.question, "move");
        }
    }
    answer.expect(refuses_lengths(call), "lengths");
    answer
}

/// What must hold of the list of an order.
fn expect_list(answer: &mut Answer, call: &Call, list: &[u8], order: &Order) {
    let entries = lists::entries(order.resend());
    let read = Read::of(call.tables.shape[0], list);
    answer.expect(read.question == 0 && read.words == order.resend(), "read");
    answer.expect(list == lists::bytes(&entries), "bytes");
    answer.expect(is_what_was_sent(&call.tables, order, &entries), "sent");
    answer.expect(
        call.lent().write_resend(call.purpose, list.len()).is_just(list),
        "exact",
    );
    let short = call.lent().write_resend(call.purpose, list.len().saturating_sub(1));
    answer.expect(short.question == NO_ROOM && short.is_untouched(), "short");
}

/// With the entries repeated, has every channel received what was sent: up to before the first, then from it to the last; and
/// all of it where there is none?
fn is_what_was_sent(tables: &Tables, order: &Order, entries: &[Entry]) -> bool {
    let n = tables.processes();
    let is_sent = |sender: usize, receiver: usize| {
        let sent = tables.sent(sender, order.from(sender), receiver);
        let received = tables.received(receiver, order.from(receiver), sender);
        let mut of_channel = entries.iter().filter(|e| (e.sender, e.receiver) == (sender, receiver));
        match (of_channel.next(), sent, received) {
            (Some(entry), Some(sent), Some(received)) => {
                received < sent && (entry.first, entry.last) == (received + 1, sent)
            }
            (None, Some(sent), Some(received)) => sent == received,
            _ => false,
        }
    };
    let is_channel = |entry: &Entry| entry.sender < n && entry.receiver < n && entry.sender != entry.receiver;
    entries.iter().all(is_channel) && (0..n).all(|p| (0..n).filter(|&q| q != p).all(|q| is_sent(p, q)))
}

/// What must hold of the moved book: its oldest checkpoints have sent what is sent again, and its own list for purpose 2 is the
/// same, counted from 1. With purpose 2 it is so already.
fn expect_moved(answer: &mut Answer, call: &Call, moved: &Moved, entries: &[Entry]) {
    let tables = &moved.tables;
    let on_their_way = |entry: &Entry| tables.sent(entry.sender, 1, entry.receiver) == Some(entry.messages());
    answer.expect(entries.iter().all(on_their_way), "flight");
    let from_one = lists::from_one(entries);
    let again = Order::asked(tables.lent(), RESTART).map(|order| lists::entries(order.resend()));
    answer.expect(again.is_ok_and(|again| again == from_one), "again");
    answer.expect(call.purpose != RESTART || entries == from_one, "one");
}

/// Are tables of another length refused by question 2, and a shape of another one by 100, with nothing written?
fn refuses_lengths(call: &Call) -> bool {
    let refuses = |lent: Lent, question: u32| {
        let written = lent.write_resend(call.purpose, lists::MOST_BYTES);
        written.question == question && written.is_untouched()
    };
    let lent = call.lent();
    let other_shape = Lent {
        shape: &lent.shape[1..],
        ..lent
    };
    lent.other_lengths().iter().all(|&other| refuses(other, 2)) && refuses(other_shape, WRONG_LENGTH)
}

fn try_room(call: &Call, room: usize) -> Answer {
    let mut answer = Answer::default();
    let written = call.lent().write_resend(call.purpose, room);
    answer.put(written.question);
    match call.lent().write_resend(call.purpose, lists::MOST_BYTES).bytes() {
        Some(list) if written.question == 0 => answer.expect(written.is_just(list), "write"),
        _ => answer.expect(written.is_untouched(), "changed"),
    }
    answer
}

fn try_list(n: u64, list: &[u8]) -> Answer {
    let mut answer = Answer::default();
    let read = Read::of(n, list);
    answer.put(read.question);
    if read.question == 0 {
        let entries = lists::entries(&read.words);
        lists::put(&mut answer, &entries);
        answer.expect(lists::bytes(&entries) == list, "bytes");
        answer.expect(is_written_again(n, list, &entries), "again");
    } else {
        answer.expect(read.is_untouched(), "changed");
    }
    let refuses = |words: usize| {
        let other = Read::into(n, list, words);
        other.question == WRONG_LENGTH && other.is_untouched()
    };
    let lengths = [0, lists::WORDS - 1, lists::WORDS + 1];
    answer.expect(lengths.into_iter().all(refuses), "words");
    answer
}

/// Has a book whose line these entries cross the same list, where a book can have them?
fn is_written_again(n: u64, list: &[u8], entries: &[Entry]) -> bool {
    let tables = lists::tables_with(n, entries);
    tables.is_none_or(|tables| tables.lent().write_resend(ADVANCE, list.len()).is_just(list))
}
