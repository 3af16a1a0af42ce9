//! Lists of what to send again: those of orders, and others that are read, with what is claimed of both.

use crate::book::Book;
use crate::books::{any_book, small_book};
use crate::call::Call;
use crate::layout::{ORDER_RESEND, ORDER_WORDS, RESEND_BYTES};
use crate::lent::{Guarded, Lent};
use crate::lists::{any_list, longest_list, List};
use crate::move_claims::{Step, ADVANCE, RESTART};
use crate::random::Random;
use crate::resend_claims::{is_left_on_its_way, list_of};
use crate::runner::{Outcome, Runner};
use crate::scenarios::lent_tables;
use crate::tally::Kind;
use crate::variations::varied;
use crate::{damaged_lists, made, move_scenarios};

/// The list of a book's order, with each purpose: as claimed, written, read, and after the move.
pub fn orders(runner: &mut Runner, random: &mut Random) -> Option<()> {
    let book = if random.once_in(4) {
        small_book(random)
    } else {
        any_book(random)
    };
    for purpose in 1..=3 {
        let mut lent = lent_tables(&book);
        lent.result = Guarded::fresh(ORDER_WORDS);
        lent.names = [purpose, 0, 0];
        let outcome = runner.case(Kind::ValidList, Call::RestartOrder, lent.clone())?;
        let list = claimed_list(runner, &book, &outcome.left)?;
        let bytes = list.bytes();
        writes(runner, &book, purpose, &bytes)?;
        let to_write = lent_to_write(&book, purpose, RESEND_BYTES);
        for (call, lent) in [(Call::RestartOrder, &lent), (Call::WriteResend, &to_write)] {
            let (kind, other) = varied(random, call, lent);
            runner.case(kind, call, other)?;
        }
        reads(runner, Kind::ValidList, &list, &bytes)?;
        moves(runner, &book, purpose, &list)?;
    }
    Some(())
}

/// The list of an order or a move, of which all is as claimed.
pub fn claimed_list(runner: &mut Runner, book: &Book, left: &Lent) -> Option<List> {
    let purpose = left.names[0];
    let list = list_of(&Step::of(book, purpose), book.n(), left.result.lent());
    let what = list.as_ref().err().map_or("", String::as_str);
    runner.demand(list.is_ok(), &format!("what is claimed of a list: {what}"), left)?;
    let list = list.ok()?;
    runner.lists.add_order(purpose, &list);
    Some(list)
}

fn lent_to_write(book: &Book, purpose: u64, room: usize) -> Lent {
    let mut lent = lent_tables(book);
    lent.out = Guarded::fresh(room);
    lent.names = [purpose, 0, 0];
    lent
}

/// The list of a book's order is written, in just enough room, which is at most that of the longest.
fn writes(runner: &mut Runner, book: &Book, purpose: u64, bytes: &[u8]) -> Option<()> {
    let written = runner.case(
        Kind::ValidList,
        Call::WriteResend,
        lent_to_write(book, purpose, bytes.len()),
    )?;
    let left = &written.left;
    let same = written.answer == 0 && left.out.lent() == bytes && left.numbers[0] == bytes.len() as u64;
    runner.demand(same, "the list of the order is written", left)?;
    runner.demand(bytes.len() <= RESEND_BYTES, "no list is longer than the longest", left)
}

/// A list is read, and is the one that was written; by the wrapper too.
fn reads(runner: &mut Runner, kind: Kind, list: &List, bytes: &[u8]) -> Option<()> {
    let read = runner.case(kind, Call::ReadResend, Lent::to_read_list(list.n, bytes))?;
    let same = read.answer == 0 && read.left.result.lent() == list.words();
    runner.demand(same, "a list written and then read is the list", &read.left)?;
    let wrapped = made::list_read(list.n, bytes);
    runner.demand(
        wrapped.as_ref() == Ok(list),
        "the wrapper's reader reads it too",
        &read.left,
    )?;
    runner.lists.add_read(kind == Kind::DamagedList, list, bytes.len());
    Some(())
}

/// The move's order has the same list, its oldest checkpoints have sent what that has, and the moved book's own list for
/// purpose 2 is the same, counted from 1.
fn moves(runner: &mut Runner, book: &Book, purpose: u64, list: &List) -> Option<()> {
    let mut lent = lent_tables(book);
    lent.result = Guarded::fresh(ORDER_WORDS);
    lent.names = [purpose, 0, 0];
    let outcome = runner.case(Kind::ValidList, Call::Move, lent)?;
    let same = outcome.left.result.lent()[ORDER_RESEND..] == list.words();
    runner.demand(same, "a move has the list of its order", &outcome.left)?;
    let moved = move_scenarios::after_move(runner, book, &outcome.left)?;
    writes(runner, &moved, RESTART, &list.from_one().bytes())
}

/// What a move left on its way is what its order has sent again.
pub fn leaves_list(runner: &mut Runner, book: &Book, moved: &Book, left: &Lent) -> Option<()> {
    let list = claimed_list(runner, book, left)?;
    let holds = is_left_on_its_way(&list, moved);
    let what = holds.as_ref().err().map_or("", String::as_str);
    runner.demand(holds.is_ok(), &format!("what is claimed of a list: {what}"), left)
}

/// Lists that are read: valid ones, of all lengths, and damaged ones. What is accepted is written back.
pub fn lists(runner: &mut Runner, random: &mut Random) -> Option<()> {
    let list = if random.once_in(8) {
        longest_list(random)
    } else {
        any_list(random)
    };
    let bytes = list.bytes();
    reads(runner, Kind::ValidList, &list, &bytes)?;
    writes_again(runner, random, &list, &bytes)?;
    for _ in 0..10 {
        let (n, damaged) = damaged_lists::damaged(random, &list);
        let lent = Lent::to_read_list(n, &damaged);
        let outcome = runner.case(Kind::DamagedList, Call::ReadResend, lent.clone())?;
        after_read(runner, random, &outcome, &damaged)?;
        if random.once_in(3) {
            let (kind, other) = varied(random, Call::ReadResend, &lent);
            runner.case(kind, Call::ReadResend, other)?;
        }
    }
    Some(())
}

/// An accepted list has the bytes of its entries, and is written back; one refused by 21 is counted by its cause.
fn after_read(runner: &mut Runner, random: &mut Random, outcome: &Outcome, bytes: &[u8]) -> Option<()> {
    let left = &outcome.left;
    if outcome.answer == 21 {
        runner.lists.add_refused(bytes);
    }
    if outcome.answer != 0 {
        return Some(());
    }
    let list = List::of_words(left.names[0], left.result.lent());
    runner.demand(
        list.bytes() == bytes,
        "a list read and then written has its old bytes",
        left,
    )?;
    reads(runner, Kind::DamagedList, &list, bytes)?;
    writes_again(runner, random, &list, bytes)
}

/// A book whose line these messages cross, where there can be one, has this list.
fn writes_again(runner: &mut Runner, random: &mut Random, list: &List, bytes: &[u8]) -> Option<()> {
    let Some(book) = list.book(random) else {
        return Some(());
    };
    runner.lists.add_again();
    writes(runner, &book, random.one_of(&[ADVANCE, 3]), bytes)
}
