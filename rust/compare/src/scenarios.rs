//! Scenarios: each makes a book or a journal, and runs cases of one theme on it. `None` ends one early (see `Runner::case`).

use crate::book::Book;
use crate::books::any_book;
use crate::call::Call;
use crate::damaged_books;
use crate::layout::{initiator, participant, participants, session, strand_bytes};
use crate::layout::{ORDER_WORDS, RESEND_BYTES, SET_WORDS};
use crate::lent::{Guarded, Lent};
use crate::random::Random;
use crate::runner::{book_of, Runner};
use crate::tally::Kind;
use crate::variations::varied;
use crate::{journal_scenarios, line, machine_scenarios, made, move_scenarios};
use crate::{resend_scenarios, session_scenarios, set_scenarios};

/// Runs the scenario of a number.
pub fn run(runner: &mut Runner, number: u64) {
    runner.scenario = number;
    let random = &mut Random::of_part(runner.seed, number);
    // A scenario that ends early says so in the runner.
    let _ = match random.below(22) {
        0 | 1 => books(runner, random),
        2 => tables(runner, random),
        3 => set_scenarios::sets(runner, random),
        4 => machine_scenarios::search(runner, random),
        5..=7 => machine_scenarios::forged(runner, random),
        8..=11 => session_scenarios::search(runner, random),
        12 | 13 => journal_scenarios::journals(runner, random),
        14 => set_scenarios::columns(runner, random),
        15 => move_scenarios::chain(runner, random),
        16 => resend_scenarios::orders(runner, random),
        17 => resend_scenarios::lists(runner, random),
        _ => session_scenarios::forged(runner, random),
    };
}

/// A book lent as tables.
pub fn lent_tables(book: &Book) -> Lent {
    Lent::tables(&book.shape, &book.sent, &book.received)
}

/// A book is read and written back; then damaged ones are read, and what is accepted is written back.
fn books(runner: &mut Runner, random: &mut Random) -> Option<()> {
    let book = any_book(random);
    let bytes = book.bytes();
    let read = runner.case(Kind::ValidBook, Call::Read, Lent::to_read(&bytes))?;
    let as_made = read.answer == 0 && read.left.sent.lent() == book.sent && read.left.received.lent() == book.received;
    runner.demand(as_made, "a valid book is read into its tables", &read.left)?;
    let built = made::by_checkpoints(&book);
    runner.demand(
        built == Ok(book.clone()),
        "the wrapper's builder makes that book",
        &read.left,
    )?;
    written_back(runner, &read.left, &bytes)?;
    for _ in 0..6 {
        let damaged = damaged_books::damaged(random, &book);
        let lent = Lent::to_read(&damaged);
        let read = runner.case(Kind::DamagedBook, Call::Read, lent.clone())?;
        if read.answer == 0 {
            written_back(runner, &read.left, &damaged)?;
        }
        if random.once_in(3) {
            let (kind, lent) = varied(random, Call::Read, &lent);
            runner.case(kind, Call::Read, lent)?;
        }
    }
    Some(())
}

/// Demand 2: an accepted book read and then written has its old bytes, in just enough room.
fn written_back(runner: &mut Runner, read: &Lent, bytes: &[u8]) -> Option<()> {
    let mut lent = lent_tables(&book_of(read));
    lent.out = Guarded::fresh(bytes.len());
    let written = runner.case(Kind::ValidTables, Call::Write, lent)?;
    let same = written.answer == 0 && written.left.out.lent() == bytes;
    runner.demand(
        same,
        "an accepted book read and written has its old bytes",
        &written.left,
    )
}

/// Calls that take tables and no state: each once as it should be, then varied.
fn tables(runner: &mut Runner, random: &mut Random) -> Option<()> {
    const TABLE_CALLS: [Call; 10] = [
        Call::Check,
        Call::Write,
        Call::Find,
        Call::ParticipantFirst,
        Call::InitiatorBegin,
        Call::SessionStart,
        Call::Search,
        Call::Move,
        Call::RestartOrder,
        Call::WriteResend,
    ];
    let book = any_book(random);
    for call in TABLE_CALLS {
        let lent = lent_for(random, call, &book);
        let outcome = runner.case(Kind::ValidTables, call, lent.clone())?;
        if call == Call::Find {
            let line: Vec<u64> = line::line(&book).iter().map(|&r| r as u64).collect();
            let found = outcome.left.result.lent();
            runner.demand(
                found.starts_with(&line),
                "the line found by sweeps is the line",
                &outcome.left,
            )?;
        }
        if call == Call::Move {
            moved(runner, random, &book, &outcome.left)?;
        }
        for _ in 0..2 {
            let (kind, lent) = varied(random, call, &lent);
            runner.case(kind, call, lent)?;
        }
    }
    Some(())
}

/// A valid case of a call without a state.
fn lent_for(random: &mut Random, call: Call, book: &Book) -> Lent {
    let n = book.n();
    let mut lent = lent_tables(book);
    let (me, purpose) = (random.between(1, n) as u64, random.between(1, 3) as u64);
    match call {
        Call::Write => lent.out = Guarded::fresh(70_000),
        Call::Find => lent.result = Guarded::fresh(SET_WORDS),
        Call::Search => {
            lent.result = Guarded::fresh(SET_WORDS);
            lent.names = [me, purpose, 0];
        }
        Call::ParticipantFirst => {
            lent.state = Guarded::fresh(participant::WORDS);
            lent.names = [me, random.between(1, n) as u64, purpose];
        }
        Call::InitiatorBegin => {
            lent.state = Guarded::fresh(initiator::WORDS);
            lent.result = Guarded::fresh(SET_WORDS);
            lent.out = Guarded::fresh(strand_bytes(n));
            lent.names = [me, purpose, 0];
        }
        Call::SessionStart => {
            lent.state = Guarded::fresh(session::WORDS);
            lent.out = Guarded::fresh(strand_bytes(n));
            lent.names = [me, purpose, 0];
        }
        Call::Move | Call::RestartOrder => {
            lent.result = Guarded::fresh(ORDER_WORDS);
            lent.names = [purpose, 0, 0];
        }
        Call::WriteResend => {
            lent.out = Guarded::fresh(RESEND_BYTES);
            lent.names = [purpose, 0, 0];
        }
        _ => {}
    }
    lent
}

/// Moved tables are tables, and moving them once more is a case too.
fn moved(runner: &mut Runner, random: &mut Random, book: &Book, left: &Lent) -> Option<()> {
    let mut lent = lent_tables(&move_scenarios::after_move(runner, book, left)?);
    lent.result = Guarded::fresh(ORDER_WORDS);
    lent.names = [random.between(1, 3) as u64, 0, 0];
    runner.case(Kind::ValidTables, Call::Move, lent)?;
    Some(())
}

/// One of the participants of a search.
pub fn one_participant(random: &mut Random, n: usize, initiator: usize) -> usize {
    participants(n, initiator)
        .nth(random.below(n - 1))
        .expect("there are n - 1 participants")
}
