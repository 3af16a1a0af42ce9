//! Chains of appends and moves, with what is claimed of each move and of the line afterwards.

use crate::book::Book;
use crate::books::{any_book, small_book};
use crate::call::Call;
use crate::chains::{later_checkpoint, Chain};
use crate::layout::{participants, Counter, NOT_KNOWN, ORDER_WORDS, SET_WORDS};
use crate::lent::{Guarded, Lent};
use crate::move_claims::Step;
use crate::random::Random;
use crate::resend_scenarios::leaves_list;
use crate::runner::{book_of, Runner};
use crate::scenarios::lent_tables;
use crate::tally::Kind;
use crate::variations::varied;

/// A book is moved and gets later checkpoints, time and again.
pub fn chain(runner: &mut Runner, random: &mut Random) -> Option<()> {
    let book = if random.once_in(3) {
        any_book(random)
    } else {
        small_book(random)
    };
    let mut chain = Chain::of(book);
    for _ in 0..random.between(2, 5) {
        move_on(runner, random, &mut chain)?;
        for _ in 0..random.between(0, 2 * chain.whole.n()) {
            append(random, &mut chain);
        }
        accepts_both(runner, &chain)?;
        finds_same_line(runner, &chain)?;
    }
    append_mark(runner, random, &mut chain)
}

/// A move with purpose 1, now and then with another.
fn move_on(runner: &mut Runner, random: &mut Random, chain: &mut Chain) -> Option<()> {
    let purpose = random.one_of(&[1, 1, 1, 1, 2, 3]);
    let mut lent = lent_tables(&chain.moved);
    lent.result = Guarded::fresh(ORDER_WORDS);
    lent.names = [purpose, 0, 0];
    let (kind, other) = varied(random, Call::Move, &lent);
    runner.case(kind, Call::Move, other)?;
    let outcome = runner.case(Kind::Chain, Call::Move, lent)?;
    let left = after_move(runner, &chain.moved, &outcome.left)?;
    chain.move_on(purpose, left);
    Some(())
}

/// The book that an accepted move left, of which all is as claimed: it passes the check, too.
pub fn after_move(runner: &mut Runner, book: &Book, left: &Lent) -> Option<Book> {
    let moved = book_of(left);
    let step = Step::of(book, left.names[0]);
    let holds = step.leaves(&moved, left.result.lent());
    let what = holds.as_ref().err().map_or("", String::as_str);
    runner.demand(holds.is_ok(), &format!("what is claimed of a move: {what}"), left)?;
    runner.moves.add_move(&step);
    leaves_list(runner, book, &moved, left)?;
    let checked = runner.case(Kind::ValidTables, Call::Check, lent_tables(&moved))?;
    runner.demand(checked.answer == 0, "moved tables pass the check", left)?;
    Some(moved)
}

fn append(random: &mut Random, chain: &mut Chain) {
    let j = random.between(1, chain.whole.n());
    if chain.has_room() {
        let (sent, received) = later_checkpoint(random, &chain.whole, j);
        chain.append(j, &sent, &received);
    }
}

/// The moved book with later checkpoints is accepted whenever the whole one is.
fn accepts_both(runner: &mut Runner, chain: &Chain) -> Option<()> {
    for book in [&chain.whole, &chain.moved] {
        let checked = runner.case(Kind::Chain, Call::Check, lent_tables(book))?;
        let what = "a book with later checkpoints is accepted, moved or not";
        runner.demand(checked.answer == 0, what, &checked.left)?;
    }
    Some(())
}

/// "The same physical checkpoints on the line of both."
fn finds_same_line(runner: &mut Runner, chain: &Chain) -> Option<()> {
    let [whole, moved] = [&chain.whole, &chain.moved].map(|book| {
        let mut lent = lent_tables(book);
        lent.result = Guarded::fresh(SET_WORDS);
        runner.case(Kind::Chain, Call::Find, lent)
    });
    let (whole, moved) = (whole?.left, moved?.left);
    let (line_of_whole, line) = (whole.result.lent(), moved.result.lent());
    let what = format!("the moved book has the line of the whole one, {line_of_whole:?}, renumbered");
    runner.demand(chain.is_same_line(line_of_whole, line), &what, &moved)?;
    let set: Vec<usize> = line[..chain.moved.n()].iter().map(|&r| r as usize).collect();
    runner.moves.add_line(&chain.moved, &set);
    Some(())
}

/// The converse is false: a whole book with the mark is refused, and the moved one may be accepted.
fn append_mark(runner: &mut Runner, random: &mut Random, chain: &mut Chain) -> Option<()> {
    let n = chain.whole.n();
    let j = random.between(1, n);
    let Some(p) = participants(n, j).nth(random.below(n)) else {
        return Some(());
    };
    if !chain.has_room() {
        return Some(());
    }
    let (mut sent, received) = later_checkpoint(random, &chain.whole, j);
    sent[p - 1] = NOT_KNOWN as Counter;
    chain.append(j, &sent, &received);
    let whole = runner.case(Kind::Chain, Call::Check, lent_tables(&chain.whole))?;
    runner.demand(whole.answer == 6, "the mark is refused", &whole.left)?;
    let moved = runner.case(Kind::Chain, Call::Check, lent_tables(&chain.moved))?;
    if moved.answer == 0 {
        runner.moves.add_less_than_mark();
    }
    Some(())
}
