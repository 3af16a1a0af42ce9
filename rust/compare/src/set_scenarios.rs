//! Sets, and one checkpoint against a column, with what is claimed of the pair shown and of the partner named.

use crate::book::Book;
use crate::books::any_book;
use crate::call::Call;
use crate::layout::{Counter, LARGEST, NOT_KNOWN, PAIR_WORDS, PROCESSES, SET_WORDS};
use crate::lent::{Guarded, Lent};
use crate::line;
use crate::pair_claims::{faults, is_first, is_permitted_by_mark, offenders};
use crate::random::Random;
use crate::runner::{book_of, Runner};
use crate::scenarios::lent_tables;
use crate::tally::Kind;
use crate::variations::{change_set, varied};

/// Sets: the line, sets near it, newest and oldest ones, any, and words that are no checkpoints.
pub fn sets(runner: &mut Runner, random: &mut Random) -> Option<()> {
    let book = any_book(random);
    let line = line::line(&book);
    for round in 0..8 {
        let set = one_set(random, &book, &line, round);
        let mut lent = lent_set(&book, &set);
        let pair = tested_set(runner, Kind::Set, lent.clone())?;
        columns_agree(runner, random, &book, &set, pair)?;
        let (kind, other) = varied(random, Call::TestSet, &lent);
        tested_set(runner, kind, other)?;
        change_set(random, &mut lent);
        tested_set(runner, Kind::Set, lent)?;
    }
    Some(())
}

fn one_set(random: &mut Random, book: &Book, line: &[usize], round: usize) -> Vec<usize> {
    let n = book.n();
    match round {
        0 => line.to_vec(),
        1 => book.newest(),
        2 => vec![1; n],
        3 => {
            let mut set = line.to_vec();
            let j = random.between(1, n);
            set[j - 1] = (set[j - 1] + 1).min(book.count(j));
            set
        }
        _ => (1..=n).map(|j| random.between(1, book.count(j))).collect(),
    }
}

fn lent_set(book: &Book, set: &[usize]) -> Lent {
    let mut lent = lent_tables(book);
    let mut words: Vec<u64> = set.iter().map(|&r| r as u64).collect();
    words.resize(SET_WORDS, 0);
    lent.set = Guarded::holding(&words);
    lent.result = Guarded::fresh(PAIR_WORDS);
    lent
}

/// Tests a set, and the claims where it is accepted; the pair that is shown, 0 0 for none.
fn tested_set(runner: &mut Runner, kind: Kind, lent: Lent) -> Option<(u64, u64)> {
    let outcome = runner.case(kind, Call::TestSet, lent)?;
    if outcome.answer != 0 {
        return Some((0, 0));
    }
    let left = &outcome.left;
    let set: Vec<usize> = left.set.lent().iter().map(|&word| word as usize).collect();
    let at_fault = faults(&book_of(left), &set);
    let shown = (left.result.lent()[0], left.result.lent()[1]);
    runner.pairs.add_set(at_fault.len());
    let what = "the pair shown is the lowest j, and for it the lowest p, and none exactly if the set is consistent";
    runner.demand(is_first(shown, &at_fault), what, left)?;
    Some(shown)
}

/// The partner that is named for j's checkpoint, against what the set's had sent to j, is the pair's p; and nobody is named
/// for a lower j, nor for any in a consistent set.
fn columns_agree(runner: &mut Runner, random: &mut Random, book: &Book, set: &[usize], pair: (u64, u64)) -> Option<()> {
    let n = book.n();
    for j in [pair.0 as usize, random.between(1, n)].into_iter().filter(|&j| j != 0) {
        let mut known = vec![0; PROCESSES];
        for p in 1..=n {
            known[p - 1] = book.sent[book.place(p, set[p - 1], j)];
        }
        let partner = tested_checkpoint(runner, Kind::Column, lent_column(book, j, set[j - 1], &known))?;
        let is_pairs = j as u64 == pair.0;
        runner.pairs.add_of_set(is_pairs);
        let may_be_at_fault = pair != (0, 0) && j as u64 > pair.0;
        let agrees = if is_pairs {
            partner == pair.1
        } else {
            partner == 0 || may_be_at_fault
        };
        let what = format!("process {j}, partner {partner}: the column's answer is the set's, {pair:?}");
        runner.demand(agrees, &what, &lent_set(book, set))?;
    }
    Some(())
}

/// One checkpoint against columns: what it received, less or more than that, what is not known; then with names and
/// checkpoints that there are not.
pub fn columns(runner: &mut Runner, random: &mut Random) -> Option<()> {
    let book = any_book(random);
    for _ in 0..8 {
        let process = random.between(1, book.n());
        let (newest, any) = (book.count(process), random.between(1, book.count(process)));
        let checkpoint = random.one_of(&[newest, newest, any, 1]);
        let known = any_column(random, &book, process, checkpoint);
        let lent = lent_column(&book, process, checkpoint, &known);
        tested_checkpoint(runner, Kind::Column, lent.clone())?;
        for _ in 0..2 {
            let (kind, other) = varied(random, Call::TestCheckpoint, &lent);
            tested_checkpoint(runner, kind, other)?;
        }
    }
    Some(())
}

fn lent_column(book: &Book, process: usize, checkpoint: usize, known: &[Counter]) -> Lent {
    let mut lent = lent_tables(book);
    lent.names = [process as u64, checkpoint as u64, 0];
    lent.known = Guarded::holding(known);
    lent
}

/// What is known: of most partners enough, of some less than the checkpoint received; of the process itself and of absent ones
/// anything.
fn any_column(random: &mut Random, book: &Book, process: usize, checkpoint: usize) -> Vec<Counter> {
    let less = random.one_of(&[1, 2, 8, 100]);
    let of_partner = |p: usize| {
        if p > book.n() || p == process {
            return random.one_of(&[0, 1, LARGEST, NOT_KNOWN]) as Counter;
        }
        let received = book.received_at(process, checkpoint, p);
        let known = if random.once_in(less) {
            random.one_of(&[0, received / 2, received.saturating_sub(1), received.saturating_sub(1)])
        } else {
            random.one_of(&[received, received, (received + 1).min(LARGEST), LARGEST, NOT_KNOWN])
        };
        known as Counter
    };
    (1..=PROCESSES).map(of_partner).collect()
}

/// Tests a checkpoint, and the claims where it is accepted; the partner that is named, 0 for none.
fn tested_checkpoint(runner: &mut Runner, kind: Kind, lent: Lent) -> Option<u64> {
    let outcome = runner.case(kind, Call::TestCheckpoint, lent)?;
    if outcome.answer != 0 {
        return Some(0);
    }
    let left = &outcome.left;
    let (book, known) = (book_of(left), left.known.lent());
    let (process, checkpoint) = (left.names[0] as usize, left.names[1] as usize);
    let offending = offenders(&book, process, checkpoint, known);
    let by_mark = is_permitted_by_mark(&book, process, checkpoint, known);
    runner.pairs.add_checkpoint(offending.len(), by_mark);
    let partner = left.numbers[0];
    let what =
        "the partner named is the lowest from which more was received than is known, none exactly if there is none";
    runner.demand(is_first(partner, &offending), what, left)?;
    Some(partner)
}
