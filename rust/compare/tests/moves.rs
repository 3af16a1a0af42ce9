//! What is claimed of moves and of chains of them, seen by the independent implementation alone, and that it finds mistakes out.

use compare::book::{Book, Table};
use compare::books::small_book;
use compare::call::Call;
use compare::chains::{later_checkpoint, Chain};
use compare::layout::{Counter, ORDER_WORDS, PROCESSES};
use compare::lent::Guarded;
use compare::line::line;
use compare::move_claims::{Met, Step, ADVANCE};
use compare::random::Random;
use compare::runner::book_of;
use compare::scenarios::lent_tables;
use compare::theirs;

/// Three processes with two checkpoints each. On the line 2 2 2 process 2 has received two of the three messages from 1, and 3
/// none of the five from 2.
fn crossed() -> Book {
    let mut book = Book::of_zeros(&[2, 2, 2]);
    *book.entry_mut(Table::Sent, 1, 2, 2) = 3;
    *book.entry_mut(Table::Received, 2, 2, 1) = 2;
    *book.entry_mut(Table::Sent, 2, 2, 3) = 5;
    book
}

/// A move by the independent implementation: the book that it leaves, and the order.
fn moved(book: &Book, purpose: u64) -> (Book, Vec<u64>) {
    let mut lent = lent_tables(book);
    lent.result = Guarded::fresh(ORDER_WORDS);
    lent.names = [purpose, 0, 0];
    assert_eq!(theirs::run(Call::Move, &mut lent), 0);
    (book_of(&lent), lent.result.lent().to_vec())
}

#[test]
fn a_right_move_is_as_claimed() {
    for purpose in 1..=3 {
        let book = crossed();
        let (left, order) = moved(&book, purpose);
        assert_eq!(Step::of(&book, purpose).leaves(&left, &order), Ok(()));
    }
    let (left, _) = moved(&crossed(), 3);
    assert_eq!((left.sent_at(1, 1, 2), left.sent_at(2, 1, 3)), (1, 5));
}

/// Whether a move of `crossed` with purpose 1 is as claimed with this value of an oldest counter.
fn is_claimed(table: Table, j: usize, p: usize, value: Counter) -> bool {
    let book = crossed();
    let (mut left, order) = moved(&book, ADVANCE);
    *left.entry_mut(table, j, 1, p) = value;
    Step::of(&book, ADVANCE).leaves(&left, &order).is_ok()
}

#[test]
fn a_wrong_move_is_found_out() {
    assert!(is_claimed(Table::Sent, 1, 2, 1) && is_claimed(Table::Sent, 2, 3, 5));
    assert!(!is_claimed(Table::Sent, 1, 2, 0), "its own sent counter came off");
    assert!(!is_claimed(Table::Sent, 1, 2, 3), "nothing came off");
    assert!(!is_claimed(Table::Sent, 2, 3, 3), "what it received itself came off");
    assert!(
        !is_claimed(Table::Received, 2, 1, 2),
        "nothing came off what was received"
    );
    let book = crossed();
    for purpose in 1..=3 {
        let (mut left, mut order) = moved(&book, purpose);
        order[PROCESSES] += 1;
        assert!(Step::of(&book, purpose).leaves(&left, &order).is_err());
        order[PROCESSES] -= 1;
        left.append(1, &[0, 9, 0, 0, 0, 0, 0, 0, 0, 0, 0, 0, 0, 0, 0, 0], &[0; PROCESSES]);
        assert!(Step::of(&book, purpose).leaves(&left, &order).is_err());
    }
}

fn words(set: &[usize]) -> Vec<u64> {
    set.iter().map(|&r| r as u64).collect()
}

/// Whether the line of a chain's moved book is that of its whole one.
fn is_same(chain: &Chain) -> bool {
    chain.is_same_line(&words(&line(&chain.whole)), &words(&line(&chain.moved)))
}

/// The smallest book in which a message crosses the line; process 1 receives it after the move.
#[test]
fn a_message_on_its_way_counts() {
    let mut book = Book::of_zeros(&[1, 2]);
    *book.entry_mut(Table::Sent, 2, 2, 1) = 1;
    let (right, _) = moved(&book, ADVANCE);
    let mut lost = right.clone();
    *lost.entry_mut(Table::Sent, 2, 1, 1) = 0;
    let mut received = [0; PROCESSES];
    received[1] = 1;
    for (left, same) in [(right, true), (lost, false)] {
        let mut chain = Chain::of(book.clone());
        chain.move_on(ADVANCE, left);
        chain.append(1, &[0; PROCESSES], &received);
        assert_eq!(line(&chain.whole), [2, 2]);
        assert_eq!(is_same(&chain), same);
    }
}

#[test]
fn chains_have_one_line() {
    let random = &mut Random::new(6);
    let mut met = Met::default();
    for _ in 0..300 {
        let mut chain = Chain::of(small_book(random));
        for _ in 0..4 {
            let purpose = random.one_of(&[1, 1, 2, 3]);
            let (left, order) = moved(&chain.moved, purpose);
            let step = Step::of(&chain.moved, purpose);
            assert_eq!(step.leaves(&left, &order), Ok(()));
            met.add_move(&step);
            chain.move_on(purpose, left);
            for _ in 0..random.between(0, 6) {
                let j = random.between(1, chain.whole.n());
                let (sent, received) = later_checkpoint(random, &chain.whole, j);
                chain.append(j, &sent, &received);
            }
            for book in [&chain.whole, &chain.moved] {
                assert_eq!(theirs::run(Call::Check, &mut lent_tables(book)), 0);
            }
            assert!(is_same(&chain));
            met.add_line(&chain.moved, &line(&chain.moved));
        }
    }
    let missing = met.missing();
    assert_eq!(missing.len(), 2, "but for sessions and the mark: {missing:?}");
}
