//! What is claimed of lists of what to send again, seen by the independent implementation alone, and that it finds mistakes out.

use compare::book::{Book, Table};
use compare::books::any_book;
use compare::call::Call;
use compare::damaged_lists::damaged;
use compare::layout::{NOT_KNOWN, ORDER_RESEND, ORDER_WORDS, PROCESSES, RESEND_BYTES, RESEND_LAST};
use compare::lent::{Guarded, Lent};
use compare::lists::{any_list, longest_list, Entry, List};
use compare::measured_books::dense;
use compare::move_claims::Step;
use compare::random::Random;
use compare::resend_claims::{causes, is_left_on_its_way, list_of, Cause, Met};
use compare::runner::book_of;
use compare::scenarios::lent_tables;
use compare::theirs;

/// Two processes with two checkpoints each; the oldest of the first has sent one message. On the line 2 2 process 2 has received
/// two of the five messages from 1, and 1 the only one from 2.
fn crossed() -> Book {
    let mut book = Book::of_zeros(&[2, 2]);
    *book.entry_mut(Table::Sent, 1, 1, 2) = 1;
    *book.entry_mut(Table::Sent, 1, 2, 2) = 5;
    *book.entry_mut(Table::Received, 2, 2, 1) = 2;
    *book.entry_mut(Table::Sent, 2, 2, 1) = 1;
    *book.entry_mut(Table::Received, 1, 2, 2) = 1;
    book
}

/// A call for a purpose by the independent implementation: what it leaves.
fn called(call: Call, book: &Book, purpose: u64) -> Lent {
    let mut lent = lent_tables(book);
    lent.result = Guarded::fresh(ORDER_WORDS);
    lent.out = Guarded::fresh(RESEND_BYTES);
    lent.names = [purpose, 0, 0];
    assert_eq!(theirs::run(call, &mut lent), 0);
    lent
}

/// The list of an order, if it is as claimed.
fn claimed(book: &Book, purpose: u64, order: &[u64]) -> Result<List, String> {
    list_of(&Step::of(book, purpose), book.n(), order)
}

fn list(book: &Book, purpose: u64) -> List {
    claimed(book, purpose, called(Call::RestartOrder, book, purpose).result.lent()).unwrap()
}

fn entry(sender: u64, receiver: u64, first: u64, last: u64) -> Entry {
    Entry {
        sender,
        receiver,
        first,
        last,
    }
}

#[test]
fn right_lists_are_as_claimed() {
    let book = crossed();
    assert_eq!(list(&book, 1).entries, [entry(1, 2, 3, 5)]);
    assert_eq!(list(&book, 2).entries, [entry(1, 2, 1, 1)]);
    assert_eq!(list(&book, 3).entries, [entry(1, 2, 3, 5)]);
}

/// Whether an order with purpose 1 is as claimed with these messages of a channel.
fn is_claimed(channel: usize, first: u64, last: u64) -> bool {
    let mut order = called(Call::RestartOrder, &crossed(), 1).result.lent().to_vec();
    order[ORDER_RESEND + channel] = first;
    order[ORDER_RESEND + RESEND_LAST + channel] = last;
    claimed(&crossed(), 1, &order).is_ok()
}

#[test]
fn wrong_lists_are_found_out() {
    let (there, back) = (1, PROCESSES);
    assert!(is_claimed(there, 3, 5) && is_claimed(back, 0, 0));
    assert!(!is_claimed(there, 2, 5), "the first is what was received");
    assert!(!is_claimed(there, 1, 3), "counted after the move");
    assert!(!is_claimed(there, 3, 4) && !is_claimed(there, 0, 0));
    assert!(!is_claimed(back, 1, 1) && !is_claimed(back, 2, 1));
    for nowhere in [0, 2, PROCESSES + 1, 255] {
        assert!(!is_claimed(nowhere, 1, 1) && !is_claimed(nowhere, 0, 1), "{nowhere}");
    }
    let by_line = called(Call::RestartOrder, &crossed(), 1);
    assert!(claimed(&crossed(), 2, by_line.result.lent()).is_err(), "2 by the line");
}

#[test]
fn moved_books_have_on_their_way_what_is_sent_again() {
    let random = &mut Random::new(7);
    for number in 0..300 {
        let book = if number == 0 { crossed() } else { any_book(random) };
        for purpose in 1..=3 {
            let list = list(&book, purpose);
            let moved = book_of(&called(Call::Move, &book, purpose));
            assert_eq!(is_left_on_its_way(&list, &moved), Ok(()));
            let again = called(Call::WriteResend, &moved, 2);
            let bytes = list.from_one().bytes();
            assert_eq!(again.out.lent()[..again.numbers[0] as usize], bytes);
        }
    }
    let mut other = book_of(&called(Call::Move, &crossed(), 1));
    *other.entry_mut(Table::Sent, 1, 1, 2) = 5;
    assert!(is_left_on_its_way(&list(&crossed(), 1), &other).is_err());
}

#[test]
fn lists_are_read_and_their_books_have_them() {
    let random = &mut Random::new(8);
    let mut books = 0;
    for number in 0..500 {
        let list = if number % 50 == 0 {
            longest_list(random)
        } else {
            any_list(random)
        };
        let bytes = list.bytes();
        let mut lent = Lent::to_read_list(list.n, &bytes);
        assert_eq!(theirs::run(Call::ReadResend, &mut lent), 0);
        assert_eq!(List::of_words(list.n, lent.result.lent()), list);
        if let Some(book) = list.book(random) {
            let written = called(Call::WriteResend, &book, 1);
            assert_eq!(written.out.lent()[..written.numbers[0] as usize], bytes);
            books += 1;
        }
    }
    assert!(books > 250, "{books} of 500");
}

#[test]
fn the_longest_list_is_as_long() {
    let list = longest_list(&mut Random::new(9));
    assert_eq!((list.entries.len(), list.bytes().len()), (240, RESEND_BYTES));
    let measured = called(Call::WriteResend, &dense(16, 256, false), 1);
    assert_eq!(measured.numbers[0], RESEND_BYTES as u64);
}

#[test]
fn every_cause_is_told() {
    assert_eq!(causes(&[2, 2, 1, 1, 1, 1, 2, 1, 1]), [Cause::Falls]);
    assert_eq!(causes(&[2, 1, 2, 1, 1, 1, 2, 1, 1]), [Cause::Twice]);
    assert_eq!(causes(&[1, 1, 1, 1, 1]), [Cause::Own]);
    assert_eq!(causes(&[1, 1, 2, 0, 1]), [Cause::NoFirst]);
    assert_eq!(causes(&[1, 1, 2, 3, 2]), [Cause::PastLast]);
    assert_eq!(causes(&[1, 1, 2, 1, 2, 0]), [Cause::LeftOver]);
    assert_eq!(causes(&[0, 0]), [Cause::LeftOver]);
    assert_eq!(causes(&[1, 2, 2, 0, 0]), [Cause::Own, Cause::NoFirst]);
}

#[test]
fn damaged_lists_meet_every_question() {
    let random = &mut Random::new(10);
    let (mut met, mut answers) = (Met::default(), [0; 22]);
    for _ in 0..3000 {
        let list = any_list(random);
        let (n, bytes) = damaged(random, &list);
        let mut lent = Lent::to_read_list(n, &bytes);
        let answer = theirs::run(Call::ReadResend, &mut lent);
        answers[answer as usize] += 1;
        if answer == 0 {
            assert_eq!(List::of_words(n, lent.result.lent()).bytes(), bytes);
        }
        if answer == 21 {
            met.add_refused(&bytes);
        }
    }
    for question in [0, 3, 4, 10, 21] {
        assert!(answers[question] > 100, "{answers:?}");
    }
    let missing = met.missing();
    let of_21 = |what: &&String| what.starts_with("a list with") || what.ends_with("falls");
    assert_eq!(missing.iter().find(of_21), None);
}

#[test]
fn a_list_with_the_mark_has_no_book() {
    let with_mark = List {
        n: 2,
        entries: vec![entry(1, 2, 1, NOT_KNOWN)],
    };
    assert!(with_mark.book(&mut Random::new(11)).is_none());
}
