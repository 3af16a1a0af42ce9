//! What the generators promise, seen by the independent implementation alone.

use compare::book::{Book, Table};
use compare::books::{any_book, far_book, small_book};
use compare::call::Call;
use compare::claims::waiting;
use compare::forged::ForgedSession;
use compare::journal_claims::{channels_hold, Met};
use compare::journals::{any_journal, long_journal, Journal};
use compare::layout::{Counter, NOT_KNOWN};
use compare::lent::{Guarded, Lent};
use compare::line::{is_line_of_all_sets, line, passed};
use compare::measured_books::{in_flight, last_pair_at_fault};
use compare::measured_journals::{in_any_order, in_turn};
use compare::pair_claims::{faults, is_first, is_permitted_by_mark, offenders};
use compare::random::Random;
use compare::scenarios::lent_tables;
use compare::theirs;

#[test]
fn books_are_valid() {
    let random = &mut Random::new(1);
    let mut in_flight = 0;
    for _ in 0..2000 {
        let book = any_book(random);
        assert_eq!(theirs::run(Call::Check, &mut lent_tables(&book)), 0);
        assert_eq!(theirs::run(Call::Read, &mut Lent::to_read(&book.bytes())), 0);
        in_flight += u32::from(book.is_in_flight());
    }
    assert!(in_flight > 600, "{in_flight} of 2000");
}

#[test]
fn far_books_fall_far_with_messages_in_flight_too() {
    let random = &mut Random::new(5);
    let mut fallen = 0;
    for _ in 0..200 {
        let book = far_book(random);
        fallen += u32::from(book.is_in_flight() && 2 * passed(&book, &line(&book)) > book.checkpoints());
    }
    assert!(fallen > 10, "{fallen} of 200");
}

#[test]
fn line_by_sweeps_is_line_by_all_sets() {
    let random = &mut Random::new(2);
    for _ in 0..2000 {
        let book = small_book(random);
        assert!(is_line_of_all_sets(&book, &line(&book)));
    }
}

#[test]
fn line_of_example_1() {
    let mut book = Book::of_zeros(&[2, 2, 2]);
    *book.entry_mut(Table::Received, 1, 2, 2) = 4;
    *book.entry_mut(Table::Received, 1, 2, 3) = 5;
    *book.entry_mut(Table::Sent, 2, 2, 1) = 3;
    *book.entry_mut(Table::Sent, 3, 2, 1) = 7;
    let bytes = [
        3, 2, 0, 0, 0, 0, 0, 0, 4, 5, 2, 0, 0, 0, 0, 3, 0, 0, 0, 2, 0, 0, 0, 0, 7, 0, 0, 0,
    ];
    assert_eq!(book.bytes(), bytes);
    assert_eq!(line(&book), [1, 2, 2]);
    assert_eq!(passed(&book, &line(&book)), 1);
}

#[test]
fn most_forged_sessions_take_a_turn() {
    let random = &mut Random::new(3);
    let mut accepted = 0;
    for _ in 0..1000 {
        let book = small_book(random);
        if book.n() < 2 {
            continue;
        }
        let me = random.between(1, book.n());
        let forged = ForgedSession::new(random, &book, me, 1);
        let mut lent = lent_tables(&book);
        lent.state = Guarded::holding(&forged.words);
        lent.out = Guarded::holding(&forged.strands);
        if let Some(&p) = waiting(&forged.words).first() {
            lent.names = [p as u64, 0, 0];
            accepted += u32::from(theirs::run(Call::SessionTurn, &mut lent) == 0);
        }
    }
    assert!(accepted > 400, "{accepted} of 1000");
}

#[test]
fn journals_are_valid() {
    let random = &mut Random::new(4);
    let mut met = Met::default();
    for number in 0..2000 {
        let journal = if number % 50 == 0 {
            long_journal(random)
        } else {
            any_journal(random)
        };
        let bytes = journal.bytes();
        assert_eq!(Journal::of_bytes(&bytes), journal);
        assert_eq!(theirs::run(Call::Journal, &mut Lent::to_read(&bytes)), 0);
        met.add(&journal, bytes.len());
    }
    assert_eq!(met.missing(), Vec::<String>::new());
}

#[test]
fn measured_journals_have_their_size() {
    for (n, bytes) in [(2, 65_536), (8, 65_536), (16, 16_384), (16, 32_768), (16, 65_536)] {
        for journal in [in_any_order(n, bytes), in_turn(n, bytes)] {
            assert_eq!(journal.len(), bytes);
            assert_eq!(theirs::run(Call::Journal, &mut Lent::to_read(&journal)), 0);
            assert!(Journal::of_bytes(&journal).checkpoints() >= n + 238);
        }
    }
}

#[test]
fn a_receipt_of_nothing_breaks_the_channels_law() {
    let law = |bytes: &[u8]| channels_hold(&Journal::of_bytes(bytes)).is_ok();
    assert!(law(&[2, 1, 1, 2, 2, 2, 1, 1, 1, 2]));
    assert!(!law(&[2, 2, 2, 1, 1, 1, 2]));
    assert!(!law(&[2, 1, 1, 2, 2, 2, 1, 2, 2, 1]));
}

/// Three processes: 1's newest has received from 3, and 2's from 1 and 3, what nobody has sent.
fn unsent() -> Book {
    let mut book = Book::of_zeros(&[2, 2, 1]);
    *book.entry_mut(Table::Received, 1, 2, 3) = 1;
    *book.entry_mut(Table::Received, 2, 2, 1) = 5;
    *book.entry_mut(Table::Received, 2, 2, 3) = 1;
    book
}

#[test]
fn only_the_first_pair_is_first() {
    let at_fault = faults(&unsent(), &[2, 2, 1]);
    assert_eq!(at_fault, [(1, 3), (2, 1), (2, 3)]);
    assert!(is_first((1, 3), &at_fault));
    for other in [(0, 0), (1, 2), (2, 1), (2, 3), (3, 1), (0, 1), (4, 1)] {
        assert!(!is_first(other, &at_fault), "{other:?}");
    }
    assert!(is_first((0, 0), &faults(&unsent(), &[1, 1, 1])));
}

#[test]
fn only_the_lowest_partner_is_first() {
    let offending = offenders(&unsent(), 2, 2, &[4, 0, 0]);
    assert_eq!(offending, [1, 3]);
    assert!(is_first(1, &offending));
    assert!(!is_first(3, &offending) && !is_first(2, &offending) && !is_first(0, &offending));
    assert!(is_first(0, &offenders(&unsent(), 2, 2, &[5, 0, 1])));
    let mark = NOT_KNOWN as Counter;
    assert!(is_permitted_by_mark(&unsent(), 2, 2, &[mark, 0, 1]));
    assert!(!is_permitted_by_mark(&unsent(), 2, 2, &[mark, 0, 0]));
    assert!(!is_permitted_by_mark(&unsent(), 2, 2, &[5, mark, 1]));
}

#[test]
fn the_measured_book_has_messages_on_their_way() {
    let book = in_flight(16, 16);
    assert_eq!(theirs::run(Call::Check, &mut lent_tables(&book)), 0);
    assert_eq!((book.checkpoints(), passed(&book, &line(&book))), (256, 48));
    assert!(book.is_in_flight());
}

#[test]
fn the_measured_fault_is_the_last_pair() {
    let book = last_pair_at_fault(16, 256);
    assert_eq!(faults(&book, &book.newest()), [(16, 15)]);
    assert_eq!(theirs::run(Call::Check, &mut lent_tables(&book)), 0);
}
