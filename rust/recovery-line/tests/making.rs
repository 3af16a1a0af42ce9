//! Books made checkpoint by checkpoint, and journals made event by event.

use recovery_line::sys::{RECOVERY_LINE_CHECKPOINTS, RECOVERY_LINE_JOURNAL_BYTES, RECOVERY_LINE_NOT_KNOWN};
use recovery_line::{BookBuilder, Count, Journal, Process, Refusal, Tables};

/// The specification's book of K's example 1.
const EXAMPLE_1: [u8; 28] = [
    3, 2, 0, 0, 0, 0, 0, 0, 4, 5, 2, 0, 0, 0, 0, 3, 0, 0, 0, 2, 0, 0, 0, 0, 7, 0, 0, 0,
];

const ONE: Process = Process::new(1);
const TWO: Process = Process::new(2);
const THREE: Process = Process::new(3);

/// A book of n processes with the oldest checkpoint of each.
fn oldest(n: u64) -> BookBuilder {
    let mut book = Tables::builder(n);
    for process in Process::all(n) {
        book.checkpoint(process);
    }
    book
}

fn question(book: &BookBuilder) -> u32 {
    book.build().map_or_else(Refusal::question, |_| 0)
}

#[test]
fn a_book_is_built() {
    let mut book = oldest(3);
    book.checkpoint(THREE).sent_to(ONE, Count::new(7));
    book.checkpoint(ONE)
        .received_from(THREE, Count::new(5))
        .received_from(TWO, Count::new(4));
    book.checkpoint(TWO).sent_to(ONE, Count::new(3));
    assert_eq!(book.build().unwrap().write().unwrap(), EXAMPLE_1);
}

#[test]
fn counters_that_are_not_named_stay() {
    let mut book = oldest(2);
    book.checkpoint(ONE)
        .sent_to(TWO, Count::new(300))
        .received_from(TWO, Count::new(2));
    book.checkpoint(ONE).received_from(TWO, Count::new(3));
    book.checkpoint(ONE);
    let bytes = [2, 4, 0, 0, 0xAC, 2, 2, 0xAC, 2, 3, 0xAC, 2, 3, 1, 0, 0];
    assert_eq!(book.build(), Tables::read(&bytes));
}

/// Of a counter that is given twice the later one holds, also when it takes the first one back.
#[test]
fn a_counter_is_corrected() {
    let mut book = oldest(2);
    book.checkpoint(ONE)
        .sent_to(TWO, Count::new(9))
        .sent_to(TWO, Count::new(0));
    assert_eq!(book.build(), Tables::read(&[2, 2, 0, 0, 0, 0, 1, 0, 0]));
}

#[test]
fn the_questions_of_a_book_refuse() {
    let with = |count: u64| {
        let mut book = oldest(2);
        book.checkpoint(ONE).sent_to(TWO, Count::new(count));
        question(&book)
    };
    let mark = u64::from(RECOVERY_LINE_NOT_KNOWN);
    assert_eq!(
        [with(mark - 1), with(mark), with(mark + 1), with(u64::MAX)],
        [0, 6, 3, 3]
    );
    assert_eq!(
        [0, 17, 16, u64::MAX].map(|n| question(&Tables::builder(n))),
        [4, 4, 5, 3]
    );
    let mut above_zero = Tables::builder(2);
    above_zero.checkpoint(ONE).received_from(TWO, Count::new(1));
    above_zero.checkpoint(TWO);
    assert_eq!(question(&above_zero), 7);
    let mut falling = oldest(2);
    falling.checkpoint(ONE).sent_to(TWO, Count::new(2));
    falling.checkpoint(ONE).sent_to(TWO, Count::new(1));
    assert_eq!(question(&falling), 8);
    let mut without_second = Tables::builder(2);
    without_second.checkpoint(ONE);
    assert_eq!(question(&without_second), 5);
}

/// An oldest checkpoint has sent what is on its way, and its process's later ones count from there.
#[test]
fn a_book_begins_with_messages_on_their_way() {
    let mut book = Tables::builder(2);
    book.checkpoint(ONE);
    book.checkpoint(TWO).sent_to(ONE, Count::new(1));
    book.checkpoint(ONE).received_from(TWO, Count::new(1));
    book.checkpoint(TWO);
    let tables = book.build().unwrap();
    assert_eq!(tables.write().unwrap(), [2, 2, 0, 0, 0, 1, 2, 1, 0, 1, 0]);
    assert_eq!(tables.find_line().unwrap().set, tables.newest());
}

#[test]
fn a_book_has_so_many_checkpoints() {
    let mut book = Tables::builder(1);
    for _ in 0..RECOVERY_LINE_CHECKPOINTS {
        book.checkpoint(ONE);
    }
    assert_eq!(question(&book), 0);
    book.checkpoint(ONE);
    assert_eq!(question(&book), 5);
}

/// More bytes than a book may have are refused before anything else.
#[test]
fn a_book_has_so_many_bytes() {
    let largest = Count::new(u64::MAX);
    let mut book = oldest(16);
    for _ in 0..RECOVERY_LINE_CHECKPOINTS {
        Process::all(16).fold(book.checkpoint(ONE), |newest, partner| {
            newest.sent_to(partner, largest).received_from(partner, largest)
        });
    }
    assert_eq!(question(&book), 1);
}

#[test]
fn a_counter_for_no_partner_is_refused() {
    for partner in [0, 1, 3, 16, 17, u64::MAX].map(Process::new) {
        let with = |sent: u64, received: u64| {
            let mut book = oldest(2);
            book.checkpoint(ONE)
                .sent_to(partner, Count::new(sent))
                .received_from(partner, Count::new(received));
            question(&book)
        };
        assert_eq!([with(1, 0), with(0, 1), with(0, 0)], [9, 9, 0], "{partner}");
    }
}

/// It is refused after what the book itself is refused by.
#[test]
fn a_checkpoint_of_no_process_is_refused() {
    for process in [0, 3, 16, 17, u64::MAX].map(Process::new) {
        let mut book = oldest(2);
        book.checkpoint(process).sent_to(ONE, Count::new(1));
        assert_eq!(question(&book), 10, "{process}");
        book.checkpoint(TWO).sent_to(TWO, Count::new(1));
        assert_eq!(question(&book), 9, "{process}");
        book.checkpoint(ONE).sent_to(TWO, Count::new(u64::MAX));
        assert_eq!(question(&book), 3, "{process}");
    }
}

#[test]
fn a_journal_is_written_event_by_event() {
    let mut journal = Journal::new(3);
    assert_eq!(journal.tables(), Tables::read_journal(&[3]));
    journal.sent(ONE, TWO).checkpoint(ONE).received(TWO, ONE);
    journal.checkpoint(TWO);
    let bytes = [3, 1, 1, 2, 3, 1, 2, 2, 1, 3, 2];
    assert_eq!(journal.bytes(), bytes);
    assert_eq!(journal.tables(), Tables::read_journal(&bytes));
    let mut continued = Journal::from_bytes(&bytes[..6]);
    continued.received(TWO, ONE).checkpoint(TWO);
    assert_eq!(continued, journal);
}

#[test]
fn events_are_written_as_they_are() {
    let far = Process::new(300);
    let mut journal = Journal::new(u64::MAX);
    journal.sent(far, Process::new(u64::MAX));
    let largest = [0xFF, 0xFF, 0xFF, 0xFF, 0xFF, 0xFF, 0xFF, 0xFF, 0xFF, 1];
    assert_eq!(journal.bytes(), [&largest[..], &[1, 0xAC, 2], &largest].concat());
    assert_eq!(journal.tables().unwrap_err().question(), 3);
    for (journal, question) in [
        (Journal::new(0).checkpoint(ONE), 4),
        (Journal::new(2).sent(ONE, ONE), 19),
        (Journal::new(2).checkpoint(THREE), 10),
        (Journal::new(2).received(ONE, TWO), 20),
    ] {
        assert_eq!(journal.tables().unwrap_err().question(), question);
    }
}

#[test]
fn a_journal_has_so_many_bytes() {
    let mut journal = Journal::new(2);
    while journal.bytes().len() < RECOVERY_LINE_JOURNAL_BYTES {
        journal.sent(ONE, TWO);
    }
    assert_eq!(journal.tables().map(|tables| tables.processes()), Ok(2));
    journal.sent(ONE, TWO);
    assert_eq!(journal.tables().unwrap_err().question(), 1);
}
