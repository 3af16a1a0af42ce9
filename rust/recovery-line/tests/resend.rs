//! What to send again: the list of an order, and lists that are written and read.

use recovery_line::sys::{
    RECOVERY_LINE_MOST_RESEND_BYTES, RECOVERY_LINE_ORDER_RESEND_AT, RECOVERY_LINE_RESEND_LAST_AT,
    RECOVERY_LINE_RESEND_WORDS,
};
use recovery_line::{raw, Checkpoint, Count, Journal, Order, Process, Purpose, Refusal, Repeat, Resend, Tables};

const ALL: [Purpose; 3] = [Purpose::Advance, Purpose::Restart, Purpose::AdvanceAndRestart];

/// K's example 1: its line is 1 2 2, and process 1's checkpoint has received nothing.
const EXAMPLE_1: [u8; 28] = [
    3, 2, 0, 0, 0, 0, 0, 0, 4, 5, 2, 0, 0, 0, 0, 3, 0, 0, 0, 2, 0, 0, 0, 0, 7, 0, 0, 0,
];

/// On the line 4 4 process 2 has received 1 of the 8 messages from 1, and 1 has received 2 of the 4 from 2.
const BOTH_WAYS: [u8; 19] = [2, 4, 2, 0, 4, 2, 7, 2, 8, 2, 4, 0, 0, 2, 1, 3, 1, 4, 1];

fn tables(book: &[u8]) -> Tables {
    Tables::read(book).unwrap()
}

fn numbers(repeat: Repeat) -> [u64; 4] {
    [
        repeat.sender.number(),
        repeat.receiver.number(),
        repeat.first.number(),
        repeat.last.number(),
    ]
}

fn entries(order: &Order) -> Vec<[u64; 4]> {
    order.sent_again().map(numbers).collect()
}

/// The list of an order, which the one that is written says too, and a move.
fn list(tables: &Tables, purpose: Purpose) -> Vec<[u64; 4]> {
    let order = tables.restart_order(purpose).unwrap();
    let written = tables.write_resend(purpose).unwrap();
    let read = Resend::read(tables.processes(), &written).unwrap();
    assert_eq!(read, order.resend());
    assert_eq!(read.iter().map(numbers).collect::<Vec<_>>(), entries(&order));
    assert_eq!(tables.clone().move_line(purpose), Ok(order));
    assert_eq!(order.words()[RECOVERY_LINE_ORDER_RESEND_AT..], read.words()[..]);
    entries(&order)
}

#[test]
fn example_1() {
    let tables = tables(&EXAMPLE_1);
    for purpose in [Purpose::Advance, Purpose::AdvanceAndRestart] {
        assert_eq!(list(&tables, purpose), [[2, 1, 1, 3], [3, 1, 1, 7]]);
        assert_eq!(tables.write_resend(purpose), Ok(vec![2, 2, 1, 1, 3, 3, 1, 1, 7]));
    }
    assert_eq!(list(&tables, Purpose::Restart), [[0; 4]; 0]);
    assert_eq!(tables.write_resend(Purpose::Restart), Ok(vec![0]));
}

#[test]
fn by_the_line_or_by_the_oldest() {
    let tables = tables(&BOTH_WAYS);
    assert_eq!(list(&tables, Purpose::Advance), [[1, 2, 2, 8], [2, 1, 3, 4]]);
    assert_eq!(list(&tables, Purpose::Restart), [[1, 2, 1, 2]]);
}

/// What a moved book's oldest checkpoints have sent is what is sent again; its own list counts it from 1.
#[test]
fn after_a_move() {
    for book in [&EXAMPLE_1[..], &BOTH_WAYS[..]] {
        for purpose in [Purpose::Advance, Purpose::AdvanceAndRestart] {
            let mut tables = tables(book);
            let order = tables.move_line(purpose).unwrap();
            let from_one: Vec<_> = entries(&order)
                .iter()
                .map(|[p, q, first, last]| [*p, *q, 1, last - first + 1])
                .collect();
            assert_eq!(list(&tables, Purpose::Restart), from_one);
            for repeat in order.sent_again() {
                let sent = tables.sent_to(repeat.sender, Checkpoint::OLDEST, repeat.receiver);
                assert_eq!(sent, Some(Count::new(repeat.last.number() - repeat.first.number() + 1)));
            }
        }
    }
}

#[test]
fn channel_by_channel() {
    let order = tables(&BOTH_WAYS).restart_order(Purpose::Advance).unwrap();
    let (one, two) = (Process::new(1), Process::new(2));
    let resend = order.resend();
    let repeat = Repeat {
        sender: two,
        receiver: one,
        first: Count::new(3),
        last: Count::new(4),
    };
    assert_eq!(
        (order.repeat(two, one), resend.of(two, one)),
        (Some(repeat), Some(repeat))
    );
    let none = [0, 3, 16, 17, u64::MAX].map(Process::new);
    for other in none {
        assert_eq!((order.repeat(one, other), order.repeat(other, one)), (None, None));
        assert_eq!((resend.of(other, two), resend.of(two, other)), (None, None));
    }
    assert_eq!((order.repeat(one, one), resend.of(two, two)), (None, None));
}

#[test]
fn from_both_ends() {
    let resend = tables(&EXAMPLE_1).restart_order(Purpose::Advance).unwrap().resend();
    let mut repeats = resend.iter();
    assert_eq!(repeats.len(), 2);
    assert_eq!(repeats.next_back().map(numbers), Some([3, 1, 1, 7]));
    assert_eq!(repeats.len(), 1);
    assert_eq!(repeats.next().map(numbers), Some([2, 1, 1, 3]));
    assert_eq!(repeats.len(), 0);
    assert_eq!((repeats.next(), repeats.next_back()), (None, None));
    assert_eq!((&resend).into_iter().rev().map(numbers).next(), Some([3, 1, 1, 7]));
}

/// A message that was sent before the line and received after it.
#[test]
fn of_a_journal() {
    let (one, two, three) = (Process::new(1), Process::new(2), Process::new(3));
    let mut journal = Journal::new(3);
    journal.sent(two, three).checkpoint(two);
    journal
        .received(three, two)
        .sent(one, three)
        .received(three, one)
        .checkpoint(three);
    let tables = journal.tables().unwrap();
    assert_eq!(list(&tables, Purpose::AdvanceAndRestart), [[2, 3, 1, 1]]);
}

#[test]
fn a_list_fits_its_own_length_and_no_less() {
    let tables = tables(&BOTH_WAYS);
    let written = tables.write_resend(Purpose::Advance).unwrap();
    let mut out = [0xEE; 12];
    for room in 0..written.len() {
        let refusal = tables.write_resend_to(Purpose::Advance, &mut out[..room]).unwrap_err();
        assert_eq!((refusal.question(), out), (17, [0xEE; 12]));
    }
    assert_eq!(tables.write_resend_to(Purpose::Advance, &mut out), Ok(written.len()));
    assert_eq!((&out[..9], &out[9..]), (&written[..], &[0xEE; 3][..]));
}

/// All 240 channels of sixteen processes, with messages of five bytes each.
#[test]
fn the_longest_list() {
    let mut book = Tables::builder(16);
    for process in Process::all(16) {
        book.checkpoint(process);
        let mut newest = book.checkpoint(process);
        for partner in Process::all(16).filter(|partner| *partner != process) {
            newest = newest
                .sent_to(partner, Count::new(4_294_967_294))
                .received_from(partner, Count::new(4_294_967_293));
        }
    }
    let tables = book.build().unwrap();
    assert_eq!(list(&tables, Purpose::Advance).len(), 240);
    let written = tables.write_resend(Purpose::Advance).unwrap();
    assert_eq!(written.len(), RECOVERY_LINE_MOST_RESEND_BYTES);
    assert_eq!(RECOVERY_LINE_MOST_RESEND_BYTES, 2882);
}

fn question(n: u64, bytes: &[u8]) -> u32 {
    Resend::read(n, bytes).map_or_else(Refusal::question, |_| 0)
}

#[test]
fn lists_that_are_read() {
    for (n, bytes, answer) in [
        (0, &[0][..], 4),
        (17, &[], 4),
        (u64::MAX, &[0], 4),
        (2, &[], 3),
        (2, &[0x80, 0], 3),
        (16, &[0], 0),
        (2, &[0, 0], 21),
        (2, &[1, 1, 2, 1, 1], 0),
        (2, &[1, 1, 2, 1], 3),
        (2, &[1, 3, 3, 0, 0], 10),
        (2, &[1, 0, 1, 1, 1], 10),
        (2, &[1, 2, 2, 1, 1], 21),
        (2, &[1, 1, 2, 0, 1], 21),
        (2, &[1, 1, 2, 2, 1], 21),
        (2, &[2, 2, 1, 1, 1, 1, 2, 1, 1], 21),
        (2, &[2, 1, 2, 1, 1, 1, 2, 1, 1], 21),
        (2, &[1, 1, 2, 1, 1, 0], 21),
        (
            2,
            &[1, 1, 2, 0xFF, 0xFF, 0xFF, 0xFF, 0x0F, 0xFF, 0xFF, 0xFF, 0xFF, 0x0F],
            0,
        ),
        (2, &[1, 1, 2, 1, 0xFF, 0xFF, 0xFF, 0xFF, 0x1F], 3),
    ] {
        assert_eq!(question(n, bytes), answer, "{n} {bytes:?}");
    }
    assert_eq!(question(2, &[0; 65_537]), 21);
    let sentence = Resend::read(2, &[0, 0]).unwrap_err().to_string();
    assert!(
        sentence.starts_with("refused by question 21: Does the list rise by sender"),
        "{sentence}"
    );
}

#[test]
fn lists_are_brought_back() {
    for purpose in ALL {
        let resend = tables(&BOTH_WAYS).restart_order(purpose).unwrap().resend();
        assert_eq!(Resend::from_words(resend.words()), Ok(resend.clone()));
        let longer = [&resend.words()[..], &[0]].concat();
        assert_eq!(Resend::from_words(&longer), Err(Refusal::WRONG_LENGTH));
    }
    assert_eq!(Resend::from_words(&[]), Err(Refusal::WRONG_LENGTH));
}

#[test]
fn orders_and_lists_show_what_is_sent_again() {
    let order = tables(&[2, 1, 0, 0, 2, 0, 0, 5, 0])
        .restart_order(Purpose::Advance)
        .unwrap();
    let repeat = "Repeat { sender: Process(2), receiver: Process(1), first: Count(1), last: Count(5) }";
    assert_eq!(format!("{:?}", order.resend()), format!("Resend [{repeat}]"));
    assert!(
        format!("{order:?}").ends_with(&format!(" }}], sent again [{repeat}]")),
        "{order:?}"
    );
}

/// Of forged words what is there is shown, and nothing beside them is looked at.
#[test]
fn forged_words() {
    let mut words = [0; RECOVERY_LINE_RESEND_WORDS];
    words[255] = u64::MAX;
    words[RECOVERY_LINE_RESEND_LAST_AT] = 7;
    let resend = Resend::from_words(&words).unwrap();
    let entries: Vec<_> = resend.iter().map(numbers).collect();
    assert_eq!(entries, [[16, 16, u64::MAX, 0]]);
}

#[test]
fn lengths_come_first_and_a_refusal_changes_nothing() {
    let (shape, sent, received) = tables(&BOTH_WAYS).into_parts();
    let (mut out, mut length) = ([0xEE; 9], 7);
    let mut write = |shape: &[u64], received: &[recovery_line::Counter], purpose, room: usize| {
        let answer = raw::write_resend(shape, &sent[..], received, purpose, &mut out[..room], &mut length);
        (answer.map_or_else(Refusal::question, |()| 0), length, out)
    };
    let unchanged = |question| (question, 7, [0xEE; 9]);
    assert_eq!(write(&shape[1..], &[], 0, 0), unchanged(100));
    assert_eq!(write(&shape, &[], 0, 0), unchanged(2));
    assert_eq!(write(&shape, &received[..], 0, 0), unchanged(11));
    assert_eq!(write(&shape, &received[..], 1, 8), unchanged(17));
    assert_eq!(write(&shape, &received[..], 1, 9), (0, 9, [2, 1, 2, 2, 8, 2, 1, 3, 4]));

    let mut resend = [9; RECOVERY_LINE_RESEND_WORDS + 1];
    for words in [0, RECOVERY_LINE_RESEND_WORDS - 1, RECOVERY_LINE_RESEND_WORDS + 1] {
        let answer = raw::read_resend(0, &[], &mut resend[..words]);
        assert_eq!(answer, Err(Refusal::WRONG_LENGTH));
    }
    let answer = raw::read_resend(2, &[2, 1, 2, 1, 1], &mut resend[..RECOVERY_LINE_RESEND_WORDS]);
    assert_eq!(
        (answer.unwrap_err().question(), resend),
        (3, [9; RECOVERY_LINE_RESEND_WORDS + 1])
    );
}
