//! Journals, through the wrapper.

use recovery_line::sys::{
    RECOVERY_LINE_EVENT_CHECKPOINT, RECOVERY_LINE_EVENT_RECEIVED, RECOVERY_LINE_EVENT_SENT,
    RECOVERY_LINE_JOURNAL_BYTES, RECOVERY_LINE_SHAPE_WORDS, RECOVERY_LINE_TABLE_ENTRIES,
};
use recovery_line::{raw, Checkpoint, Count, Process, Refusal, Tables};

const CHECKPOINT: u8 = RECOVERY_LINE_EVENT_CHECKPOINT as u8;

/// The specification's book of K's example 1.
const EXAMPLE_1: [u8; 28] = [
    3, 2, 0, 0, 0, 0, 0, 0, 4, 5, 2, 0, 0, 0, 0, 3, 0, 0, 0, 2, 0, 0, 0, 0, 7, 0, 0, 0,
];

/// A message sent by one process to another, and received at once.
fn exchange(from: u8, to: u8) -> [u8; 6] {
    let (sent, received) = (RECOVERY_LINE_EVENT_SENT as u8, RECOVERY_LINE_EVENT_RECEIVED as u8);
    [sent, from, to, received, to, from]
}

/// K's example 1, steps 2 to 4.
fn example_1() -> Vec<u8> {
    let mut journal = vec![3];
    journal.extend(exchange(2, 1).repeat(3));
    journal.extend([CHECKPOINT, 2]);
    journal.extend(exchange(2, 1));
    journal.extend(exchange(3, 1).repeat(5));
    journal.extend([CHECKPOINT, 1]);
    journal.extend(exchange(3, 1).repeat(2));
    journal.extend([CHECKPOINT, 3]);
    journal
}

fn question(journal: &[u8]) -> u32 {
    Tables::read_journal(journal).map_or_else(Refusal::question, |_| 0)
}

#[test]
fn a_journal_builds_the_book() {
    let tables = Tables::read_journal(&example_1()).unwrap();
    assert_eq!(tables, Tables::read(&EXAMPLE_1).unwrap());
    assert_eq!(tables.check(), Ok(()));
    assert_eq!(tables.write().unwrap(), EXAMPLE_1);
    assert_eq!(tables.find_line().unwrap().set.to_string(), "1 2 2");
}

/// Process 1 sends once more after its checkpoint; 2 receives one message before its own.
#[test]
fn counters_are_those_of_the_checkpoint() {
    let tables = Tables::read_journal(&[2, 1, 1, 2, 3, 1, 1, 1, 2, 2, 2, 1, 3, 2, 2, 2, 1]).unwrap();
    let (one, two, newest) = (Process::new(1), Process::new(2), Checkpoint::new(2));
    assert_eq!(tables.sent_to(one, newest, two), Some(Count::new(1)));
    assert_eq!(tables.received_from(two, newest, one), Some(Count::new(1)));
    assert_eq!((tables.checkpoints(one), tables.checkpoints(two)), (2, 2));
}

#[test]
fn each_question_refuses() {
    assert_eq!(question(&vec![0; RECOVERY_LINE_JOURNAL_BYTES + 1]), 1);
    assert_eq!(question(&[]), 3);
    assert_eq!(question(&[17]), 4);
    assert_eq!(question(&[2, 1, 99]), 19);
    assert_eq!(question(&[2, 1, 3, 3]), 19);
    assert_eq!(question(&[2, 3, 0x81, 0]), 19);
    assert_eq!(question(&[2, 1, 1, 3]), 10);
    assert_eq!(question(&[2, 2, 1, 2]), 20);
    assert_eq!(question(&[vec![1], [CHECKPOINT, 1].repeat(256)].concat()), 5);
    assert_eq!(question(&[vec![1], [CHECKPOINT, 1].repeat(255)].concat()), 0);
    assert_eq!(question(&[16]), 0);
}

#[test]
fn a_refused_journal_leaves_the_book_before() {
    let mut tables = Tables::read(&EXAMPLE_1).unwrap();
    let before = tables.clone();
    assert_eq!(
        tables.read_journal_over(&[2, 3, 1, 2, 1, 2]).unwrap_err().question(),
        20
    );
    assert_eq!(tables, before);
    tables.read_journal_over(&[1, 3, 1]).unwrap();
    assert_eq!(tables, Tables::read(&[1, 2]).unwrap());
}

#[test]
fn a_refusal_says_its_question() {
    let sentence = |journal: &[u8]| Tables::read_journal(journal).unwrap_err().to_string();
    assert_eq!(
        sentence(&[2, 2, 1, 2]),
        "refused by question 20: Of a receipt: is a message underway from the partner to the process?"
    );
    assert!(sentence(&[2, 4]).starts_with("refused by question 19: Is the event formed"));
}

#[test]
fn lengths_are_asked_first_and_a_refusal_changes_nothing() {
    let (mut shape, too_long) = ([7; RECOVERY_LINE_SHAPE_WORDS], vec![0; RECOVERY_LINE_JOURNAL_BYTES + 1]);
    let (mut sent, mut received) = (
        vec![7; RECOVERY_LINE_TABLE_ENTRIES],
        vec![7; RECOVERY_LINE_TABLE_ENTRIES],
    );
    assert_eq!(
        raw::read_journal(&too_long, &mut shape[1..], &mut sent[1..], &mut received),
        Err(Refusal::WRONG_LENGTH)
    );
    let mut question = |journal: &[u8], cut: usize| {
        let answer = raw::read_journal(journal, &mut shape, &mut sent[cut..], &mut received);
        answer.unwrap_err().question()
    };
    assert_eq!(question(&too_long, 1), 1);
    assert_eq!(question(&[], 1), 2);
    assert_eq!(question(&[], 0), 3);
    assert_eq!(question(&[2, 3, 1, 2, 1, 2], 0), 20);
    assert_eq!(shape, [7; RECOVERY_LINE_SHAPE_WORDS]);
    assert!(sent.iter().chain(&received).all(|&entry| entry == 7));
}
