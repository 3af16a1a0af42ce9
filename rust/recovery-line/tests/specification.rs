//! The specification's own examples, through the wrapper.

use recovery_line::{Checkpoint, Count, Process, Purpose, Refusal, Set, Tables};

const EXAMPLE_1: &str = "03 02 00 00 00 00 00 00 04 05 02 00 00 00 00 03 00 00 00 02 00 00 00 00 07 00 00 00";
const EXAMPLE_6: &str = "03 \
    04 00 00 00 00 00 01 00 00 01 01 01 00 02 01 02 00 \
    04 00 00 00 00 00 00 01 00 01 00 02 00 02 00 03 00 \
    02 00 00 00 00 00 00 01 00";

fn bytes(hex: &str) -> Vec<u8> {
    hex.split_whitespace()
        .map(|byte| u8::from_str_radix(byte, 16).unwrap())
        .collect()
}

fn tables(hex: &str) -> Tables {
    Tables::read(&bytes(hex)).unwrap()
}

fn question(hex: &str) -> u32 {
    Tables::read(&bytes(hex)).map_or_else(Refusal::question, |_| 0)
}

fn set(numbers: &[u64]) -> Set {
    let checkpoints: Vec<Checkpoint> = numbers.iter().copied().map(Checkpoint::new).collect();
    Set::new(&checkpoints).unwrap()
}

/// The line, T, the rounds and the messages of a search with purpose 3.
fn searched(hex: &str, initiator: u64) -> (String, u64, u64, u64) {
    let search = tables(hex)
        .search(Process::new(initiator), Purpose::AdvanceAndRestart)
        .unwrap();
    (search.set.to_string(), search.newer, search.rounds, search.messages)
}

#[test]
fn an_empty_book_is_refused() {
    assert_eq!(question(""), 3);
}

#[test]
fn one_process_ends_at_once() {
    assert_eq!(searched("01 03", 1), ("3".into(), 0, 0, 0));
}

#[test]
fn two_processes_with_one_checkpoint_each() {
    assert_eq!(searched("02 01 00 00 01 00 00", 1), ("1 1".into(), 0, 1, 3));
}

#[test]
fn example_1() {
    let tables = tables(EXAMPLE_1);
    let pair = tables.test_set(&set(&[2, 2, 2])).unwrap();
    assert_eq!(pair, Some((Process::new(1), Process::new(2))));
    assert_eq!(tables.test_set(&set(&[1, 2, 2])).unwrap(), None);
    let line = tables.find_line().unwrap();
    assert_eq!((line.set, line.passed), (set(&[1, 2, 2]), 1));
    for initiator in 1..=3 {
        assert_eq!(searched(EXAMPLE_1, initiator), ("1 2 2".into(), 1, 2, 10));
    }
}

#[test]
fn example_6() {
    assert_eq!(searched(EXAMPLE_6, 1), ("2 1 2".into(), 5, 3, 12));
    assert_eq!(searched(EXAMPLE_6, 2), ("2 1 2".into(), 5, 3, 12));
    assert_eq!(searched(EXAMPLE_6, 3), ("2 1 2".into(), 5, 6, 18));
}

#[test]
fn example_6_moved() {
    let mut tables = tables(EXAMPLE_6);
    let announced = tables.restart_order(Purpose::Advance).unwrap();
    let order = tables.move_line(Purpose::Advance).unwrap();
    assert_eq!(order, announced);
    let rows: Vec<_> = order
        .iter()
        .map(|r| (r.process.number(), r.from.number(), r.before, r.after))
        .collect();
    assert_eq!(rows, [(1, 2, 1, 0), (2, 1, 0, 0), (3, 2, 1, 0)]);
    let moved = "03 \
        03 00 00 00 00 01 00 01 00 02 00 02 00 \
        04 00 00 00 00 00 00 01 00 01 00 02 00 02 00 03 00 \
        01 00 00 00 00";
    assert_eq!(tables.write().unwrap(), bytes(moved));
    assert_eq!(tables.find_line().unwrap().set, set(&[1, 1, 1]));
}

/// The book that a move leaves.
fn moved(hex: &str, purpose: Purpose) -> Vec<u8> {
    let mut tables = tables(hex);
    assert_eq!(tables.restart_order(purpose), tables.move_line(purpose));
    tables.write().unwrap()
}

/// What processes 2 and 3 sent to 1 before the line stays in their sent counters: 1 receives it after the line.
#[test]
fn example_1_moved() {
    let advanced = "03 02 00 00 00 00 00 00 04 05 01 03 00 00 00 01 07 00 00 00";
    let restarted = "03 01 00 00 00 00 01 03 00 00 00 01 07 00 00 00";
    assert_eq!(moved(EXAMPLE_1, Purpose::Advance), bytes(advanced));
    assert_eq!(moved(EXAMPLE_1, Purpose::AdvanceAndRestart), bytes(restarted));
    assert_eq!(moved(advanced, Purpose::Advance), bytes(advanced));
    assert_eq!(moved(advanced, Purpose::Restart), bytes(restarted));
    let first = "03 01 00 00 00 00 01 00 00 00 00 01 00 00 00 00";
    assert_eq!(moved(EXAMPLE_1, Purpose::Restart), bytes(first));
}

/// Process 1 receives after the move what 2 sent before it: its next checkpoint is on the line, moved or not.
#[test]
fn a_message_crosses_the_line() {
    assert_eq!(
        moved("02 01 00 00 02 00 00 01 00", Purpose::Advance),
        bytes("02 01 00 00 01 01 00")
    );
    let line = |hex: &str| tables(hex).find_line().unwrap().set;
    assert_eq!(line("02 02 00 00 00 01 02 00 00 01 00"), set(&[2, 2]));
    assert_eq!(line("02 02 00 00 00 01 01 01 00"), set(&[2, 1]));
}

#[test]
fn a_bare_restart_keeps_the_oldest() {
    let mut tables = tables(EXAMPLE_6);
    let search = tables.search(Process::new(2), Purpose::Restart).unwrap();
    assert_eq!(
        (search.set, search.newer, search.rounds, search.messages),
        (set(&[1, 1, 1]), 7, 0, 2)
    );
    let order = tables.move_line(Purpose::Restart).unwrap();
    let rows: Vec<_> = order.iter().map(|r| (r.from.number(), r.before, r.after)).collect();
    assert_eq!(rows, [(1, 0, 3), (1, 0, 3), (1, 0, 1)]);
    assert_eq!(
        tables.write().unwrap(),
        bytes("03 01 00 00 00 00 01 00 00 00 00 01 00 00 00 00")
    );
}

#[test]
fn a_book_is_written_as_it_was_read() {
    for book in ["01 03", EXAMPLE_1, EXAMPLE_6, "02 02 00 00 FE FF FF FF 0F 00 01 00 00"] {
        assert_eq!(tables(book).write().unwrap(), bytes(book));
    }
}

#[test]
fn numbers_have_one_form() {
    assert_eq!(tables("01 7F").checkpoints(Process::new(1)), 127);
    assert_eq!(tables("01 80 01").checkpoints(Process::new(1)), 128);
    assert_eq!(question("01 80 00"), 3);
    assert_eq!(question("01 80"), 3);
    assert_eq!(question("02 02 00 00 FE FF FF FF 0F 00 01 00 00"), 0);
    assert_eq!(question("02 02 00 00 FF FF FF FF 0F 00 01 00 00"), 6);
    assert_eq!(question("02 02 00 00 FF FF FF FF 1F 00 01 00 00"), 3);
}

#[test]
fn bounds() {
    let sixteen = "10".to_string() + &(" 01".to_string() + &" 00".repeat(30)).repeat(16);
    assert_eq!(tables(&sixteen).processes(), 16);
    assert_eq!(question("00"), 4);
    assert_eq!(question("11"), 4);
    assert_eq!(question("01 80 02"), 0);
    assert_eq!(question("01 81 02"), 5);
    assert_eq!(question("01 00"), 5);
    assert_eq!(Tables::read(&[0; 65_537]).unwrap_err().question(), 1);
}

#[test]
fn damaged_counters() {
    assert_eq!(question("02 01 00 01 01 00 00"), 7);
    assert_eq!(question("02 03 00 00 05 00 04 00 01 00 00"), 8);
    assert_eq!(question("02 01 00 00 01 00 00 00"), 9);
}

/// An oldest checkpoint may have sent what is on its way; it meets 6, and the next one meets 8.
#[test]
fn oldest_sent_counters() {
    for book in ["02 01 01 00 01 00 00", "02 02 05 00 05 00 01 FE FF FF FF 0F 00"] {
        assert_eq!(tables(book).write().unwrap(), bytes(book));
    }
    assert_eq!(question("02 01 FF FF FF FF 0F 00 01 00 00"), 6);
    assert_eq!(question("02 01 01 01 01 00 00"), 7);
    assert_eq!(question("02 02 05 00 04 00 01 00 00"), 8);
}

#[test]
fn counters_by_name() {
    let tables = tables(EXAMPLE_1);
    let (one, two, newest) = (Process::new(1), Process::new(2), Checkpoint::new(2));
    assert_eq!(tables.received_from(one, newest, two), Some(Count::new(4)));
    assert_eq!(tables.sent_to(two, newest, one), Some(Count::new(3)));
    assert_eq!(tables.sent_to(two, Checkpoint::OLDEST, one), Some(Count::new(0)));
    assert_eq!(tables.sent_to(two, Checkpoint::new(3), one), None);
    assert_eq!(tables.sent_to(two, Checkpoint::new(0), one), None);
    assert_eq!(tables.sent_to(Process::new(4), newest, one), None);
    assert_eq!(tables.sent_to(Process::new(u64::MAX), newest, one), None);
    assert_eq!(tables.checkpoints(Process::new(0)), 0);
}
