//! Journals: the books that they build, and the order of the questions.

mod hex;

use hex::bytes;
use reference::*;

const K1: &str = "03 02 00 00 00 00 00 00 04 05 02 00 00 00 00 03 00 00 00 \
                  02 00 00 00 00 07 00 00 00";
const K6: &str = "03 04 00 00 00 00 00 01 00 00 01 01 01 00 02 01 02 00 \
                  04 00 00 00 00 00 00 01 00 01 00 02 00 02 00 03 00 02 00 00 00 00 00 00 01 00";

/// The book that a journal builds, or the question that refuses it, nothing then changed.
fn built(journal: &[u8]) -> Result<Vec<u8>, u32> {
    let (mut sent, mut received) = (vec![5; ENTRIES], vec![6; ENTRIES]);
    let answer = read_journal(journal, &mut sent, &mut received);
    if answer.is_err() {
        assert!(sent.iter().all(|&entry| entry == 5) && received.iter().all(|&entry| entry == 6));
    }
    let shape = answer?;
    let mut book = vec![0; BOOK_BYTES];
    let length = write(&shape, &sent, &received, &mut book).expect("a built book passes the check");
    book.truncate(length);
    Ok(book)
}

fn built_hex(journal: &str) -> Result<Vec<u8>, u32> {
    built(&bytes(journal))
}

fn question(journal: &str) -> u32 {
    built_hex(journal).err().unwrap_or(0)
}

/// Steps 2 to 4 of the example; "promptly received" is a receipt right after the sending.
#[test]
fn example_1_of_k() {
    let (second, third) = ("01 02 01 02 01 02 ", "01 03 01 02 01 03 ");
    let journal = [
        "03 ",
        &second.repeat(3),
        "03 02 ",
        second,
        &third.repeat(5),
        "03 01 ",
        &third.repeat(2),
        "03 03",
    ];
    assert_eq!(built_hex(&journal.concat()), Ok(bytes(K1)));
}

/// Steps 2 to 8 of the example.
#[test]
fn example_6_of_k() {
    let to_second = "01 01 02 02 02 01 03 02 ";
    let to_first = "01 02 01 02 01 02 03 01 ";
    let journal = [
        "03 01 01 03 03 01 02 03 01 03 03 ",
        to_second,
        to_first,
        to_second,
        to_first,
        to_second,
    ];
    assert_eq!(built_hex(&journal.concat()), Ok(bytes(K6)));
}

/// A message sent after a process's last checkpoint is in no checkpoint, and can be received all the same.
#[test]
fn what_follows_the_last_checkpoint_is_not_in_the_book() {
    let book = "02 02 00 00 01 00 02 00 00 00 02";
    assert_eq!(
        built_hex("02 01 01 02 03 01 01 01 02 02 02 01 02 02 01 03 02"),
        Ok(bytes(book))
    );
    assert_eq!(built_hex("02 01 01 02 02 02 01"), Ok(bytes("02 01 00 00 01 00 00")));
}

#[test]
fn no_event_at_all() {
    assert_eq!(built_hex("01"), Ok(bytes("01 01")));
    let mut sixteen = vec![16];
    for _ in 0..16 {
        sixteen.push(1);
        sixteen.extend([0; 30]);
    }
    assert_eq!(built_hex("10"), Ok(sixteen));
}

#[test]
fn bytes_tables_and_n_come_first() {
    assert_eq!(built(&vec![0; JOURNAL_BYTES + 1]), Err(1));
    let lent = |sent: usize, received: usize, journal: &[u8]| {
        let (mut sent, mut received) = (vec![0; sent], vec![0; received]);
        read_journal(journal, &mut sent, &mut received).err()
    };
    assert_eq!(lent(ENTRIES - 1, ENTRIES, &vec![0; JOURNAL_BYTES + 1]), Some(1));
    for (sent, received) in [(ENTRIES - 1, ENTRIES), (ENTRIES, ENTRIES + 1), (0, 0)] {
        assert_eq!(lent(sent, received, &[]), Some(2));
    }
    for (journal, answer) in [
        ("", 3),
        ("80", 3),
        ("81 00", 3),
        ("FF FF FF FF 1F", 3),
        ("80 80 80 80 80 01", 3),
    ] {
        assert_eq!(question(journal), answer, "{journal}");
    }
    for journal in ["00", "11", "90 01", "FF FF FF FF 0F", "00 09"] {
        assert_eq!(question(journal), 4, "{journal}");
    }
}

#[test]
fn an_event_has_its_shape() {
    let of_kind = ["02 00", "02 04", "02 04 01 02", "02 81 00 01 02"];
    let cut = [
        "02 01",
        "02 01 01",
        "02 01 63",
        "02 03",
        "02 03 80",
        "02 01 02 81",
        "02 01 01 02 03",
    ];
    let of_form = [
        "02 03 81 00",
        "02 01 81 00 02",
        "02 01 01 82 00",
        "02 03 FF FF FF FF 1F",
        "02 01 03 FF FF FF FF 1F",
    ];
    let of_partner = [
        "02 01 01 01",
        "02 02 01 01",
        "02 01 03 03",
        "02 02 00 00",
        "01 01 01 01",
    ];
    for journal in of_kind.iter().chain(&cut).chain(&of_form).chain(&of_partner) {
        assert_eq!(question(journal), 19, "{journal}");
    }
}

#[test]
fn names_come_after_the_shape() {
    let journals = [
        "02 03 00",
        "02 03 03",
        "02 03 FF FF FF FF 0F",
        "02 01 03 01",
        "02 01 01 03",
        "02 02 00 01",
        "02 02 01 00",
        "01 01 01 02",
        "01 02 02 01",
        "01 03 02",
    ];
    for journal in journals {
        assert_eq!(question(journal), 10, "{journal}");
    }
}

#[test]
fn a_receipt_needs_a_message_underway() {
    assert_eq!(question("02 01 01 02 02 02 01"), 0);
    assert_eq!(question("02 02 02 01 01 01 02"), 20);
    assert_eq!(question("02 01 01 02 02 01 02"), 20, "the other way");
    assert_eq!(question("02 01 01 02 02 02 01 02 02 01"), 20, "received already");
    assert_eq!(question("03 01 01 02 02 03 01"), 20, "sent to another");
}

/// Checkpoint events of process 1.
fn checkpoints(n: u8, events: usize) -> Vec<u8> {
    [vec![n], [3, 1].repeat(events)].concat()
}

#[test]
fn at_most_256_checkpoints() {
    assert_eq!(built(&checkpoints(1, 255)), Ok(bytes("01 80 02")));
    assert_eq!(built(&checkpoints(1, 256)), Err(5));
    assert!(built(&checkpoints(16, 240)).is_ok());
    assert_eq!(built(&checkpoints(16, 241)), Err(5));
    let full = checkpoints(16, 240);
    for (event, answer) in [([3, 17, 0], 10), ([2, 1, 2], 20), ([3, 1, 9], 5), ([9, 3, 1], 19)] {
        assert_eq!(built(&[&full[..], &event].concat()), Err(answer));
    }
    assert!(built(&[&full[..], &[1, 1, 2]].concat()).is_ok());
}

#[test]
fn the_largest_journal() {
    let sent = |events: usize| [vec![2], [1, 1, 2].repeat(events)].concat();
    let journal = [sent(21_844), vec![3, 1]].concat();
    assert_eq!(journal.len(), JOURNAL_BYTES - 1);
    assert_eq!(built(&journal), Ok(bytes("02 02 00 00 D4 AA 01 00 01 00 00")));
    let largest = sent(21_845);
    assert_eq!(largest.len(), JOURNAL_BYTES);
    assert_eq!(built(&largest), Ok(bytes("02 01 00 00 01 00 00")));
    assert_eq!(built(&[largest, vec![3]].concat()), Err(1));
    let exchanged = [vec![2], [1, 1, 2, 2, 2, 1].repeat(10_922), vec![3, 2]].concat();
    assert_eq!(built(&exchanged), Ok(bytes("02 01 00 00 02 00 00 00 AA 55")));
}

#[test]
fn over_words_a_wrong_length_comes_first() {
    let (mut sent, mut received) = (vec![3; 1], vec![3; 1]);
    let too_long = vec![0; JOURNAL_BYTES + 1];
    for length in [0, words::SHAPE_WORDS - 1, words::SHAPE_WORDS + 1] {
        let answer = words::journal(&too_long, &mut vec![7; length], &mut sent, &mut received);
        assert_eq!(answer, words::WRONG_LENGTH);
    }
    let mut shape = [7; words::SHAPE_WORDS];
    assert_eq!(words::journal(&too_long, &mut shape, &mut sent, &mut received), 1);
    assert_eq!(shape, [7; words::SHAPE_WORDS]);
    let (mut sent, mut received) = (vec![3; ENTRIES], vec![3; ENTRIES]);
    assert_eq!(
        words::journal(&[2, 3, 2, 3, 2], &mut shape, &mut sent, &mut received),
        0
    );
    assert_eq!(shape[..4], [2, 1, 3, 0]);
}
