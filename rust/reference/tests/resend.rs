//! What to send again: lists of orders, and lists that are read.

mod hex;

use hex::bytes;
use reference::*;

/// K's example 1: on its line 1 2 2 process 2 has sent 3 messages to process 1, and 3 has sent 7, of which 1 has received none.
const K1: &str = "03 02 00 00 00 00 00 00 04 05 02 00 00 00 00 03 00 00 00 02 00 00 00 00 07 00 00 00";

/// On the line 4 4 of this book process 2 has received 1 of the 8 messages from 1, and 1 has received 2 of the 4 from 2.
const BOTH_WAYS: &str = "02 04 02 00 04 02 07 02 08 02 04 00 00 02 01 03 01 04 01";

struct Tables {
    shape: Shape,
    sent: Vec<Counter>,
    received: Vec<Counter>,
}

fn tables(hex: &str) -> Tables {
    let (mut sent, mut received) = (vec![0; ENTRIES], vec![0; ENTRIES]);
    let shape = read(&bytes(hex), &mut sent, &mut received).unwrap();
    Tables { shape, sent, received }
}

fn entries(list: &[Repeat]) -> Vec<(u64, u64, Counter, Counter)> {
    let of_entry = |entry: &Repeat| (entry.sender, entry.receiver, entry.first, entry.last);
    list.iter().map(of_entry).collect()
}

/// The entries of an order, which the list of bytes that is written has too.
fn list_of(t: &Tables, purpose: u64) -> Vec<(u64, u64, Counter, Counter)> {
    let order = restart_order(&t.shape, &t.sent, &t.received, purpose).unwrap();
    let written = written(t, purpose);
    assert_eq!(read_resend(t.shape.n, &written), Ok(order.resend.clone()));
    entries(&order.resend)
}

fn written(t: &Tables, purpose: u64) -> Vec<u8> {
    let mut out = vec![0xEE; 3000];
    let length = write_resend(&t.shape, &t.sent, &t.received, purpose, &mut out).unwrap();
    assert!(out[length..].iter().all(|&byte| byte == 0xEE));
    out.truncate(length);
    out
}

/// The same entries, each counted from 1.
fn from_one(list: &[(u64, u64, Counter, Counter)]) -> Vec<(u64, u64, Counter, Counter)> {
    list.iter()
        .map(|&(p, q, first, last)| (p, q, 1, last - first + 1))
        .collect()
}

#[test]
fn example_1_of_k() {
    let t = tables(K1);
    let list = [(2, 1, 1, 3), (3, 1, 1, 7)];
    for purpose in [1, 3] {
        assert_eq!(list_of(&t, purpose), list);
        assert_eq!(written(&t, purpose), bytes("02 02 01 01 03 03 01 01 07"));
    }
    assert_eq!(list_of(&t, 2), []);
    assert_eq!(written(&t, 2), [0]);
}

/// "As counted before the move": the order of a move, and then the moved book's own list for purpose 2, counted from 1.
#[test]
fn counted_before_the_move() {
    for (book, list) in [
        (K1, vec![(2, 1, 1, 3), (3, 1, 1, 7)]),
        (BOTH_WAYS, vec![(1, 2, 2, 8), (2, 1, 3, 4)]),
    ] {
        for purpose in [1, 3] {
            let mut t = tables(book);
            let order = move_line(&mut t.shape, &mut t.sent, &mut t.received, purpose).unwrap();
            assert_eq!(entries(&order.resend), list);
            assert_eq!(list_of(&t, 2), from_one(&list));
        }
    }
}

/// With purpose 2 the line does not matter: checkpoints 1 have received nothing.
#[test]
fn checkpoints_1() {
    let t = tables(BOTH_WAYS);
    assert_eq!(list_of(&t, 1), [(1, 2, 2, 8), (2, 1, 3, 4)]);
    assert_eq!(list_of(&t, 2), [(1, 2, 1, 2)]);
}

#[test]
fn written_into_the_exact_room() {
    let t = tables(BOTH_WAYS);
    let write_in = |room: usize, purpose: u64| {
        let mut out = vec![0xEE; room];
        let answer = write_resend(&t.shape, &t.sent, &t.received, purpose, &mut out);
        assert!(answer.is_ok() || out.iter().all(|&byte| byte == 0xEE));
        answer
    };
    assert_eq!(write_in(9, 1), Ok(9));
    assert_eq!(write_in(8, 1), Err(17));
    assert_eq!(write_in(0, 1), Err(17));
    assert_eq!(write_in(0, 4), Err(11));
    let short = write_resend(&t.shape, &t.sent[1..], &t.received, 4, &mut []);
    assert_eq!(short, Err(2));
}

fn answer(n: u64, hex: &str) -> u32 {
    read_resend(n, &bytes(hex)).err().unwrap_or(0)
}

#[test]
fn n_and_the_count_come_first() {
    assert_eq!((answer(0, ""), answer(17, ""), answer(1, "")), (4, 4, 3));
    assert_eq!((answer(1, "00"), answer(16, "00")), (0, 0));
    assert_eq!(
        (answer(2, "80"), answer(2, "80 00"), answer(2, "FF FF FF FF 1F")),
        (3, 3, 3)
    );
    assert_eq!(read_resend(2, &[0; 65_537]), Err(21));
}

/// 3 of all four numbers, then 10, then 21.
#[test]
fn entries_are_asked_in_turn() {
    assert_eq!(answer(2, "01 01 02 01 01"), 0);
    assert_eq!(answer(2, "01 00 03 02"), 3);
    assert_eq!(answer(2, "01 00 03 02 81 00"), 3);
    assert_eq!(answer(2, "01 03 03 00 00"), 10);
    assert_eq!(answer(2, "01 00 00 00 00"), 10);
    assert_eq!(answer(2, "01 02 02 01 01"), 21);
    assert_eq!(answer(2, "01 01 02 00 01"), 21);
    assert_eq!(answer(2, "01 01 02 03 02"), 21);
    assert_eq!(answer(1, "01 01 01 01 01"), 21);
    // The first entry that is asked decides, and then the end.
    assert_eq!(answer(2, "02 02 01 01 01 01 02 01 01"), 21);
    assert_eq!(answer(2, "02 01 02 01 01 01 02 01 01"), 21);
    assert_eq!(answer(2, "02 01 01 01 01 03"), 21);
    assert_eq!(answer(2, "02 01 02 01 01 03"), 3);
    assert_eq!(answer(2, "01 01 02 01 01 00"), 21);
    assert_eq!(answer(2, "03 01 02 01 01 02 01 01 01"), 3);
}

/// No question 6 is put: 4,294,967,295 may be a first or a last.
#[test]
fn largest_numbers() {
    let list = read_resend(2, &bytes("01 01 02 FF FF FF FF 0F FF FF FF FF 0F")).unwrap();
    assert_eq!(entries(&list), [(1, 2, MARK, MARK)]);
    let t = tables("02 01 FE FF FF FF 0F 00 01 00 00");
    assert_eq!(list_of(&t, 2), [(1, 2, 1, MARK - 1)]);
}

/// Sixteen processes and every channel, in five groups each: two bytes for the count, and twelve for an entry.
#[test]
fn longest_list() {
    let (mut sent, mut received) = (vec![0; ENTRIES], vec![0; ENTRIES]);
    let shape = Shape {
        n: 16,
        counts: [2; PROCESSES],
    };
    for j in 0..PROCESSES {
        for p in (0..PROCESSES).filter(|&p| p != j) {
            sent[(2 * j + 1) * PROCESSES + p] = MARK - 1;
            received[(2 * j + 1) * PROCESSES + p] = MARK - 2;
        }
    }
    let t = Tables { shape, sent, received };
    assert_eq!(list_of(&t, 1).len(), 240);
    assert_eq!(written(&t, 1).len(), 2 + 16 * 15 * (2 + 2 * 5));
}

#[test]
fn over_words() {
    let t = tables(BOTH_WAYS);
    let shape: Vec<u64> = std::iter::once(t.shape.n).chain(t.shape.counts).collect();
    let mut order = vec![9; words::ORDER_WORDS];
    assert_eq!(words::restart_order(&shape, &t.sent, &t.received, 1, &mut order), 0);
    let mut resend = vec![9; words::RESEND_WORDS];
    assert_eq!(words::read_resend(2, &written(&t, 1), &mut resend), 0);
    assert_eq!(order[3 * PROCESSES..], resend);
    let channels: Vec<usize> = (0..resend.len()).filter(|&at| resend[at] != 0).collect();
    assert_eq!(channels, [1, 16, 256 + 1, 256 + 16]);
    assert_eq!((resend[1], resend[16], resend[257], resend[272]), (2, 3, 8, 4));
    for length in [0, 511, 513] {
        assert_eq!(words::read_resend(0, &[], &mut vec![9; length]), words::WRONG_LENGTH);
    }
    let before = resend.clone();
    assert_eq!(words::read_resend(2, &[1], &mut resend), 3);
    assert_eq!(resend, before);
    let (mut out, mut length) = ([7; 9], 5);
    let short = words::write_resend(&shape[1..], &[], &[], 0, &mut out, &mut length);
    assert_eq!((short, length), (words::WRONG_LENGTH, 5));
    assert_eq!(
        words::write_resend(&shape, &t.sent, &t.received, 1, &mut out, &mut length),
        0
    );
    assert_eq!((length, out), (9, [2, 1, 2, 2, 8, 2, 1, 3, 4]));
}
