//! 01's "Books and sessions tried", and K's example 6 message by message.

mod hex;

use hex::bytes;
use reference::*;

const K1: &str = "03 02 00 00 00 00 00 00 04 05 02 00 00 00 00 03 00 00 00 \
                  02 00 00 00 00 07 00 00 00";
/// K's example 6, its checkpoints as steps 1 to 8 give them.
const K6: &str = "03 04 00 00 00 00 00 01 00 00 01 01 01 00 02 01 02 00 \
                  04 00 00 00 00 00 00 01 00 01 00 02 00 02 00 03 00 02 00 00 00 00 00 00 01 00";

struct Tables {
    shape: Shape,
    sent: Vec<Counter>,
    received: Vec<Counter>,
}

fn read_bytes(book: &[u8]) -> Result<Tables, u32> {
    let (mut sent, mut received) = (vec![5; ENTRIES], vec![6; ENTRIES]);
    let answer = read(book, &mut sent, &mut received);
    if answer.is_err() {
        assert!(sent.iter().all(|&entry| entry == 5) && received.iter().all(|&entry| entry == 6));
    }
    answer.map(|shape| Tables { shape, sent, received })
}

fn read_hex(hex: &str) -> Result<Tables, u32> {
    read_bytes(&bytes(hex))
}

fn set(checkpoints: &[u64]) -> [u64; PROCESSES] {
    let mut set = [0; PROCESSES];
    set[..checkpoints.len()].copy_from_slice(checkpoints);
    set
}

/// Line, T, rounds and messages of a search.
fn assert_search(hex: &str, initiator: u64, line: &[u64], passed: u64, rounds: u32, messages: u32) {
    let t = read_hex(hex).unwrap();
    assert_eq!(find_line(&t.shape, &t.sent, &t.received), Ok((set(line), passed)));
    for purpose in [1, 3] {
        let found = search(&t.shape, &t.sent, &t.received, initiator, purpose);
        assert_eq!(
            found,
            Ok(Searched {
                set: set(line),
                newer: passed,
                rounds,
                messages
            })
        );
    }
}

fn assert_refused(hex: &str, question: u32) {
    assert_eq!(read_hex(hex).err(), Some(question), "{hex}");
}

#[test]
fn small_books() {
    assert_refused("", 3);
    assert_search("01 03", 1, &[3], 0, 0, 0);
    assert_search("02 01 00 00 01 00 00", 1, &[1, 1], 0, 1, 3);
}

#[test]
fn example_1_of_k() {
    let t = read_hex(K1).unwrap();
    let all_newest = set(&[2, 2, 2]);
    assert_eq!(test_set(&t.shape, &t.sent, &t.received, &all_newest), Ok(Some((1, 2))));
    assert_eq!(test_set(&t.shape, &t.sent, &t.received, &set(&[1, 2, 2])), Ok(None));
    assert_eq!(test_set(&t.shape, &t.sent, &t.received, &set(&[1, 2, 3])), Err(12));
    assert_eq!(test_set(&t.shape, &t.sent, &t.received, &set(&[1, 2, 2, 1])), Err(12));
    for initiator in 1..=3 {
        assert_search(K1, initiator, &[1, 2, 2], 1, 2, 10);
    }
}

#[test]
fn example_6_of_k() {
    assert_search(K6, 1, &[2, 1, 2], 5, 3, 12);
    assert_search(K6, 2, &[2, 1, 2], 5, 3, 12);
    assert_search(K6, 3, &[2, 1, 2], 5, 6, 18);
}

#[test]
fn example_6_of_k_moved() {
    // Step 16, read with C3,2 as P3's: S13 falls by 1 in P1's checkpoints, R31 in P3's.
    let moved = "03 03 00 00 00 00 01 00 01 00 02 00 02 00 \
                 04 00 00 00 00 00 00 01 00 01 00 02 00 02 00 03 00 01 00 00 00 00";
    let mut t = read_hex(K6).unwrap();
    let order = move_line(&mut t.shape, &mut t.sent, &mut t.received, 1).unwrap();
    assert_eq!(t.shape.counts, set(&[3, 4, 1]));
    assert_eq!(
        order,
        Order {
            from: set(&[2, 1, 2]),
            before: set(&[1, 0, 1]),
            after: set(&[]),
            resend: Vec::new(),
        }
    );
    let expected = read_hex(moved).unwrap();
    assert_eq!((t.sent, t.received), (expected.sent, expected.received));
}

#[test]
fn example_6_of_k_restarted() {
    let order = |purpose| {
        let mut t = read_hex(K6).unwrap();
        let asked = restart_order(&t.shape, &t.sent, &t.received, purpose);
        let order = move_line(&mut t.shape, &mut t.sent, &mut t.received, purpose);
        assert_eq!(asked, order);
        assert_eq!(t.shape.counts, set(&[1, 1, 1]));
        assert!(t.sent.iter().chain(&t.received).all(|&counter| counter == 0));
        order.unwrap()
    };
    let after = set(&[3, 3, 1]);
    assert_eq!(
        order(2),
        Order {
            from: set(&[1, 1, 1]),
            before: set(&[]),
            after,
            resend: Vec::new(),
        }
    );
    let (before, after) = (set(&[1, 0, 1]), set(&[2, 3, 0]));
    assert_eq!(
        order(3),
        Order {
            from: set(&[2, 1, 2]),
            before,
            after,
            resend: Vec::new(),
        }
    );
}

/// Moves a book: the book after it, and for each process the checkpoint restarted from, and how many go before and after it.
fn moved(hex: &str, purpose: u64) -> (Vec<u8>, Vec<(u64, u64, u64)>) {
    let mut t = read_hex(hex).unwrap();
    let order = move_line(&mut t.shape, &mut t.sent, &mut t.received, purpose).unwrap();
    let mut book = vec![0; BOOK_BYTES];
    let length = write(&t.shape, &t.sent, &t.received, &mut book).unwrap();
    book.truncate(length);
    let of_process = |j: usize| (order.from[j], order.before[j], order.after[j]);
    (book, (0..t.shape.n as usize).map(of_process).collect())
}

/// What 2 and 3 sent to 1 before the line is received after it: it stays in their sent counters (E4).
#[test]
fn example_1_of_k_moved() {
    let advanced = "03 02 00 00 00 00 00 00 04 05 01 03 00 00 00 01 07 00 00 00";
    assert_eq!(moved(K1, 1), (bytes(advanced), vec![(1, 0, 0), (2, 1, 0), (2, 1, 0)]));
    let first = "03 01 00 00 00 00 01 00 00 00 00 01 00 00 00 00";
    assert_eq!(moved(K1, 2), (bytes(first), vec![(1, 0, 1); 3]));
    let restarted = "03 01 00 00 00 00 01 03 00 00 00 01 07 00 00 00";
    assert_eq!(moved(K1, 3), (bytes(restarted), vec![(1, 0, 1), (2, 1, 0), (2, 1, 0)]));
    // With 2 nothing comes off, and what is on its way stays.
    assert_eq!(moved(advanced, 2).0, bytes(restarted));
}

/// The smallest book in which a message crosses the line: 1 receives it after the move, and its checkpoint is on the line.
#[test]
fn a_message_on_its_way() {
    let book = "02 01 00 00 02 00 00 01 00";
    let advanced = bytes("02 01 00 00 01 01 00");
    assert_eq!(moved(book, 1), (advanced.clone(), vec![(1, 0, 0), (2, 1, 0)]));
    assert_eq!(moved(book, 3).0, advanced);
    assert_search("02 02 00 00 00 01 02 00 00 01 00", 1, &[2, 2], 0, 1, 3);
    assert_search("02 02 00 00 00 01 01 01 00", 1, &[2, 1], 0, 1, 3);
}

/// Steps 9 to 15 of the example (step 11 sends S3,2,1): each turn, and what it leaves waiting.
#[test]
fn example_6_of_k_by_messages() {
    let t = read_hex(K6).unwrap();
    let mut strands = [0; 32];
    let mut session = session_start(&t.shape, &t.sent, &t.received, 2, 1, &mut strands).unwrap();
    assert_waiting(&session, &strands, "01 01 02 01 02 02", "01 01 02 01 02 00");
    let turns = [
        (1, "02 01 01 02 02 02 03 01", "01 01 02 01 02 00"),
        (3, "02 01 01 02 02 02 03 01", "02 01 03 02 01 00 02 00"),
        (3, "02 01 01 02 02 02 03 01", ""),
        (1, "02 01 02 02 02 01 03 00", "02 01 02 01 01 01"),
        (3, "02 01 02 02 02 01 03 00", "02 01 03 00"),
        (1, "02 01 01 01 02 01", "02 01 03 00"),
        (1, "", "02 01 03 00"),
        (3, "02 01 02 01 02 00", ""),
        (1, "02 01 01 01 02 00", ""),
        (1, "02 01 02 00", "02 01 02 00"),
        (3, "02 01 02 00", ""),
        (1, "", ""),
    ];
    for (p, first, third) in turns {
        session_turn(&mut session, &t.shape, &t.sent, &t.received, p, &mut strands).unwrap();
        assert_waiting(&session, &strands, first, third);
    }
    assert_eq!((session.machine.rounds, session.delivered), (3, 12));
    let again = session_turn(&mut session, &t.shape, &t.sent, &t.received, 1, &mut strands);
    assert_eq!(again, Err(18));
}

/// What waits on the strands of 1 and 3, in slots of 16 bytes.
fn assert_waiting(session: &Session, strands: &[u8], first: &str, third: &str) {
    assert_eq!(strands[..session.lengths[0] as usize], bytes(first));
    assert_eq!(strands[16..16 + session.lengths[2] as usize], bytes(third));
}

#[test]
fn numbers_of_seven_bit_groups() {
    // Two processes; the second checkpoint of the first has sent the number.
    let counter = |number: &str| format!("02 02 00 00 {number} 00 01 00 00");
    for (number, value) in [
        ("7f", 127),
        ("80 01", 128),
        ("fe ff ff ff 0f", 4_294_967_294),
        ("80 80 80 80 08", 1 << 31),
    ] {
        let t = read_hex(&counter(number)).unwrap();
        assert_eq!(t.sent[PROCESSES + 1], value);
        let mut out = [0xee; 64];
        let length = write(&t.shape, &t.sent, &t.received, &mut out).unwrap();
        assert_eq!(out[..length], bytes(&counter(number)));
        assert!(out[length..].iter().all(|&byte| byte == 0xee));
        let short = &mut out[..length - 1];
        assert_eq!(write(&t.shape, &t.sent, &t.received, short), Err(17));
    }
    assert_refused(&counter("80 00"), 3);
    assert_refused(&counter("ff ff ff ff 0f"), 6);
    assert_refused(&counter("ff ff ff ff 1f"), 3);
    assert_refused(&counter("80 80 80 80 80 01"), 3);
}

#[test]
fn bounds_of_a_book() {
    for n in [0, 17] {
        assert_eq!(read_bytes(&[n]).err(), Some(4));
    }
    let mut sixteen = vec![16];
    for _ in 0..16 {
        sixteen.push(1);
        sixteen.extend([0; 30]);
    }
    assert!(read_bytes(&sixteen).is_ok());
    assert!(read_hex("01 80 02").is_ok());
    assert_refused("01 81 02", 5);
    assert_refused("01 00", 5);
    assert_eq!(read_bytes(&vec![0; BOOK_BYTES + 1]).err(), Some(1));
    assert_eq!(read(&[1, 1], &mut [0; ENTRIES], &mut [0; ENTRIES - 1]), Err(2));
}

#[test]
fn counters_of_a_book() {
    assert_refused("02 01 00 01 01 00 00", 7);
    assert_refused("02 01 00 00 01 00 01", 7);
    assert_refused("02 01 00 ff ff ff ff 0f 01 00 00", 6);
    assert_refused("02 03 00 00 02 00 01 00 01 00 00", 8);
    assert_refused("02 01 00 00 01 00 00 80", 9);
    assert_refused("02 01 00 00 01 00", 3);
}

/// "An oldest checkpoint may thus have sent counters above zero" (E4); they still meet 6, and later ones 8.
#[test]
fn oldest_checkpoints_have_sent() {
    assert_search("02 01 01 00 01 00 00", 1, &[1, 1], 0, 1, 3);
    assert_search("02 01 fe ff ff ff 0f 00 01 7f 00", 1, &[1, 1], 0, 1, 3);
    assert_refused("02 01 ff ff ff ff 0f 00 01 00 00", 6);
    assert_refused("02 01 01 01 01 00 00", 7);
    assert_refused("02 02 05 00 04 00 01 00 00", 8);
    // 2's oldest has sent 3 less than 1's newest, whose row stands before its own.
    let book = "03 02 00 00 00 00 00 05 00 00 01 00 02 00 00 01 00 00 00 00";
    let mut t = read_hex(book).unwrap();
    assert_eq!(check(&t.shape, &t.sent, &t.received), Ok(()));
    t.sent[ENTRIES - 1] = 1;
    assert_eq!(check(&t.shape, &t.sent, &t.received), Err(9));
    t.received[2 * PROCESSES + 2] = 1;
    assert_eq!(check(&t.shape, &t.sent, &t.received), Err(7));
    t.sent[2 * PROCESSES + 2] = MARK;
    assert_eq!(check(&t.shape, &t.sent, &t.received), Err(6));
}
