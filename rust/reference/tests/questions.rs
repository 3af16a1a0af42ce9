//! The order of the questions where 01's examples do not show it, and the calls over words.

mod places;

use places::place_of;
use reference::*;

/// Two processes with two checkpoints each: 1 sent one message, and received the one that 2 sent.
fn tables() -> (Shape, Vec<Counter>, Vec<Counter>) {
    tables_of(&[2, 2, 0, 0, 1, 1, 2, 0, 0, 1, 0])
}

fn tables_of(book: &[u8]) -> (Shape, Vec<Counter>, Vec<Counter>) {
    let (mut sent, mut received) = (vec![0; ENTRIES], vec![0; ENTRIES]);
    let shape = read(book, &mut sent, &mut received).unwrap();
    (shape, sent, received)
}

fn shape_words(shape: &Shape) -> Vec<u64> {
    std::iter::once(shape.n).chain(shape.counts).collect()
}

#[test]
fn tables_meet_all_of_5_before_6() {
    let (shape, mut sent, received) = tables();
    sent[PROCESSES + 1] = MARK;
    assert_eq!(check(&shape, &sent, &received), Err(6));
    let mut damaged = shape.clone();
    damaged.counts[1] = 255;
    assert_eq!(check(&damaged, &sent, &received), Err(5));
    damaged.counts[1] = u64::MAX;
    assert_eq!(check(&damaged, &sent, &received), Err(5));
    damaged.n = 17;
    assert_eq!(check(&damaged, &sent, &received), Err(4));
    assert_eq!(check(&damaged, &sent[1..], &received), Err(2));
}

#[test]
fn unused_entries_are_asked_last() {
    let (shape, sent, received) = tables();
    for unused in [0, 2, 15, 3 * PROCESSES + 1, 4 * PROCESSES, ENTRIES - 1] {
        let mut damaged = sent.clone();
        damaged[unused] = MARK;
        assert_eq!(check(&shape, &damaged, &received), Err(9), "entry {unused}");
    }
    let mut damaged = shape.clone();
    damaged.counts[15] = 1;
    assert_eq!(check(&damaged, &sent, &received), Err(9));
}

#[test]
fn names_meet_10_then_11_before_13() {
    let (shape, sent, received) = tables();
    let first = |me, initiator, purpose| participant_first(&shape, &sent, &received, me, initiator, purpose);
    assert_eq!(first(2, 2, 0), Err(10));
    assert_eq!(first(3, 1, 1), Err(10));
    assert_eq!(first(2, 1, 4), Err(11));
    let mut state = first(2, 1, 1).unwrap();
    let given = |state: &mut Participant| participant_receive(state, &shape, &sent, &received, &[], &mut []);
    assert_eq!(given(&mut state), Err(14));
    state.candidate = 1;
    assert_eq!(given(&mut state), Err(13));
    state.purpose = 0;
    assert_eq!(given(&mut state), Err(11));
    state.initiator = 2;
    assert_eq!(given(&mut state), Err(10));
}

#[test]
fn a_start_asks_room_for_its_messages_only() {
    let (shape, sent, received) = tables();
    let start = |strands: &mut [u8]| session_start(&shape, &sent, &received, 1, 1, strands);
    assert_eq!(start(&mut [0; 5]).err(), Some(17));
    let mut strands = [0; 6];
    let session = start(&mut strands).unwrap();
    assert_eq!(strands, [1, 1, 1, 1, 1, 1]);
    // The report of one pair has six bytes, too; the termination has four.
    let mut turned = session.clone();
    for _ in 0..3 {
        session_turn(&mut turned, &shape, &sent, &received, 2, &mut strands).unwrap();
    }
    assert_eq!(strands, [2, 1, 1, 0, 1, 1]);
    assert_eq!(turned.participants[1].stage, ENDED);
    // What waits must lie within the bytes lent.
    let mut session = session;
    let cut = session_turn(&mut session, &shape, &sent, &received, 2, &mut [1, 1, 1, 1, 1]);
    assert_eq!(cut, Err(13));
}

/// Process 2 has sent the largest counter, so its report fills a slot of ten bytes.
#[test]
fn a_turn_asks_room_for_its_reply() {
    let book = [2, 1, 0, 0, 2, 0, 0, 0xfe, 0xff, 0xff, 0xff, 0x0f, 0];
    let (shape, sent, received) = tables_of(&book);
    for (room, expected) in [(9, Err(17)), (10, Ok(()))] {
        let mut strands = vec![0xee; room];
        let mut session = session_start(&shape, &sent, &received, 1, 1, &mut strands).unwrap();
        let before = (session.clone(), strands.clone());
        let answer = session_turn(&mut session, &shape, &sent, &received, 2, &mut strands);
        assert_eq!(answer, expected);
        assert_eq!(answer.is_err(), before == (session, strands));
    }
}

/// What a turn on participant 2 answers after one change to a session that process 1 started.
fn turn_after(change: impl FnOnce(&mut Session)) -> u32 {
    let (shape, sent, received) = tables();
    let mut strands = [0; 40];
    let mut session = session_start(&shape, &sent, &received, 1, 1, &mut strands).unwrap();
    change(&mut session);
    let before = (session.clone(), strands);
    let answer = session_turn(&mut session, &shape, &sent, &received, 2, &mut strands);
    assert!(answer.is_ok() || before == (session, strands));
    answer.err().unwrap_or(0)
}

#[test]
fn a_session_fits() {
    assert_eq!(turn_after(|_| ()), 0);
    assert_eq!(turn_after(|session| session.n = 3), 13);
    assert_eq!(turn_after(|session| session.purpose = 3), 13);
    assert_eq!(turn_after(|session| session.purpose = 4), 11);
    assert_eq!(turn_after(|session| session.initiator = 2), 10);
    assert_eq!(turn_after(|session| session.machine.me = 2), 13);
    assert_eq!(turn_after(|session| session.machine.me = 3), 10);
    assert_eq!(turn_after(|session| session.machine.awaited[1] = false), 13);
    // Question 13 lists nothing that forbids this; the report to come will not be awaited.
    assert_eq!(turn_after(|session| session.machine.ended = true), 0);
    assert_eq!(turn_after(|session| session.machine.rounds = TALLY_LIMIT - 1), 0);
    assert_eq!(turn_after(|session| session.machine.rounds = TALLY_LIMIT), 13);
    assert_eq!(
        turn_after(|session| session.machine.copy[0][1] = 0),
        13,
        "matrix above copy"
    );
    assert_eq!(turn_after(|session| session.machine.copy[0][1] = 2), 0);
    assert_eq!(turn_after(|session| session.participants[1].initiator = 2), 10);
    assert_eq!(turn_after(|session| session.participants[1].purpose = 3), 13);
    assert_eq!(turn_after(|session| session.participants[1].stage = 3), 13);
}

#[test]
fn unused_places_of_a_session_are_zero() {
    for place in [0, 2, 15] {
        assert_eq!(turn_after(|session| session.lengths[place] = 1), 13);
        assert_eq!(turn_after(|session| session.machine.awaited[place] = true), 13);
        let copied = |session: &mut Session| session.participants[place] = session.participants[1].clone();
        assert_eq!(turn_after(copied), 13);
    }
}

#[test]
fn what_waits_lies_within_its_slot() {
    for length in [5, 7, 11, u64::MAX] {
        assert_eq!(turn_after(|session| session.lengths[1] = length), 13);
    }
    // An emptied strand, and nobody awaited by an initiator that has ended.
    let ended = |session: &mut Session| {
        session.lengths[1] = 0;
        session.machine.awaited[1] = false;
        session.machine.ended = true;
    };
    assert_eq!(turn_after(ended), 18);
}

/// Three processes with one checkpoint each; 3 has reported, and 2 has not been invited yet.
#[test]
fn strands_agree_with_a_waiting_initiator() {
    let (shape, sent, received) = tables_of(&[3, 1, 0, 0, 0, 0, 1, 0, 0, 0, 0, 1, 0, 0, 0, 0]);
    let mut strands = [0; 32];
    let mut session = session_start(&shape, &sent, &received, 1, 1, &mut strands).unwrap();
    for p in [3, 3] {
        session_turn(&mut session, &shape, &sent, &received, p, &mut strands).unwrap();
    }
    strands[16..20].copy_from_slice(&[2, 1, 1, 0]);
    let turn =
        |session: &Session, p| session_turn(&mut session.clone(), &shape, &sent, &received, p, &mut strands.clone());
    assert_eq!(turn(&session, 2), Ok(()));
    assert_eq!(turn(&session, 3), Err(18));
    let mut damaged = session.clone();
    damaged.lengths[2] = 4;
    assert_eq!(turn(&damaged, 2), Err(13), "a termination waits");
    damaged.lengths[2] = 0;
    damaged.machine.awaited[2] = true;
    assert_eq!(turn(&damaged, 2), Err(13), "awaited, and nothing waits");
}

#[test]
fn a_waiting_initiator_awaits_someone() {
    let (shape, sent, received) = tables();
    let mut out = [0; 20];
    let (begun, _) = initiator_begin(&shape, &sent, &received, 1, 1, &mut out).unwrap();
    let report = [2, 1, 2, 1, 1, 1];
    let given =
        |state: &mut Initiator, out: &mut [u8]| initiator_receive(state, &shape, &sent, &received, &report, out);
    let mut idle = begun.clone();
    idle.awaited[1] = false;
    assert_eq!(given(&mut idle, &mut out), Err(13));
    let mut ended = begun.clone();
    assert_eq!(given(&mut ended, &mut out[..3]), Err(17));
    assert_eq!(ended, begun);
    assert_eq!(given(&mut ended, &mut out[..4]).unwrap()[..3], [0, 4, 0]);
    assert_eq!(given(&mut ended, &mut out), Err(15));
}

#[test]
fn messages_to_a_participant() {
    let (shape, sent, received) = tables();
    let invited = |message: &[u8]| {
        let mut state = participant_first(&shape, &sent, &received, 2, 1, 1).unwrap();
        let answer = participant_receive(&mut state, &shape, &sent, &received, message, &mut [0; 10]);
        answer.err().unwrap_or(0)
    };
    assert_eq!(invited(&[1, 1, 1, 1, 1, 1]), 0);
    assert_eq!(invited(&[1, 1, 1, 1, 1, 0xff, 0xff, 0xff, 0xff, 0x0f]), 14, "the mark");
    assert_eq!(invited(&[1, 1, 1, 1, 1, 0x81, 0x00]), 14, "not shortest");
    assert_eq!(invited(&[1, 1, 1, 1, 1, 1, 0]), 14, "something follows");
    assert_eq!(invited(&[1, 1, 2, 1, 2, 1]), 14, "names the reader");
    assert_eq!(invited(&[1, 1, 1, 0]), 14, "no pair");
    assert_eq!(invited(&[2, 2, 1, 0]), 14, "purpose 2 in kind 2");
    assert_eq!(invited(&[1, 2, 1, 0]), 15, "other purpose");
    assert_eq!(invited(&[2, 1, 1, 0]), 15, "not invited yet");
}

#[test]
fn bare_restart_ends_everybody_on_checkpoint_1() {
    let (shape, sent, received) = tables();
    let found = search(&shape, &sent, &received, 1, 2).unwrap();
    assert_eq!((found.set[..3].to_vec(), found.newer), (vec![1, 1, 0], 2));
    assert_eq!((found.rounds, found.messages), (0, 1));
}

#[test]
fn words_of_the_wrong_length_are_refused_first() {
    let (mut sent, mut received) = (vec![3; 1], vec![3; 1]);
    let too_long = vec![0; BOOK_BYTES + 1];
    assert_eq!(
        words::read(&too_long, &mut [0; words::SHAPE_WORDS - 1], &mut sent, &mut received),
        100
    );
    assert_eq!(
        words::read(&too_long, &mut [0; words::SHAPE_WORDS], &mut sent, &mut received),
        1
    );
    assert_eq!(words::check(&[0; words::SHAPE_WORDS + 1], &sent, &received), 100);
    assert_eq!(
        words::session_turn(
            &mut [0; words::SESSION_WORDS - 1],
            &[0; words::SHAPE_WORDS],
            &sent,
            &received,
            1,
            &mut []
        ),
        100
    );
    assert_eq!(
        words::session_turn(
            &mut [0; words::SESSION_WORDS],
            &[0; words::SHAPE_WORDS],
            &sent,
            &received,
            1,
            &mut []
        ),
        2
    );
}

#[test]
fn words_that_do_not_decode_fail_13_after_the_names() {
    let (shape, sent, received) = tables();
    let held = session_start(&shape, &sent, &received, 1, 1, &mut [0; 10]).unwrap();
    let shape = shape_words(&shape);
    let mut strands = [0; 10];
    let mut session = [0; words::SESSION_WORDS];
    let started = words::session_start(&shape, &sent, &received, 1, 1, &mut session, &mut strands);
    assert_eq!(started, 0);
    let mut turn = |word: usize, value: u64, p: u64| {
        let mut damaged = session;
        damaged[word] = value;
        let before = (damaged, strands);
        let answer = words::session_turn(&mut damaged, &shape, &sent, &received, p, &mut strands);
        assert!(answer == 0 || before == (damaged, strands));
        answer
    };
    let place = |change: fn(&mut Session)| place_of(&held, change);
    let delivered = place(|session| session.delivered += 1);
    let ended = place(|session| session.machine.ended ^= true);
    let stage = place(|session| session.participants[1].stage += 1);
    let process = place(|session| session.participants[1].me += 1);
    let purpose = place(|session| session.participants[1].purpose += 1);
    let row = place(|session| session.participants[1].row[0] ^= 1);
    assert_eq!(turn(delivered, 1 << 32, 2), 13);
    assert_eq!(turn(delivered, u64::from(TALLY_LIMIT), 2), 13);
    assert_eq!(turn(delivered, 1 << 32, 1), 10);
    assert_eq!(turn(ended, 2, 2), 13);
    assert_eq!(turn(stage, 3, 2), 13);
    assert_eq!(turn(stage, 1 << 32, 2), 13);
    assert_eq!(turn(process, (1 << 32) + 2, 2), 10);
    assert_eq!(turn(purpose, 1 << 32, 2), 11);
    assert_eq!(turn(row, 1 << 32, 2), 13);
    assert_eq!(turn(delivered, u64::from(TALLY_LIMIT) - 1, 2), 0);
}
