//! The names in a session, questions 10 and 11 of a turn: an empty place names nobody, and every other place is asked,
//! wherever it is. What is wrong beside the names is then question 13's.

mod places;

use places::place_of;
use reference::*;

const K1: [u8; 28] = [
    3, 2, 0, 0, 0, 0, 0, 0, 4, 5, 2, 0, 0, 0, 0, 3, 0, 0, 0, 2, 0, 0, 0, 0, 7, 0, 0, 0,
];
const TWO: [u8; 7] = [2, 1, 0, 0, 1, 0, 0];

/// A book's tables, and a session that process 1 started on them.
struct Started {
    shape: Shape,
    sent: Vec<Counter>,
    received: Vec<Counter>,
    session: Session,
    strands: Vec<u8>,
}

fn started(book: &[u8]) -> Started {
    let (mut sent, mut received) = (vec![0; ENTRIES], vec![0; ENTRIES]);
    let shape = read(book, &mut sent, &mut received).unwrap();
    let mut strands = vec![0; 200];
    let session = session_start(&shape, &sent, &received, 1, 3, &mut strands).unwrap();
    Started {
        shape,
        sent,
        received,
        session,
        strands,
    }
}

/// What a turn of p answers on the tables of `on`, with the session and strands of `of` after a change.
fn turn_on(on: &Started, of: &Started, p: u64, change: impl FnOnce(&mut Session)) -> u32 {
    let (mut session, mut strands) = (of.session.clone(), of.strands.clone());
    change(&mut session);
    let before = (session.clone(), strands.clone());
    let answer = session_turn(&mut session, &on.shape, &on.sent, &on.received, p, &mut strands);
    assert!(answer.is_ok() || before == (session, strands));
    answer.err().unwrap_or(0)
}

/// The same on K's example 1.
fn turn_after(p: u64, change: impl FnOnce(&mut Session)) -> u32 {
    let k1 = started(&K1);
    turn_on(&k1, &k1, p, change)
}

#[test]
fn a_session_of_another_number_of_processes() {
    let (two, three) = (started(&TWO), started(&K1));
    assert_eq!(turn_on(&three, &two, 2, |_| ()), 13, "it names 1 and 2 alone");
    assert_eq!(turn_on(&two, &three, 2, |_| ()), 10, "it names 3");
    assert_eq!(turn_on(&three, &two, 3, |_| ()), 13, "a participant of the tables");
    assert_eq!(turn_on(&three, &two, 2, |session| session.n = 3), 13);
    assert_eq!(turn_on(&two, &three, 2, |session| session.n = 2), 10);
    let without_3 = |session: &mut Session| session.participants[2] = Participant::default();
    assert_eq!(turn_on(&two, &three, 2, without_3), 13);
}

#[test]
fn an_edited_initiator() {
    assert_eq!(turn_after(3, |session| session.initiator = 2), 13);
    assert_eq!(turn_after(2, |session| session.initiator = 2), 10);
    assert_eq!(turn_after(3, |session| session.initiator = 0), 10);
    assert_eq!(turn_after(3, |session| session.initiator = 4), 10);
    let all_of_2 = |session: &mut Session| {
        session.initiator = 2;
        session.machine.me = 2;
        session.participants[2].initiator = 2;
    };
    assert_eq!(turn_after(3, all_of_2), 13, "a machine at the initiator's place");
}

#[test]
fn a_machine_where_there_is_none() {
    for place in [0, 3, 4, 15] {
        let with = |me: u64, initiator: u64, purpose: u64| {
            turn_after(2, |session| {
                let state = &mut session.participants[place];
                (state.me, state.initiator, state.purpose) = (me, initiator, purpose);
            })
        };
        assert_eq!(with(9, 0, 0), 10);
        assert_eq!(with(9, 1, 3), 10);
        assert_eq!(with(3, 9, 3), 10);
        assert_eq!(with(3, 3, 3), 10);
        assert_eq!(with(0, 1, 3), 10);
        assert_eq!(with(3, 1, 0), 11);
        assert_eq!(with(3, 1, 4), 11);
        assert_eq!(with(3, 1, 3), 13);
        assert_eq!(with(0, 0, 3), 10, "a purpose alone");
        assert_eq!(with(0, 0, 0), 0);
    }
}

#[test]
fn one_field_makes_a_place_other_than_empty() {
    let with = |change: fn(&mut Participant)| turn_after(2, |session| change(&mut session.participants[4]));
    assert_eq!(with(|state| state.n = 3), 10);
    assert_eq!(with(|state| state.stage = ENDED), 10);
    assert_eq!(with(|state| state.candidate = 1), 10);
    assert_eq!(with(|state| state.row[15] = 1), 10);
    assert_eq!(with(|state| state.column[0] = MARK), 10);
}

#[test]
fn an_emptied_place_names_nobody() {
    assert_eq!(
        turn_after(3, |session| session.participants[1] = Participant::default()),
        13
    );
    assert_eq!(
        turn_after(2, |session| session.participants[1] = Participant::default()),
        13
    );
    assert_eq!(turn_after(2, |session| session.participants[1].me = 0), 10);
}

#[test]
fn all_of_10_before_11_before_13() {
    let damaged = |session: &mut Session| {
        session.n = 7;
        session.purpose = 0;
        session.participants[15].purpose = 4;
    };
    assert_eq!(turn_after(2, damaged), 10, "the last place names process 0");
    let named = |session: &mut Session| {
        damaged(session);
        (session.participants[15].me, session.participants[15].initiator) = (2, 1);
    };
    assert_eq!(turn_after(2, named), 11);
    let of_purpose = |session: &mut Session| {
        named(session);
        session.purpose = 3;
    };
    assert_eq!(turn_after(2, of_purpose), 11, "the last place's purpose");
    let fitting = |session: &mut Session| {
        of_purpose(session);
        session.participants[15].purpose = 3;
    };
    assert_eq!(turn_after(2, fitting), 13);
}

/// The place of an absent process in words: a counter has its lowest 32 bits, a stage above 2 has ended.
#[test]
fn a_place_is_empty_as_it_is_decoded() {
    let k1 = started(&K1);
    let shape: Vec<u64> = std::iter::once(k1.shape.n).chain(k1.shape.counts).collect();
    let absent = |change: fn(&mut Participant)| place_of(&k1.session, |session| change(&mut session.participants[4]));
    let (stage, candidate) = (absent(|state| state.stage = 1), absent(|state| state.candidate = 1));
    let (row, column) = (absent(|state| state.row[0] = 1), absent(|state| state.column[0] = 1));
    let with = |word: usize, value: u64| {
        let mut session = words::session_words(&k1.session);
        session[word] = value;
        words::session_turn(&mut session, &shape, &k1.sent, &k1.received, 2, &mut k1.strands.clone())
    };
    assert_eq!(with(row, 0), 0);
    assert_eq!(with(row + 3, 1 << 32), 13, "empty, but does not decode");
    assert_eq!(with(column + 15, 1 << 40), 13);
    assert_eq!(with(row + 3, (1 << 32) + 1), 10);
    assert_eq!(with(stage, 3), 10);
    assert_eq!(with(stage, 1 << 32), 10);
    assert_eq!(with(candidate, 1 << 32), 10);
    assert_eq!(with(absent(|state| state.n = 1), 1 << 32), 10, "n");
}
