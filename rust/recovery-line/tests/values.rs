//! The wrapper's own values: refusals, words that are stored and brought back, and lent slices of any length.

use recovery_line::sys::{
    RECOVERY_LINE_ORDER_WORDS, RECOVERY_LINE_PARTICIPANT_PURPOSE_AT as PURPOSE,
    RECOVERY_LINE_PARTICIPANT_STAGE_AT as STAGE, RECOVERY_LINE_SESSION_PURPOSE_AT, RECOVERY_LINE_SET_WORDS,
};
use recovery_line::{raw, Initiator, Order, Participant, Process, Purpose, Refusal, Session, Set, Tables};
use std::error::Error;

const BOOK: [u8; 28] = [
    3, 2, 0, 0, 0, 0, 0, 0, 4, 5, 2, 0, 0, 0, 0, 3, 0, 0, 0, 2, 0, 0, 0, 0, 7, 0, 0, 0,
];

fn tables() -> Tables {
    Tables::read(&BOOK).unwrap()
}

#[test]
fn a_refusal_says_its_question() {
    let refusal = Tables::read(&[2, 1, 0, 1, 1, 0, 0]).unwrap_err();
    assert_eq!(
        refusal.to_string(),
        "refused by question 7: Of a received counter: is it zero, in an oldest checkpoint?"
    );
    assert_eq!(
        Refusal::WRONG_LENGTH.to_string(),
        "refused by 100: A slice of words, or of sixteen counters, has the wrong length."
    );
    let as_error: Box<dyn Error + Send + Sync> = refusal.into();
    assert_eq!(as_error.to_string(), refusal.to_string());
    assert_eq!(Refusal::from_answer(0), Ok(()));
    assert_eq!(
        Refusal::from_answer(18).unwrap_err().sentence(),
        "Is a message waiting on that strand?"
    );
}

#[test]
fn purposes_have_numbers() {
    for purpose in [Purpose::Advance, Purpose::Restart, Purpose::AdvanceAndRestart] {
        assert_eq!(Purpose::from_number(purpose.number()), Ok(purpose));
    }
    for number in [0, 4, u64::MAX] {
        assert_eq!(Purpose::from_number(number).unwrap_err().question(), 11);
    }
}

#[test]
fn a_refused_book_leaves_the_one_before() {
    let mut tables = tables();
    let before = tables.clone();
    assert_eq!(tables.read_over(&BOOK[..27]).unwrap_err().question(), 3);
    assert_eq!(tables, before);
    tables.read_over(&[1, 3]).unwrap();
    assert_eq!(tables, Tables::read(&[1, 3]).unwrap());
}

#[test]
fn a_refused_move_leaves_the_tables() {
    let (shape, sent, mut received) = tables().into_parts();
    received[4095] = 1;
    let mut tables = Tables::from_parts(shape, sent, received);
    let before = tables.clone();
    assert_eq!(tables.check().unwrap_err().question(), 9);
    assert_eq!(tables.move_line(Purpose::AdvanceAndRestart).unwrap_err().question(), 9);
    assert_eq!(tables.find_line().unwrap_err().question(), 9);
    assert_eq!(tables, before);
}

#[test]
fn a_book_fits_its_own_length_and_no_less() {
    let mut out = [0xEE; 30];
    assert_eq!(tables().write_to(&mut out[..27]).unwrap_err().question(), 17);
    assert_eq!(out, [0xEE; 30]);
    assert_eq!(tables().write_to(&mut out), Ok(28));
    assert_eq!((&out[..28], &out[28..]), (&BOOK[..], &[0xEE, 0xEE][..]));
}

#[test]
fn sets_and_orders_are_brought_back() {
    let line = tables().find_line().unwrap();
    assert_eq!(Set::from_words(line.set.words()), Ok(line.set));
    assert_eq!(
        Set::from_words(&[1; RECOVERY_LINE_SET_WORDS - 1]),
        Err(Refusal::WRONG_LENGTH)
    );
    assert!(Set::new(&[recovery_line::Checkpoint::OLDEST; 17]).is_err());
    let order = tables().restart_order(Purpose::Advance).unwrap();
    assert_eq!(Order::from_words(order.words()), Ok(order));
    assert_eq!(
        Order::from_words(&[0; RECOVERY_LINE_ORDER_WORDS + 1]),
        Err(Refusal::WRONG_LENGTH)
    );
    assert_eq!(
        tables()
            .test_set(&Set::from_words(&[1; RECOVERY_LINE_SET_WORDS]).unwrap())
            .unwrap_err()
            .question(),
        12
    );
}

/// Of absent processes nothing is shown, of one that is left out in the middle neither.
#[test]
fn sets_and_orders_show_what_they_have() {
    let set = Set::new(&[2, 0, 7].map(recovery_line::Checkpoint::new)).unwrap();
    assert_eq!(
        format!("{set:?}"),
        "Set {Process(1): Checkpoint(2), Process(3): Checkpoint(7)}"
    );
    let order = Tables::read(&[1, 3]).unwrap().restart_order(Purpose::AdvanceAndRestart);
    assert_eq!(
        format!("{:?}", order.unwrap()),
        "Order [Restart { process: Process(1), from: Checkpoint(3), before: 2, after: 0 }]"
    );
}

#[test]
fn machines_are_brought_back() {
    let (one, two) = (Process::new(1), Process::new(2));
    let (initiator, _) = tables().initiator(one, Purpose::Advance).unwrap();
    assert_eq!(Initiator::from_words(initiator.words()), Ok(initiator.clone()));
    assert_eq!(
        Initiator::from_words(&initiator.words()[1..]),
        Err(Refusal::WRONG_LENGTH)
    );
    let participant = tables().participant(two, one, Purpose::Advance).unwrap();
    assert_eq!(Participant::from_words(participant.words()), Ok(participant.clone()));
    assert_eq!(Participant::from_words(&[]), Err(Refusal::WRONG_LENGTH));
    let with = |place: usize, word| {
        let mut words = *participant.words();
        words[place] = word;
        Participant::from_words(&words).map_err(Refusal::question).err()
    };
    assert_eq!(
        (with(PURPOSE, 4), with(STAGE, 3), with(STAGE, 2)),
        (Some(11), Some(13), None)
    );
}

#[test]
fn a_session_is_brought_back() {
    let tables = tables();
    let mut session = Session::start(&tables, Process::new(1), Purpose::Advance).unwrap();
    while let Some(participant) = session.waiting().next_back() {
        session = Session::from_words(session.words(), session.strands()).unwrap();
        session.turn(&tables, participant).unwrap();
    }
    assert!(session.all_ended());
    assert_eq!(session.delivered(), 10);
    assert_eq!(
        Session::from_words(&session.words()[1..], session.strands()),
        Err(Refusal::WRONG_LENGTH)
    );
}

#[test]
fn a_forged_session_is_refused_and_not_indexed_with() {
    let tables = tables();
    let session = Session::start(&tables, Process::new(1), Purpose::Advance).unwrap();
    for place in (0..session.words().len()).filter(|place| *place != RECOVERY_LINE_SESSION_PURPOSE_AT) {
        let mut words = *session.words();
        words[place] = u64::MAX;
        let mut forged = Session::from_words(&words, session.strands()).unwrap();
        let looked_at = (
            forged.waiting().count(),
            forged.all_ended(),
            forged.candidate(Process::new(2)),
        );
        assert!(forged.turn(&tables, Process::new(2)).is_err(), "{place}: {looked_at:?}");
    }
    let mut without_strands = Session::from_words(session.words(), &[]).unwrap();
    assert_eq!(without_strands.waiting().count(), 0);
    assert_eq!(
        without_strands.turn(&tables, Process::new(2)).unwrap_err().question(),
        13
    );
}

#[test]
fn lengths_are_asked_before_everything() {
    let (shape, sent, received) = tables().into_parts();
    assert_eq!(raw::check(&shape[..16], &sent[..], &[]), Err(Refusal::WRONG_LENGTH));
    assert_eq!(
        raw::check(&shape, &sent[..4095], &received[..]).unwrap_err().question(),
        2
    );
    assert_eq!(raw::check(&shape, &sent[..], &[]).unwrap_err().question(), 2);
    assert_eq!(raw::check(&shape, &sent[..], &received[..]), Ok(()));
}
