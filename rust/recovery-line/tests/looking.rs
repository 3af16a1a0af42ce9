//! Looking at what there is: loops over messages, sets and orders, and what is asked of processes that there are not.

use recovery_line::sys::{
    RECOVERY_LINE_INITIATOR_AWAITED_AT as AWAITED, RECOVERY_LINE_PARTICIPANT_WORDS,
    RECOVERY_LINE_SESSION_LENGTHS_AT as WAITING, RECOVERY_LINE_SESSION_PARTICIPANTS_AT as PARTICIPANTS,
    RECOVERY_LINE_SHAPE_COUNTS_AT,
};
use recovery_line::{Checkpoint, Count, Initiator, Process, Purpose, Refusal, Session, Set, Tables};

const BOOK: [u8; 28] = [
    3, 2, 0, 0, 0, 0, 0, 0, 4, 5, 2, 0, 0, 0, 0, 3, 0, 0, 0, 2, 0, 0, 0, 0, 7, 0, 0, 0,
];

const ONE: Process = Process::new(1);
const TWO: Process = Process::new(2);
const THREE: Process = Process::new(3);
/// None of these is a process of the book.
const ABSENT: [Process; 5] = [
    Process::new(0),
    Process::new(4),
    Process::new(16),
    Process::new(17),
    Process::new(u64::MAX),
];

fn tables() -> Tables {
    Tables::read(&BOOK).unwrap()
}

#[test]
fn messages_are_looped_over() {
    let tables = tables();
    let (_, invitations) = tables.initiator(TWO, Purpose::Advance).unwrap();
    let mut seen = Vec::new();
    for (receiver, message) in &invitations {
        assert_eq!(invitations.to(receiver), Some(message));
        seen.push((receiver, message.to_vec()));
    }
    assert_eq!(seen, [(ONE, vec![1, 1, 2, 1, 2, 3]), (THREE, vec![1, 1, 2, 1, 2, 0])]);
    assert!(invitations.into_iter().eq(seen));
}

#[test]
fn a_set_is_looped_over() {
    let set = tables().find_line().unwrap().set;
    let mut seen = Vec::new();
    for (process, checkpoint) in &set {
        assert_eq!(set.checkpoint(process), Some(checkpoint));
        seen.push((process, checkpoint));
    }
    let numbers = seen
        .iter()
        .map(|(process, checkpoint)| (process.number(), checkpoint.number()));
    assert!(numbers.eq([(1, 1), (2, 2), (3, 2)]));
    assert!(set.into_iter().eq(seen));
}

#[test]
fn an_order_is_looped_over() {
    let order = tables().restart_order(Purpose::AdvanceAndRestart).unwrap();
    let mut seen = Vec::new();
    for restart in &order {
        assert_eq!(order.of(restart.process), Some(restart));
        seen.push(restart);
    }
    let numbers = seen
        .iter()
        .map(|r| (r.process.number(), r.from.number(), r.before, r.after));
    assert!(numbers.eq([(1, 1, 0, 1), (2, 2, 1, 0), (3, 2, 1, 0)]));
    assert!(order.into_iter().eq(seen));
}

/// A set may leave out processes in the middle, as no call gives it.
#[test]
fn loops_know_their_length_and_go_both_ways() {
    let set = Set::new(&[1, 0, 3, 4].map(Checkpoint::new)).unwrap();
    let mut left = set.iter();
    assert_eq!(left.len(), 3);
    assert_eq!(left.next_back(), Some((Process::new(4), Checkpoint::new(4))));
    assert_eq!((left.len(), left.size_hint()), (2, (2, Some(2))));
    assert_eq!(left.next(), Some((ONE, Checkpoint::new(1))));
    assert_eq!(left.next_back(), Some((THREE, Checkpoint::new(3))));
    assert_eq!((left.len(), left.next(), left.next_back()), (0, None, None));
    let all = [Checkpoint::OLDEST; 17];
    assert_eq!(Set::try_from(&all[..16]).unwrap().iter().len(), 16);
    assert_eq!(Set::try_from(&all[..]), Err(Refusal::WRONG_LENGTH));
    assert_eq!(Purpose::try_from(2), Ok(Purpose::Restart));
}

#[test]
fn tables_have_no_counter_of_absent_processes() {
    let tables = tables();
    let newest = Checkpoint::new(2);
    for absent in ABSENT {
        assert_eq!(tables.checkpoints(absent), 0);
        assert_eq!(tables.sent_to(TWO, newest, absent), None);
        assert_eq!(tables.received_from(TWO, newest, absent), None);
        assert_eq!(tables.sent_to(absent, newest, TWO), None);
        assert_eq!(tables.received_from(absent, newest, TWO), None);
    }
    assert_eq!(tables.sent_to(TWO, newest, TWO), None);
    assert_eq!(tables.received_from(TWO, newest, TWO), None);
    assert_eq!(tables.sent_to(TWO, newest, THREE), Some(Count::new(0)));
}

/// Also where the shape says something of processes that there are not.
#[test]
fn the_newest_checkpoints_are_a_set() {
    let book = Tables::read(&[2, 3, 0, 0, 0, 0, 0, 0, 1, 0, 0]).unwrap();
    assert_eq!(book.newest(), Set::new(&[3, 1].map(Checkpoint::new)).unwrap());
    let (mut shape, sent, received) = book.into_parts();
    shape[RECOVERY_LINE_SHAPE_COUNTS_AT + 2] = 9;
    let newest = Tables::from_parts(shape, sent, received).newest();
    assert_eq!(newest.checkpoint(THREE), None);
}

#[test]
fn machines_have_no_counter_of_absent_processes() {
    let tables = tables();
    let (initiator, invitations) = tables.initiator(ONE, Purpose::Advance).unwrap();
    let mut second = tables.participant(TWO, ONE, Purpose::Advance).unwrap();
    let _ = second.receive(&tables, invitations.to(TWO).unwrap()).unwrap();
    for absent in ABSENT {
        assert_eq!((second.reported(absent), second.known(absent)), (None, None));
        assert_eq!(
            (initiator.known(absent, ONE), initiator.known(ONE, absent)),
            (None, None)
        );
        assert!(!initiator.awaits(absent));
    }
    assert_eq!((second.reported(TWO), second.known(TWO)), (None, None));
    assert_eq!((initiator.known(ONE, ONE), initiator.known(TWO, TWO)), (None, None));
    assert_eq!(second.reported(THREE), Some(Count::new(0)));
    assert_eq!(initiator.known(ONE, THREE), Some(Count::new(0)));
    let mut words = *initiator.words();
    words[AWAITED + 3] = 1;
    assert!(!Initiator::from_words(&words).unwrap().awaits(Process::new(4)));
}

/// Not even when something is said of them.
#[test]
fn sessions_have_nothing_of_absent_processes() {
    let session = Session::start(&tables(), ONE, Purpose::Advance).unwrap();
    let mut words = *session.words();
    words[WAITING + 3] = 1;
    words[PARTICIPANTS + 3 * RECOVERY_LINE_PARTICIPANT_WORDS..][..RECOVERY_LINE_PARTICIPANT_WORDS].fill(2);
    let forged = Session::from_words(&words, session.strands()).unwrap();
    for absent in ABSENT {
        assert_eq!((session.candidate(absent), session.message(absent)), (None, None));
        assert_eq!((forged.candidate(absent), forged.message(absent)), (None, None));
        assert!(!session.ended(absent) && !forged.ended(absent));
    }
    assert!(forged.waiting().eq([TWO, THREE]));
}

#[test]
fn the_archive_has_this_version() {
    assert_eq!(recovery_line::version(), recovery_line::sys::RECOVERY_LINE_VERSION);
}
