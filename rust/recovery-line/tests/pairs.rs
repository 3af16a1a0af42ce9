//! The first pair at fault, and one checkpoint against a column, through the wrapper.

use recovery_line::sys::{RECOVERY_LINE_NOT_KNOWN, RECOVERY_LINE_PROCESSES};
use recovery_line::{raw, Checkpoint, Count, Process, Purpose, Refusal, Session, Set, Tables};

/// The specification's book of K's example 1.
const EXAMPLE_1: [u8; 28] = [
    3, 2, 0, 0, 0, 0, 0, 0, 4, 5, 2, 0, 0, 0, 0, 3, 0, 0, 0, 2, 0, 0, 0, 0, 7, 0, 0, 0,
];

/// Nobody has sent anything; process 1's newest has received 1 message from 3, process 2's 1 from 1 and 3.
const UNSENT: [u8; 24] = [3, 2, 0, 0, 0, 0, 0, 0, 0, 1, 2, 0, 0, 0, 0, 0, 0, 1, 1, 1, 0, 0, 0, 0];

fn tables(book: &[u8]) -> Tables {
    Tables::read(book).unwrap()
}

/// The pair that is shown for a set, in numbers.
fn pair(tables: &Tables, checkpoints: [u64; 3]) -> Option<(u64, u64)> {
    let set = Set::new(&checkpoints.map(Checkpoint::new)).unwrap();
    let pair = tables.test_set(&set).unwrap();
    pair.map(|(j, p)| (j.number(), p.number()))
}

/// The partner that is named for a checkpoint, in numbers, where these counts of processes 1 to 3 are known.
fn partner(tables: &Tables, process: u64, checkpoint: u64, known: [Option<u64>; 3]) -> Result<Option<u64>, u32> {
    let count = |partner: Process| {
        let known = known.get(partner.number() as usize - 1)?;
        known.map(Count::new)
    };
    let named = tables.test_checkpoint(Process::new(process), Checkpoint::new(checkpoint), count);
    named
        .map(|partner| partner.map(Process::number))
        .map_err(Refusal::question)
}

#[test]
fn the_lowest_j_comes_before_the_lowest_p() {
    let tables = tables(&UNSENT);
    assert_eq!(pair(&tables, [2, 2, 1]), Some((1, 3)));
    assert_eq!(pair(&tables, [1, 2, 1]), Some((2, 1)));
    assert_eq!(pair(&tables, [1, 1, 1]), None);
}

#[test]
fn the_lowest_partner_is_named() {
    let tables = tables(&UNSENT);
    let (nothing, one) = (Some(0), Some(1));
    assert_eq!(partner(&tables, 2, 2, [nothing, nothing, nothing]), Ok(Some(1)));
    assert_eq!(partner(&tables, 2, 2, [one, nothing, nothing]), Ok(Some(3)));
    assert_eq!(partner(&tables, 2, 2, [None, nothing, nothing]), Ok(Some(3)));
    assert_eq!(partner(&tables, 2, 2, [one, nothing, one]), Ok(None));
    assert_eq!(partner(&tables, 2, 2, [None, None, None]), Ok(None));
    assert_eq!(partner(&tables, 2, 1, [nothing, nothing, nothing]), Ok(None));
}

#[test]
fn a_count_above_every_counter_permits_everything() {
    let tables = tables(&[2, 2, 0, 0, 0, 0xFE, 0xFF, 0xFF, 0xFF, 0x0F, 1, 0, 0]);
    let largest = u64::from(RECOVERY_LINE_NOT_KNOWN) - 1;
    assert_eq!(partner(&tables, 1, 2, [None, Some(largest - 1), None]), Ok(Some(2)));
    for count in [largest, largest + 1, largest + 2, (1 << 32) + 5, u64::MAX] {
        assert_eq!(partner(&tables, 1, 2, [None, Some(count), None]), Ok(None));
    }
}

#[test]
fn names_and_checkpoints_are_asked() {
    let tables = tables(&EXAMPLE_1);
    for process in [0, 4, 17, (1 << 32) + 1, u64::MAX] {
        assert_eq!(partner(&tables, process, 0, [None; 3]), Err(10));
    }
    for checkpoint in [0, 3, (1 << 32) + 1, u64::MAX] {
        assert_eq!(partner(&tables, 1, checkpoint, [None; 3]), Err(12));
    }
    let (shape, mut sent, received) = tables.into_parts();
    sent[0] = 1;
    let damaged = Tables::from_parts(shape, sent, received);
    assert_eq!(partner(&damaged, 0, 0, [None; 3]), Err(9));
}

/// K's example 1: process 1 cannot stay on its newest checkpoint because of process 2, as its machine knows at the end.
#[test]
fn a_machine_says_why_it_fell() {
    let tables = tables(&EXAMPLE_1);
    let (one, two, newest) = (Process::new(1), Process::new(2), Checkpoint::new(2));
    let why = |known: &dyn Fn(Process) -> Option<Count>| tables.test_checkpoint(one, newest, known).unwrap();
    assert_eq!(why(&|partner| tables.sent_to(partner, newest, one)), Some(two));

    let (mut initiator, invitations) = tables.initiator(two, Purpose::Advance).unwrap();
    let mut participant = tables.participant(one, two, Purpose::Advance).unwrap();
    assert_eq!(why(&|partner| participant.known(partner)), None);
    let report = participant.receive(&tables, invitations.to(one).unwrap()).unwrap();
    assert_eq!(why(&|partner| participant.known(partner)), Some(two));
    let _ = initiator.receive(&tables, report.to(two).unwrap()).unwrap();
    assert_eq!(why(&|partner| initiator.known(partner, one)), Some(two));
    assert_eq!(participant.candidate(), Checkpoint::OLDEST);

    let mut session = Session::start(&tables, two, Purpose::Advance).unwrap();
    while let Some(participant) = session.waiting().next() {
        session.turn(&tables, participant).unwrap();
    }
    let on_line = |partner| tables.sent_to(partner, session.candidate(partner)?, one);
    assert_eq!(why(&on_line), Some(two));
}

#[test]
fn lengths_are_asked_first_and_a_refusal_changes_nothing() {
    let (shape, sent, received) = tables(&EXAMPLE_1).into_parts();
    let known = [0; RECOVERY_LINE_PROCESSES + 1];
    let mut partner = 7;
    let mut question = |words: usize, entries: usize, counters: usize| {
        let (shape, sent, known) = (&shape[..words], &sent[..entries], &known[..counters]);
        let answer = raw::test_checkpoint(shape, sent, &received[..], 0, 0, known, &mut partner);
        answer.unwrap_err().question()
    };
    assert_eq!(question(16, 1, 16), 100);
    for counters in [0, 15, 17] {
        assert_eq!(question(17, 1, counters), 100);
    }
    assert_eq!(question(17, 4095, 16), 2);
    assert_eq!(question(17, 4096, 16), 10);
    assert_eq!(partner, 7);
}
