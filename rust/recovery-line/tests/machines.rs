//! Machines and sessions through the wrapper, step by step on K's example 1.

use recovery_line::{Checkpoint, Count, Initiator, Participant, Process, Purpose, Session, Stage, Tables};

const BOOK: [u8; 28] = [
    3, 2, 0, 0, 0, 0, 0, 0, 4, 5, 2, 0, 0, 0, 0, 3, 0, 0, 0, 2, 0, 0, 0, 0, 7, 0, 0, 0,
];

fn tables() -> Tables {
    Tables::read(&BOOK).unwrap()
}

fn process(number: u64) -> Process {
    Process::new(number)
}

/// The initiator, process 1, with its invitation, and participants 2 and 3.
fn begun(tables: &Tables) -> (Initiator, Participant, Participant, Vec<u8>) {
    let purpose = Purpose::AdvanceAndRestart;
    let (initiator, invitations) = tables.initiator(process(1), purpose).unwrap();
    assert_eq!(invitations.len(), 2);
    assert_eq!(invitations.to(process(2)), invitations.to(process(3)));
    let participant = |me| tables.participant(process(me), process(1), purpose).unwrap();
    (
        initiator,
        participant(2),
        participant(3),
        invitations.to(process(2)).unwrap().to_vec(),
    )
}

#[test]
fn a_participant_reports_what_differs() {
    let tables = tables();
    let (initiator, mut second, _, invitation) = begun(&tables);
    assert_eq!(invitation, [1, 3, 1, 1, 1, 0]);
    assert_eq!(
        (initiator.candidate(), initiator.rounds(), initiator.ended()),
        (Checkpoint::new(2), 1, false)
    );
    assert!(initiator.awaits(process(2)) && initiator.awaits(process(3)) && !initiator.awaits(process(1)));
    assert_eq!(
        (second.stage(), second.reported(process(1))),
        (Stage::BeforeInvitation, None)
    );
    let report = second.receive(&tables, &invitation).unwrap();
    assert_eq!(
        report.iter().collect::<Vec<_>>(),
        [(process(1), &[2, 3, 2, 2, 1, 3, 3, 0][..])]
    );
    assert_eq!(
        (second.stage(), second.candidate()),
        (Stage::Searching, Checkpoint::new(2))
    );
    assert_eq!(second.reported(process(1)), Some(Count::new(3)));
    assert_eq!(
        (second.known(process(1)), second.known(process(3))),
        (Some(Count::new(0)), None)
    );
    assert_eq!((second.process(), second.initiator()), (process(2), process(1)));
    assert_eq!(second.purpose(), Purpose::AdvanceAndRestart);
}

#[test]
fn the_initiator_polls_and_then_ends() {
    let tables = tables();
    let (mut initiator, mut second, mut third, invitation) = begun(&tables);
    let first_report = third.receive(&tables, &invitation).unwrap();
    assert!(initiator.receive(&tables, first_report.bytes()).unwrap().is_empty());
    assert!(!initiator.awaits(process(3)));
    assert_eq!(initiator.known(process(3), process(1)), Some(Count::new(7)));
    let last_report = second.receive(&tables, &invitation).unwrap();
    let polls = initiator.receive(&tables, last_report.bytes()).unwrap();
    assert_eq!(polls.to(process(2)), Some(&[2, 3, 1, 1, 3, 0][..]));
    assert_eq!(polls.to(process(3)), Some(&[2, 3, 1, 1, 2, 0][..]));
    assert_eq!(polls.to(process(1)), None);
    assert_eq!((initiator.candidate(), initiator.rounds()), (Checkpoint::OLDEST, 2));
    let mut terminations = Default::default();
    for machine in [&mut second, &mut third] {
        let no_change = machine.receive(&tables, polls.to(machine.process()).unwrap()).unwrap();
        terminations = initiator.receive(&tables, no_change.bytes()).unwrap();
    }
    assert!(initiator.ended());
    for machine in [&mut second, &mut third] {
        assert!(machine
            .receive(&tables, terminations.to(machine.process()).unwrap())
            .unwrap()
            .is_empty());
        assert!(machine.ended());
    }
}

#[test]
fn refused_messages_change_no_machine() {
    let tables = tables();
    let (mut initiator, mut second, _, invitation) = begun(&tables);
    let (initiator_before, second_before) = (initiator.clone(), second.clone());
    for (message, question) in [
        (&[][..], 14),
        (&[1, 3, 1, 1, 1], 14),
        (&[1, 1, 1, 1, 1, 0], 15),
        (&[2, 3, 1, 0], 15),
    ] {
        assert_eq!(second.receive(&tables, message).unwrap_err().question(), question);
        assert_eq!(second, second_before);
    }
    for (message, question) in [(&[2, 3, 2, 1, 3, 0, 0][..], 14), (&[2, 3, 2, 1, 3, 0], 15)] {
        assert_eq!(initiator.receive(&tables, message).unwrap_err().question(), question);
        assert_eq!(initiator, initiator_before);
    }
    let _ = second.receive(&tables, &invitation).unwrap();
    let searching = second.clone();
    assert_eq!(second.receive(&tables, &[2, 3, 1, 1, 1, 9]).unwrap_err().question(), 16);
    assert_eq!(second, searching);
}

#[test]
fn names_that_there_are_not() {
    let tables = tables();
    let advance = Purpose::Advance;
    let question = |me, initiator| {
        tables
            .participant(process(me), process(initiator), advance)
            .unwrap_err()
            .question()
    };
    assert_eq!(
        (question(4, 1), question(0, 1), question(2, 2), question(2, u64::MAX)),
        (10, 10, 10, 10)
    );
    assert_eq!(tables.initiator(process(4), advance).unwrap_err().question(), 10);
    assert_eq!(tables.search(process(0), advance).unwrap_err().question(), 10);
    assert_eq!(
        Session::start(&tables, process(17), advance).unwrap_err().question(),
        10
    );
}

/// Takes turns until nothing waits, each time the one that `choose` picks of those that wait.
fn run(tables: &Tables, choose: fn(&[Process]) -> Process) -> Session {
    let mut session = Session::start(tables, process(2), Purpose::Advance).unwrap();
    loop {
        let waiting: Vec<Process> = session.waiting().collect();
        assert_eq!(waiting.is_empty(), session.all_ended());
        if waiting.is_empty() {
            return session;
        }
        session.turn(tables, choose(&waiting)).unwrap();
    }
}

#[test]
fn a_session_ends_on_the_line_in_any_order() {
    let tables = tables();
    for choose in [
        |waiting: &[Process]| waiting[0],
        |waiting: &[Process]| waiting[waiting.len() - 1],
    ] {
        let session = run(&tables, choose);
        let line = tables.find_line().unwrap();
        for (process, checkpoint) in line.set.iter() {
            assert_eq!(session.candidate(process), Some(checkpoint));
        }
        assert_eq!((session.rounds(), session.delivered()), (2, 10));
        assert_eq!(
            (session.initiator(), session.purpose(), session.processes()),
            (process(2), Purpose::Advance, 3)
        );
        assert_eq!(
            (session.candidate(process(4)), session.ended(process(4))),
            (None, false)
        );
    }
}

#[test]
fn refused_turns_change_no_session() {
    let tables = tables();
    let mut session = Session::start(&tables, process(2), Purpose::Advance).unwrap();
    assert_eq!(session.message(process(1)), Some(&[1, 1, 2, 1, 2, 3][..]));
    assert_eq!((session.message(process(2)), session.message(process(9))), (None, None));
    let before = session.clone();
    for number in [0, 2, 4, 17, u64::MAX] {
        assert_eq!(session.turn(&tables, process(number)).unwrap_err().question(), 10);
        assert_eq!(session, before);
    }
    for question in [0, 0, 18] {
        let after = session.clone();
        let answer = session
            .turn(&tables, process(1))
            .map_or_else(|refusal| refusal.question(), |()| 0);
        assert_eq!((answer, question == 18), (question, session == after));
    }
}

/// A session of more processes names one that the tables do not have; one of fewer does not fit them.
#[test]
fn sessions_do_not_go_with_other_tables() {
    let three = tables();
    let two = Tables::read(&[2, 1, 0, 0, 1, 0, 0]).unwrap();
    for (own, other, question) in [(&three, &two, 10), (&two, &three, 13)] {
        let mut session = Session::start(own, process(1), Purpose::Advance).unwrap();
        let before = session.clone();
        assert_eq!(session.turn(other, process(2)).unwrap_err().question(), question);
        assert_eq!(session, before);
        assert_eq!(session.turn(own, process(2)), Ok(()));
    }
}
