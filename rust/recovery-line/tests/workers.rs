//! Workers that know only their own checkpoints: their tables, their invitations, and a search between them.

use recovery_line::sys::RECOVERY_LINE_HEAD_SIZE;
use recovery_line::{
    Checkpoint, Count, Head, Initiator, Messages, Participant, Process, Purpose, Refusal, Set, Stage, Tables,
};
use std::collections::VecDeque;

const ONE: Process = Process::new(1);
const TWO: Process = Process::new(2);
const THREE: Process = Process::new(3);

/// The specification's examples 1 and 6.
const EXAMPLES: [&[u8]; 2] = [
    &[
        3, 2, 0, 0, 0, 0, 0, 0, 4, 5, 2, 0, 0, 0, 0, 3, 0, 0, 0, 2, 0, 0, 0, 0, 7, 0, 0, 0,
    ],
    &[
        3, 4, 0, 0, 0, 0, 0, 1, 0, 0, 1, 1, 1, 0, 2, 1, 2, 0, 4, 0, 0, 0, 0, 0, 0, 1, 0, 1, 0, 2, 0, 2, 0, 3, 0, 2, 0,
        0, 0, 0, 0, 0, 1, 0,
    ],
];

/// A worker's own rows of a book from its candidate on, and zeros for everybody else. What the candidate had received from a
/// partner comes off what was received from it, and off what was sent to it what that partner tells.
fn own_from(book: &Tables, me: Process, candidate: Checkpoint, told: impl Fn(Process) -> Option<Count>) -> Tables {
    let less = |at: Option<Count>, off: Option<Count>| Count::new(at.unwrap().number() - off.unwrap().number());
    let mut own = Tables::builder(book.processes());
    for checkpoint in (candidate.number()..=book.checkpoints(me)).map(Checkpoint::new) {
        let partners = Process::all(book.processes()).filter(|partner| *partner != me);
        partners.fold(own.checkpoint(me), |copy, to| {
            let sent = less(book.sent_to(me, checkpoint, to), told(to));
            let received = less(
                book.received_from(me, checkpoint, to),
                book.received_from(me, candidate, to),
            );
            copy.sent_to(to, sent).received_from(to, received)
        });
    }
    own.zeros_elsewhere().build().unwrap()
}

fn own(book: &Tables, me: Process) -> Tables {
    own_from(book, me, Checkpoint::OLDEST, |_| Some(Count::new(0)))
}

/// A search among workers who each know their own rows alone; a participant has no machine before its invitation.
struct Search {
    own: Vec<Tables>,
    initiator: Initiator,
    participants: Vec<Option<Participant>>,
    waiting: VecDeque<(Process, Vec<u8>)>,
}

impl Search {
    fn begin(book: &Tables, first: Process, purpose: Purpose) -> Search {
        let own: Vec<Tables> = Process::all(book.processes()).map(|me| own(book, me)).collect();
        let (initiator, invitations) = own[first.number() as usize - 1].initiator(first, purpose).unwrap();
        Search {
            participants: vec![None; own.len()],
            own,
            initiator,
            waiting: invitations.into_iter().collect(),
        }
    }

    fn receive(&mut self, to: Process, message: &[u8]) -> Result<Messages, Refusal> {
        let place = to.number() as usize - 1;
        let own = &self.own[place];
        if to == self.initiator.process() {
            return self.initiator.receive(own, message);
        }
        if let Some(machine) = &mut self.participants[place] {
            return machine.receive(own, message);
        }
        let (machine, report) = own.invited(to, message)?;
        self.participants[place] = Some(machine);
        Ok(report)
    }

    /// Delivers the message that has waited longest, or with `newest` shortest; `None` when nothing waits.
    fn step(&mut self, newest: bool) -> Option<(Process, Vec<u8>)> {
        let next = if newest {
            self.waiting.pop_back()
        } else {
            self.waiting.pop_front()
        };
        let (to, message) = next?;
        let replies = self.receive(to, &message).unwrap();
        self.waiting.extend(replies);
        Some((to, message))
    }

    /// Where everybody has ended.
    fn ended_on(&self) -> Vec<Checkpoint> {
        let stands = |process: Process| match &self.participants[process.number() as usize - 1] {
            Some(machine) => (machine.ended(), machine.candidate()),
            None => (self.initiator.ended(), self.initiator.candidate()),
        };
        let all = Process::all(self.own.len() as u64).map(stands);
        all.map(|(ended, candidate)| ended.then_some(candidate).unwrap())
            .collect()
    }
}

fn checkpoints(set: Set) -> Vec<Checkpoint> {
    set.iter().map(|(_, checkpoint)| checkpoint).collect()
}

#[test]
fn a_search_on_own_rows_ends_on_the_whole_books_line() {
    for book in EXAMPLES.map(|bytes| Tables::read(bytes).unwrap()) {
        let line = checkpoints(book.find_line().unwrap().set);
        for (first, newest) in [ONE, TWO, THREE].into_iter().flat_map(|p| [(p, false), (p, true)]) {
            let mut search = Search::begin(&book, first, Purpose::AdvanceAndRestart);
            while search.step(newest).is_some() {}
            assert_eq!(search.ended_on(), line);
            let mut restart = Search::begin(&book, first, Purpose::Restart);
            while restart.step(newest).is_some() {}
            assert_eq!(restart.ended_on(), [Checkpoint::OLDEST; 3]);
        }
    }
}

/// Accepted, and for a book in which the others have done nothing: here it goes back further than the line.
#[test]
fn own_rows_alone_go_back_too_far() {
    let book = Tables::read(EXAMPLES[1]).unwrap();
    assert_eq!(book.find_line().unwrap().set.to_string(), "2 1 2");
    let own = own(&book, THREE);
    assert_eq!(own.newest().to_string(), "1 1 2");
    assert_eq!(own.find_line().unwrap().set.to_string(), "1 1 1");
    assert_eq!(own.test_set(&own.newest()), Ok(Some((THREE, ONE))));
    let restart = own.restart_order(Purpose::AdvanceAndRestart).unwrap().of(THREE);
    assert_eq!(restart.map(|restart| restart.from), Some(Checkpoint::OLDEST));
}

/// Two processes with line 2 2: of the two messages that 1 sent before it, the first before its oldest checkpoint, 2 has received
/// one. Process 1's newest has received what 2 has not sent.
const ONE_OF_TWO: [u8; 13] = [2, 3, 1, 0, 2, 0, 3, 1, 2, 0, 0, 0, 1];

/// What a worker with its own rows alone does after an advance comes to the same as the move of the whole book.
#[test]
fn own_rows_are_moved_by_the_candidates() {
    for bytes in EXAMPLES.into_iter().chain([&ONE_OF_TWO[..]]) {
        let book = Tables::read(bytes).unwrap();
        let mut moved = book.clone();
        let order = moved.move_line(Purpose::Advance).unwrap();
        for restart in order {
            let me = restart.process;
            assert_eq!(restart.after, 0);
            let candidate = |of: Process| order.of(of).unwrap().from;
            let told = |partner: Process| book.received_from(partner, candidate(partner), me);
            assert_eq!(own_from(&book, me, restart.from, told), own(&moved, me));
        }
    }
}

/// What its candidate had sent is not what comes off: some of it may be on its way.
#[test]
fn a_worker_does_not_know_what_was_received() {
    let book = Tables::read(&ONE_OF_TWO).unwrap();
    let mut moved = book.clone();
    let candidate = moved.move_line(Purpose::Advance).unwrap().of(ONE).unwrap().from;
    assert_eq!(candidate, Checkpoint::new(2));
    assert_eq!(moved.sent_to(ONE, Checkpoint::OLDEST, TWO), Some(Count::new(1)));
    let by_itself = own_from(&book, ONE, candidate, |to| book.sent_to(ONE, candidate, to));
    assert_ne!(by_itself, own(&moved, ONE));
}

#[test]
fn zeros_are_appended_where_nothing_is() {
    let mut book = Tables::builder(3);
    book.checkpoint(TWO);
    book.checkpoint(TWO).sent_to(THREE, Count::new(9));
    let bytes = [3, 1, 0, 0, 0, 0, 2, 0, 0, 0, 0, 0, 9, 0, 0, 1, 0, 0, 0, 0];
    assert_eq!(book.zeros_elsewhere().build(), Tables::read(&bytes));
    // Where everybody has one it appends nothing.
    let before = book.clone();
    assert_eq!(book.zeros_elsewhere(), &before);
    assert_eq!(
        Tables::builder(16)
            .zeros_elsewhere()
            .build()
            .unwrap()
            .newest()
            .iter()
            .len(),
        16
    );
    for n in [0, 17, u64::from(u32::MAX)] {
        assert_eq!(Tables::builder(n).zeros_elsewhere().build().unwrap_err().question(), 4);
    }
}

#[test]
fn a_head_is_the_first_three_numbers() {
    let head = |invitation, purpose, sender| {
        Some(Head {
            invitation,
            purpose,
            sender: Process::new(sender),
        })
    };
    for (message, expected) in [
        (&[1, 3, 1][..], head(true, Purpose::AdvanceAndRestart, 1)),
        (&[1, 2, 16, 0], head(true, Purpose::Restart, 16)),
        (&[2, 1, 2, 0xFF, 0xFF], head(false, Purpose::Advance, 2)),
        (&[1, 1, 0], head(true, Purpose::Advance, 0)),
        (&[1, 1, 127], head(true, Purpose::Advance, 127)),
        (&[1, 1, 128], None),
        (&[1, 1, 0x81, 0], None),
        (&[], None),
        (&[1], None),
        (&[1, 1], None),
        (&[0, 1, 1], None),
        (&[3, 1, 1], None),
        (&[0x81, 1, 1], None),
        (&[1, 0, 1], None),
        (&[1, 4, 1], None),
        (&[1, 0x81, 1], None),
    ] {
        assert_eq!(Head::of(message), expected, "{message:?}");
    }
}

#[test]
fn an_invitation_makes_the_machine() {
    let book = Tables::read(EXAMPLES[0]).unwrap();
    for purpose in [Purpose::Advance, Purpose::Restart, Purpose::AdvanceAndRestart] {
        let (_, invitations) = book.initiator(THREE, purpose).unwrap();
        let invitation = invitations.to(TWO).unwrap();
        let mut expected = book.participant(TWO, THREE, purpose).unwrap();
        let report = expected.receive(&book, invitation).unwrap();
        assert_ne!(expected.stage(), Stage::BeforeInvitation);
        assert_eq!(book.invited(TWO, invitation), Ok((expected, report)));
    }
}

#[test]
fn what_is_no_invitation_is_refused() {
    let book = Tables::read(EXAMPLES[0]).unwrap();
    let question = |me: u64, message: &[u8]| book.invited(Process::new(me), message).map_err(Refusal::question).err();
    assert_eq!(question(2, &[1, 3, 1, 1, 1, 0]), None);
    for (me, message, expected) in [
        (2, &[][..], 14),
        (2, &[1, 3], 14),
        (2, &[1, 3, 1], 14),             // its pairs are missing
        (2, &[1, 3, 1, 1, 1, 0, 0], 14), // something follows
        (2, &[1, 0, 1, 1, 1, 0], 14),
        (2, &[1, 3, 1, 1, 1, 0xFF, 0xFF, 0xFF, 0xFF, 0x0F], 14), // "not known" is no counter
        (2, &[3, 3, 1, 1, 1, 0], 14),
        (2, &[1, 3, 0x81, 1, 1, 0], 14),
        (0, &[1, 3, 1, 1, 1, 0], 10),
        (4, &[1, 3, 1, 1, 1, 0], 10),
        (1, &[1, 3, 1, 1, 1, 0], 10), // its own
        (2, &[1, 3, 4, 1, 4, 0], 10),
        (2, &[1, 3, 0, 1, 1, 0], 10),
        (2, &[2, 3, 1, 0], 15),
        (2, &[2, 3, 1, 1, 3, 0], 15),
    ] {
        assert_eq!(question(me, message), Some(expected), "{me}: {message:?}");
    }
    let (shape, sent, mut received) = book.into_parts();
    received[4095] = 1;
    let wrong = Tables::from_parts(shape, sent, received);
    assert_eq!(wrong.invited(TWO, &[]).unwrap_err().question(), 9);
}

/// Process 1 has sent a message to 3 and none to 2; 2 has received one from it that it has not sent.
#[test]
fn a_message_does_not_name_its_receiver() {
    let mut book = Tables::builder(3);
    for process in [ONE, TWO, THREE] {
        book.checkpoint(process);
    }
    book.checkpoint(ONE).sent_to(THREE, Count::new(1));
    book.checkpoint(TWO).received_from(ONE, Count::new(1));
    let book = book.build().unwrap();
    let mut right = Search::begin(&book, ONE, Purpose::Advance);
    let mut swapped = Search::begin(&book, ONE, Purpose::Advance);
    let (to_two, to_three) = (swapped.waiting[0].1.clone(), swapped.waiting[1].1.clone());
    swapped.waiting = VecDeque::from([(TWO, to_three), (THREE, to_two)]);
    while right.step(false).is_some() {}
    while swapped.step(false).is_some() {}
    assert_eq!(right.ended_on(), [2, 1, 1].map(Checkpoint::new));
    let wrong = Set::new(&swapped.ended_on()).unwrap();
    assert_eq!(book.test_set(&wrong), Ok(Some((TWO, ONE))));
}

/// Process 2 goes back because of 3, then 3 because of 2, then 1 because of 3.
fn chain() -> Tables {
    let mut book = Tables::builder(3);
    for process in [ONE, TWO, THREE] {
        book.checkpoint(process);
    }
    let once = Count::new(1);
    book.checkpoint(ONE).received_from(THREE, once);
    book.checkpoint(TWO).sent_to(THREE, once).received_from(THREE, once);
    book.checkpoint(THREE).sent_to(ONE, once).received_from(TWO, once);
    book.build().unwrap()
}

/// A report without pairs.
fn says_no_change(to: Process, message: &[u8]) -> bool {
    to == ONE && message.len() == RECOVERY_LINE_HEAD_SIZE
}

#[test]
fn a_message_comes_once() {
    for book in [
        Tables::read(EXAMPLES[0]).unwrap(),
        Tables::read(EXAMPLES[1]).unwrap(),
        chain(),
    ] {
        let mut search = Search::begin(&book, ONE, Purpose::Advance);
        while let Some((to, message)) = search.step(false) {
            if !says_no_change(to, &message) {
                let question = search.receive(to, &message).unwrap_err().question();
                assert!(question == 15 || question == 16, "{to}: {message:?}");
            }
        }
        assert_eq!(search.ended_on(), checkpoints(book.find_line().unwrap().set));
    }
}

/// A wait ends with a report of no change, and the next one awaits the same worker: the report a second time is taken for its
/// next, which is then refused.
#[test]
fn no_change_comes_once() {
    let book = chain();
    let mut search = Search::begin(&book, ONE, Purpose::Advance);
    let mut delivered = std::iter::from_fn(|| search.step(false));
    assert!(delivered.any(|(to, message)| says_no_change(to, &message)));
    let terminations = search.receive(ONE, &[2, 1, 3, 0]).unwrap();
    assert!(search.initiator.ended());
    search.waiting.extend(terminations);
    let poll = search.waiting.pop_front().unwrap();
    let report = search.receive(THREE, &poll.1).unwrap();
    assert_eq!(search.receive(ONE, report.bytes()).unwrap_err().question(), 15);
    while search.step(false).is_some() {}
    let wrong = Set::new(&search.ended_on()).unwrap();
    assert_eq!(book.test_set(&wrong), Ok(Some((ONE, THREE))));
}
