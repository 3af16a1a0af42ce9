//! Sessions: "each participant has one strand to the initiator, with at most one message waiting on
//! it. A turn names a participant and delivers that message; the replies are then waiting."

use crate::book::{others, Book, Counter, Shape, PROCESSES};
use crate::initiator::Initiator;
use crate::line::newer;
use crate::machine::{participant_question, process_question, purpose_question, TALLY_LIMIT};
use crate::message::{lengths_of, longest, Message, Outbox, INVITATION, OTHER, RESTART_ONLY};
use crate::participant::{Participant, ENDED};

/// Room for the strands of sixteen processes.
const ALL_STRANDS: usize = (PROCESSES - 1) * longest(PROCESSES);

#[derive(Clone, PartialEq, Debug)]
pub struct Session {
    pub n: u64,
    pub initiator: u64,
    pub purpose: u64,
    /// The initiator's machine.
    pub machine: Initiator,
    /// The participants' machines; all zero at absent places and at the initiator's.
    pub participants: [Participant; PROCESSES],
    /// How many bytes wait on each participant's strand, 0 where no message waits.
    pub lengths: [u64; PROCESSES],
    /// The count of messages delivered.
    pub delivered: u32,
}

/// The set on which everybody ended, how many checkpoints are newer than it, and what the search
/// took. With purpose 1 or 3 these are the line and T; with purpose 2 checkpoint 1 everywhere and
/// how many checkpoints are newer than those.
#[derive(Clone, PartialEq, Debug)]
pub struct Searched {
    pub set: [u64; PROCESSES],
    pub newer: u64,
    pub rounds: u32,
    pub messages: u32,
}

/// Where the slot of a participant starts: each is as long as the longest message, and the
/// participants' slots follow one another, rising.
fn slot_start(n: usize, initiator: usize, participant: usize) -> usize {
    let place = if participant < initiator {
        participant
    } else {
        participant - 1
    };
    place * longest(n)
}

/// Question 17 of the messages that a call puts onto strands, each at its slot's start.
fn room_question(outbox: &Outbox, n: usize, initiator: usize, room: usize) -> Result<[u64; PROCESSES], u32> {
    let lengths = lengths_of(outbox);
    for participant in others(n, initiator) {
        let end = slot_start(n, initiator, participant) + lengths[participant] as usize;
        if outbox[participant].is_some() && end > room {
            return Err(17);
        }
    }
    Ok(lengths)
}

/// Puts the messages onto their strands, where they fit, and answers their lengths: question 17.
fn put(outbox: &Outbox, n: usize, initiator: usize, strands: &mut [u8]) -> Result<[u64; PROCESSES], u32> {
    let lengths = room_question(outbox, n, initiator, strands.len())?;
    for (participant, message) in outbox.iter().enumerate() {
        if let Some(message) = message {
            message.write(&mut strands[slot_start(n, initiator, participant)..]);
        }
    }
    Ok(lengths)
}

/// Puts what a participant sends to the initiator, if anything, onto its own strand, and answers
/// its length: question 17.
fn put_one(report: Option<Message>, start: usize, strands: &mut [u8]) -> Result<u64, u32> {
    let Some(report) = report else {
        return Ok(0);
    };
    let length = report.size();
    if start + length > strands.len() {
        return Err(17);
    }
    report.write(&mut strands[start..]);
    Ok(length as u64)
}

impl Session {
    /// The session as a start leaves it, and the invitations.
    fn begin(book: &Book, initiator: usize, purpose: u64) -> (Session, Outbox) {
        let (machine, invitations) = Initiator::begin(book, initiator, purpose);
        let mut session = Session {
            n: book.n as u64,
            initiator: machine.me,
            purpose,
            machine,
            participants: std::array::from_fn(|_| Participant::default()),
            lengths: lengths_of(&invitations),
            delivered: 0,
        };
        for me in others(book.n, initiator) {
            session.participants[me] = Participant::first(book, me, session.initiator, purpose);
        }
        (session, invitations)
    }

    /// The initiator, from 0; its name has passed question 10.
    fn hub(&self) -> usize {
        self.initiator as usize - 1
    }

    /// The machines at places that are not empty, wherever they are. An empty place is all zero, and
    /// names nobody.
    fn present(&self) -> impl Iterator<Item = &Participant> {
        self.participants
            .iter()
            .filter(|&state| *state != Participant::default())
    }

    /// Questions 10 and 11 of a turn, of every name in the session: all of 10 before 11.
    pub(crate) fn name_questions(&self, n: usize, p: u64) -> Result<(), u32> {
        participant_question(n, p, self.initiator)?;
        process_question(n, self.machine.me)?;
        self.present().try_for_each(|state| state.process_questions(n))?;
        purpose_question(self.purpose)?;
        purpose_question(self.machine.purpose)?;
        self.present().try_for_each(|state| purpose_question(state.purpose))
    }

    /// Question 13 of a session whose names have passed 10 and 11.
    fn fits(&self, book: &Book, strands: &[u8]) -> bool {
        self.n == book.n as u64
            && self.delivered < TALLY_LIMIT
            && self.machine.me == self.initiator
            && self.machine.purpose == self.purpose
            && self.machine.fits(book)
            && (0..PROCESSES).all(|place| {
                if place < book.n && place != self.hub() {
                    self.participant_fits(book, place) && self.strand_fits(book, place, strands)
                } else {
                    self.participants[place] == Participant::default() && self.lengths[place] == 0
                }
            })
    }

    /// "Every machine fits; n, purpose and initiator agree"; "while it waits, no participant has
    /// ended".
    fn participant_fits(&self, book: &Book, place: usize) -> bool {
        let participant = &self.participants[place];
        participant.me == place as u64 + 1
            && participant.initiator == self.initiator
            && participant.purpose == self.purpose
            && participant.fits(book)
            && (self.machine.ended || participant.stage != ENDED)
    }

    /// "The initiator awaits just those whose strand holds a searching invitation, a poll or a
    /// report; while it waits, [...] no termination waits; each waiting message passes 14 to 16
    /// where it is going."
    fn strand_fits(&self, book: &Book, place: usize, strands: &[u8]) -> bool {
        let awaited = self.machine.awaited[place];
        if self.lengths[place] == 0 {
            return !awaited;
        }
        let Some(bytes) = self.waiting(book.n, place, strands) else {
            return false;
        };
        let Ok(message) = Message::parse(bytes, book.n) else {
            return false;
        };
        if message.sender == self.initiator {
            let termination = message.kind == OTHER && message.has_no_pairs();
            let bare_restart = message.kind == INVITATION && message.purpose == RESTART_ONLY;
            let wants_report = !termination && !bare_restart;
            self.participants[place].admits(&message).is_ok()
                && awaited == wants_report
                && (self.machine.ended || !termination)
        } else {
            // Only a report of the strand's own participant goes up.
            message.sender == place as u64 + 1 && self.machine.admits(&message).is_ok() && awaited
        }
    }

    /// The bytes waiting on a participant's strand; `None` if they reach past the slot or past the
    /// bytes lent.
    fn waiting<'a>(&self, n: usize, place: usize, strands: &'a [u8]) -> Option<&'a [u8]> {
        let length = self.lengths[place];
        if length > longest(n) as u64 {
            return None;
        }
        let start = slot_start(n, self.hub(), place);
        strands.get(start..start + length as usize)
    }

    /// Questions 13, 17 and 18, and the turn, on accepted tables and names.
    pub(crate) fn turn(&mut self, book: &Book, p: u64, strands: &mut [u8]) -> Result<(), u32> {
        if !self.fits(book, strands) {
            return Err(13);
        }
        self.deliver(book, p as usize - 1, strands)
    }

    /// Delivers what waits on a participant's strand, in a session that fits: 14 to 16 never
    /// answer here, 17 and 18 may.
    fn deliver(&mut self, book: &Book, place: usize, strands: &mut [u8]) -> Result<(), u32> {
        let hub = self.hub();
        if self.lengths[place] == 0 {
            return Err(18);
        }
        let bytes = self.waiting(book.n, place, strands).ok_or(13u32)?;
        let message = Message::parse(bytes, book.n)?;
        if message.sender == self.initiator {
            let (next, report) = self.participants[place].step(book, &message);
            self.lengths[place] = put_one(report, slot_start(book.n, hub, place), strands)?;
            self.participants[place] = next;
        } else {
            let lengths = self
                .machine
                .step(book, &message, |outbox| put(outbox, book.n, hub, strands))?;
            self.lengths[place] = 0;
            for (waiting, length) in self.lengths.iter_mut().zip(lengths).filter(|&(_, length)| length > 0) {
                *waiting = length;
            }
        }
        self.delivered += 1;
        Ok(())
    }

    /// The candidates on which the machines stand.
    fn candidates(&self, book: &Book) -> [usize; PROCESSES] {
        let mut set = [0; PROCESSES];
        for place in others(book.n, self.hub()) {
            set[place] = self.participants[place].candidate as usize;
        }
        set[self.hub()] = self.machine.candidate as usize;
        set
    }
}

/// Starts a session: each invitation waits at the start of its strand's slot. Questions 2, 4 to
/// 11, 17.
pub fn session_start(
    shape: &Shape,
    sent: &[Counter],
    received: &[Counter],
    initiator: u64,
    purpose: u64,
    strands: &mut [u8],
) -> Result<Session, u32> {
    let book = Book::accepted(shape, sent, received)?;
    process_question(book.n, initiator)?;
    purpose_question(purpose)?;
    let hub = initiator as usize - 1;
    let (session, invitations) = Session::begin(&book, hub, purpose);
    put(&invitations, book.n, hub, strands)?;
    Ok(session)
}

/// A turn: delivers the message waiting on the strand of participant `p`. Questions 2, 4 to 11, 13,
/// 17, 18.
pub fn session_turn(
    session: &mut Session,
    shape: &Shape,
    sent: &[Counter],
    received: &[Counter],
    p: u64,
    strands: &mut [u8],
) -> Result<(), u32> {
    let book = Book::accepted(shape, sent, received)?;
    session.name_questions(book.n, p)?;
    session.turn(&book, p, strands)
}

/// A search from its start to its end, "lowest waiting strand first". Questions 2, 4 to 11.
pub fn search(
    shape: &Shape,
    sent: &[Counter],
    received: &[Counter],
    initiator: u64,
    purpose: u64,
) -> Result<Searched, u32> {
    let book = Book::accepted(shape, sent, received)?;
    process_question(book.n, initiator)?;
    purpose_question(purpose)?;
    let hub = initiator as usize - 1;
    let mut strands = [0; ALL_STRANDS];
    let (mut session, invitations) = Session::begin(&book, hub, purpose);
    put(&invitations, book.n, hub, &mut strands)?;
    while let Some(lowest) = session.lengths.iter().position(|&length| length > 0) {
        // The session inside is as the start and its own turns left it: it needs no question.
        session.deliver(&book, lowest, &mut strands)?;
    }
    let set = session.candidates(&book);
    Ok(Searched {
        set: set.map(|checkpoint| checkpoint as u64),
        newer: newer(&book, &set),
        rounds: session.machine.rounds,
        messages: session.delivered,
    })
}
