//! Sessions that are tried: the calls on them, and what is seen beside the answers.

use crate::given::Given;
use crate::session::Session;
use crate::strands::{self, STRANDS};
use crate::tables::{Counters, Shape};
use crate::text::Answer;
use crate::{calls, IN_BYTES, IN_WORDS};

/// A session with its strands, and what is lent to its next call.
#[derive(Clone)]
pub struct Trial {
    pub given: Given,
    pub session: Session,
    pub strands: Vec<u8>,
}

/// A call: the trial before and after it, the question that refuses, the process whose message it delivers, 0 for none,
/// and whether it left the words of the session as they were.
pub struct Outcome {
    before: Trial,
    after: Trial,
    pub question: u32,
    delivered: u64,
    session_kept: bool,
}

impl Trial {
    /// Everything is lent, and there is no session yet.
    pub fn on(shape: Shape) -> Trial {
        Trial {
            given: Given::all(shape),
            session: Session::filled(0),
            strands: vec![IN_BYTES; STRANDS],
        }
    }

    /// Everything is lent again.
    pub fn all_lent(mut self) -> Trial {
        self.given = Given::all(self.given.shape);
        self
    }

    /// A session starts.
    pub fn start(self, initiator: u64, purpose: u64, counters: &Counters) -> Outcome {
        let unwritten = Session::filled(IN_WORDS);
        let mut after = self.clone();
        after.session = unwritten.clone();
        let question = calls::session_start(
            self.given.lent(counters),
            initiator,
            purpose,
            &mut after.session.0,
            self.given.part(&mut after.strands),
        );
        let session_kept = after.session == unwritten;
        Outcome {
            before: self,
            after,
            question,
            delivered: 0,
            session_kept,
        }
    }

    /// A turn names a process.
    pub fn turn(self, p: u64, counters: &Counters) -> Outcome {
        let mut after = self.clone();
        let question = calls::session_turn(
            &mut after.session.0,
            self.given.lent(counters),
            p,
            self.given.part(&mut after.strands),
        );
        let session_kept = after.session == self.session;
        Outcome {
            before: self,
            after,
            question,
            delivered: p,
            session_kept,
        }
    }
}

impl Outcome {
    fn newly(&self) -> strands::Marks {
        strands::newly(&self.before.session, &self.after.session, self.delivered)
    }

    /// Are the bytes as before but for the marked messages?
    fn rest_untouched(&self, marked: &strands::Marks) -> bool {
        strands::rest_untouched(&self.before.strands, &self.after.strands, &self.after.session, marked)
    }

    /// The question. Beside what an accepted call wrote, everything waits as before and no byte is touched; beside a
    /// refusal the session is the one that was given, and no byte is touched.
    pub fn put_question(&self, answer: &mut Answer) {
        answer.put(self.question);
        if self.question == 0 {
            let marked = self.newly();
            let (was, is) = (&self.before.session, &self.after.session);
            answer.expect(strands::rest_waits(was, is, &marked, self.delivered), "lengths");
            answer.expect(self.rest_untouched(&marked), "bytes");
        } else {
            answer.expect(self.session_kept, "session");
            answer.expect(self.rest_untouched(&[false; 16]), "bytes");
        }
    }

    /// What an accepted call wrote.
    pub fn put_wrote(&self, answer: &mut Answer) {
        strands::put_wrote(answer, &self.after.session, &self.after.strands, &self.newly());
    }

    /// The trial after an accepted call.
    pub fn accepted(self) -> Option<Trial> {
        (self.question == 0).then_some(self.after)
    }
}
