//! Reads lines of sessions, turns and damaged states (as the comment lines there say), and prints for each what is
//! answered: the question that refuses, or 0, and after an accepted start or turn of a session `wrote` and what newly
//! waits on each strand; at a session's end how it stands.

use std::io;
use vectors::session_edits::make_edits;
use vectors::tables::{Counters, NO_SHAPE};
use vectors::text::{self, Answer};
use vectors::trial::{Outcome, Trial};

/// The session that gets the next turn, and the tables.
struct Bench {
    trial: Trial,
    counters: Counters,
}

fn main() -> io::Result<()> {
    let mut bench = Bench {
        trial: Trial::on(NO_SHAPE),
        counters: Counters::filled(0, 0),
    };
    text::answer_lines(|line| bench.try_line(line))
}

impl Bench {
    /// A line that says what a call before it wrote has no answer of its own.
    fn try_line(&mut self, line: &str) -> Option<Answer> {
        if text::first(line).0 == "wrote" {
            return None;
        }
        let (edits, call) = text::edits_and_call(line, text::is_no_edit);
        let answer = match text::first(call) {
            ("session", fields) => self.start(edits, fields).map(|outcome| self.show(outcome)),
            ("turn", fields) => self.turn(edits, fields).map(|outcome| self.show(outcome)),
            ("end", _) => Some(self.end()),
            _ => self.try_state(call),
        };
        Some(answer.unwrap_or(Answer::unreadable("?")))
    }

    fn end(&self) -> Answer {
        let mut answer = Answer::default();
        self.trial.session.put_end(&mut answer);
        answer
    }

    /// BOOK INITIATOR PURPOSE: a session starts, on tables after the edits.
    fn start(&mut self, edits: &str, fields: &str) -> Option<Outcome> {
        let (book, fields) = text::first(fields);
        let mut trial = Trial::on(self.counters.read_field(book));
        make_edits(edits, &mut trial, &mut self.counters)?;
        let (initiator, purpose, _) = search_in(fields)?;
        Some(trial.start(initiator, purpose, &self.counters))
    }

    /// P: a turn, on the session after the edits.
    fn turn(&mut self, edits: &str, fields: &str) -> Option<Outcome> {
        let mut trial = self.trial.clone();
        make_edits(edits, &mut trial, &mut self.counters)?;
        let p = text::process(text::first(fields).0);
        Some(trial.turn(p, &self.counters))
    }

    /// The answer to a call. What is edited of the session or of what is lent is so for one call, and the next line
    /// gets the session before it where the call was refused.
    fn show(&mut self, outcome: Outcome) -> Answer {
        let mut answer = Answer::default();
        outcome.put_question(&mut answer);
        if outcome.question == 0 {
            answer.put("\n");
            outcome.put_wrote(&mut answer);
        }
        if let Some(trial) = outcome.accepted() {
            self.trial = trial.all_lent();
        }
        answer
    }

    /// BOOK INITIATOR PURPOSE TURNS EDITS CALL: a session is reached by turns and edited, then a call names a process.
    fn try_state(&mut self, line: &str) -> Option<Answer> {
        let (book, fields) = text::first(line);
        let trial = Trial::on(self.counters.read_field(book));
        let (initiator, purpose, fields) = search_in(fields)?;
        let (turns, fields) = text::first(fields);
        let started = trial.start(initiator, purpose, &self.counters).accepted()?;
        let mut reached = take_turns(turns, started, &self.counters)?;
        let (edits, call) = text::edits_and_call(fields, |field| field == "turn" || field == "message");
        make_edits(edits, &mut reached, &mut self.counters)?;
        match text::first(call) {
            ("turn", fields) => Some(try_turn(fields, reached, &self.counters)),
            (_, fields) => try_message(fields, &reached, &self.counters),
        }
    }
}

/// Who begins a session and for which purpose, and the fields behind them.
fn search_in(fields: &str) -> Option<(u64, u64, &str)> {
    let (initiator, fields) = text::first(fields);
    let (purpose, fields) = text::first(fields);
    Some((text::decimal(initiator)?, text::decimal(purpose)?, fields))
}

/// The session after the turns of a list, `-` for none, if none is refused.
fn take_turns(turns: &str, started: Trial, counters: &Counters) -> Option<Trial> {
    if turns == "-" {
        return Some(started);
    }
    turns
        .split_terminator(',')
        .try_fold(started, |trial, p| trial.turn(text::process(p), counters).accepted())
}

/// P: a turn, whose replies are not shown.
fn try_turn(fields: &str, trial: Trial, counters: &Counters) -> Answer {
    let mut answer = Answer::default();
    let p = text::process(text::first(fields).0);
    trial.turn(p, counters).put_question(&mut answer);
    answer
}

/// P HEX: machine P alone gets a message. A refusal leaves its state.
fn try_message(fields: &str, trial: &Trial, counters: &Counters) -> Option<Answer> {
    let (p, fields) = text::first(fields);
    let machine = trial.session.machine(text::process(p))?;
    let message = text::bytes(text::first(fields).0)?;
    let mut answer = Answer::default();
    let (mail, after) = machine.receive(&trial.given, counters, &message);
    mail.put(&mut answer, false);
    answer.expect(mail.question == 0 || after == machine, "state");
    Some(answer)
}
