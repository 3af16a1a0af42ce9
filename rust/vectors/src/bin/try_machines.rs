//! Reads lines of machines and messages (as the comment lines there say), and prints for each what is answered: the
//! question that refuses, or 0, and for an accepted message `wrote` and what goes to each process.

use std::io;
use vectors::edits::Edit;
use vectors::given::Given;
use vectors::machine::{Machine, Role};
use vectors::mail::Mail;
use vectors::tables::Counters;
use vectors::text::{self, Answer};
use vectors::{calls, IN_WORDS};

/// The machine that gets the next message, with what is lent to it, if its line could be read; the tables' edits stay
/// until the next machine.
struct Bench {
    given: Option<Given>,
    machine: Machine,
    counters: Counters,
}

/// Who a machine is.
struct Names {
    me: u64,
    initiator: u64,
    purpose: u64,
}

fn main() -> io::Result<()> {
    let mut bench = Bench {
        given: None,
        machine: Machine::none(Role::Participant),
        counters: Counters::filled(0, 0),
    };
    text::answer_lines(|line| Some(bench.try_line(line)))
}

impl Bench {
    fn try_line(&mut self, line: &str) -> Answer {
        let (edits, call) = text::edits_and_call(line, text::is_no_edit);
        let answer = match text::first(call) {
            ("machine", fields) => self.try_machine(edits, fields),
            (_, fields) => self.try_message(edits, fields),
        };
        answer.unwrap_or(Answer::unreadable("?"))
    }

    /// A new machine, on the tables of its own book after the edits.
    fn try_machine(&mut self, edits: &str, fields: &str) -> Option<Answer> {
        let (book, fields) = text::first(fields);
        let (role, fields) = text::first(fields);
        let mut given = Given::all(self.counters.read_field(book));
        self.given = None;
        given.edit_all(edits, &mut self.counters)?;
        let names = names_in(fields)?;
        let answer = match role {
            "participant" => self.try_first(&given, names),
            _ => self.try_begin(&given, names, role == "begins"),
        };
        self.given = Some(Given::all(given.shape));
        Some(answer)
    }

    /// A participant's first state.
    fn try_first(&mut self, given: &Given, names: Names) -> Answer {
        let mut answer = Answer::default();
        let mut state = vec![IN_WORDS; Role::Participant.words()];
        let lent = given.lent(&self.counters);
        let question = calls::participant_first(lent, names.me, names.initiator, names.purpose, &mut state);
        answer.put(question);
        self.put_machine(&mut answer, question, Role::Participant, state);
        answer
    }

    /// An initiator begins.
    fn try_begin(&mut self, given: &Given, names: Names, shown: bool) -> Answer {
        let mut answer = Answer::default();
        let mut state = vec![IN_WORDS; Role::Initiator.words()];
        let mail = Mail::of(given, |out, lengths| {
            let lent = given.lent(&self.counters);
            calls::initiator_begin(lent, names.me, names.purpose, &mut state, out, lengths)
        });
        mail.put(&mut answer, shown);
        self.put_machine(&mut answer, mail.question, Role::Initiator, state);
        answer
    }

    /// The machine after its first call. A refusal writes no state, and then there is none.
    fn put_machine(&mut self, answer: &mut Answer, question: u32, role: Role, state: Vec<u64>) {
        if question == 0 {
            self.machine = Machine { role, state };
        } else {
            answer.expect(state.iter().all(|&word| word == IN_WORDS), "state");
            self.machine = Machine::none(role);
        }
    }

    /// A message to the machine after the edits. A refusal leaves the state that it was given, and the machine is then
    /// the one before the edits.
    fn try_message(&mut self, edits: &str, fields: &str) -> Option<Answer> {
        let (given, edited) = self.edited(edits)?;
        let message = text::bytes(text::first(fields).0)?;
        let mut answer = Answer::default();
        let (mail, after) = edited.receive(&given, &self.counters, &message);
        mail.put(&mut answer, true);
        if mail.question == 0 {
            self.machine = after;
        } else {
            answer.expect(after == edited, "state");
        }
        Some(answer)
    }

    /// What is lent and the machine, after edits for one call.
    fn edited(&mut self, edits: &str) -> Option<(Given, Machine)> {
        let (mut given, mut machine) = (self.given.clone()?, self.machine.clone());
        for field in edits.split_terminator(' ') {
            let edit = Edit::of(field)?;
            if machine.role.edit(&mut machine.state, &edit).is_none() {
                given.edit(&edit, &mut self.counters)?;
            }
        }
        Some((given, machine))
    }
}

/// The first three fields: the machine's process, the initiator and the purpose.
fn names_in(fields: &str) -> Option<Names> {
    let (me, fields) = text::first(fields);
    let (initiator, fields) = text::first(fields);
    let (purpose, _) = text::first(fields);
    Some(Names {
        me: text::decimal(me)?,
        initiator: text::decimal(initiator)?,
        purpose: text::decimal(purpose)?,
    })
}
