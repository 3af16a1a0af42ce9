//! Workers look for their recovery line by messages, and then move it.
//!
//!     cargo run --example search_and_move
//!
//! An argument after `--` names a file that holds a checkpoint book; without it the example takes a small one of its own. Each
//! worker has its own machine, which goes by the worker's own checkpoints alone. Messages wait in one list, and the newest is
//! delivered first: any other order ends on the same line.

use recovery_line::{
    Checkpoint, Count, Initiator, Line, Messages, NewCheckpoint, Participant, Process, Purpose, Refusal, Tables,
};
use std::error::Error;
use std::process::ExitCode;

/// Three processes with two checkpoints each: process 1's newest has received 4 messages from process 2, of whose sending
/// process 2's newest has recorded only 3.
const BOOK: [u8; 28] = [
    3, // processes
    2, 0, 0, 0, 0, 0, 0, 4, 5, // process 1: its checkpoints, and for each what it sent and received
    2, 0, 0, 0, 0, 3, 0, 0, 0, // process 2
    2, 0, 0, 0, 0, 7, 0, 0, 0, // process 3
];

/// A message on its way.
struct Letter {
    from: Process,
    to: Process,
    bytes: Vec<u8>,
}

/// A worker that takes part: what it knows, and from its invitation on its machine.
struct Worker {
    process: Process,
    own: Tables,
    machine: Option<Participant>,
}

impl Worker {
    fn receive(&mut self, message: &[u8]) -> Result<Messages, Refusal> {
        if let Some(machine) = &mut self.machine {
            return machine.receive(&self.own, message);
        }
        let (machine, report) = self.own.invited(self.process, message)?;
        self.machine = Some(machine);
        Ok(report)
    }

    /// The checkpoint on which it has ended.
    fn ended_on(&self) -> Option<Checkpoint> {
        let ended = self.machine.as_ref().filter(|machine| machine.ended());
        ended.map(Participant::candidate)
    }
}

/// What a worker knows of a book: its own rows, and zeros for everybody else.
fn own_rows(book: &Tables, me: Process) -> Result<Tables, Refusal> {
    let mut own = Tables::builder(book.processes());
    for checkpoint in (1..=book.checkpoints(me)).map(Checkpoint::new) {
        copy_counters(book, checkpoint, me, own.checkpoint(me));
    }
    own.zeros_elsewhere().build()
}

fn copy_counters(book: &Tables, checkpoint: Checkpoint, me: Process, mut copy: NewCheckpoint) {
    for partner in Process::all(book.processes()).filter(|partner| *partner != me) {
        let none = Count::new(0);
        copy = copy
            .sent_to(partner, book.sent_to(me, checkpoint, partner).unwrap_or(none))
            .received_from(partner, book.received_from(me, checkpoint, partner).unwrap_or(none));
    }
}

/// All workers of a search, and the messages on their way between them.
struct Search {
    own: Tables,
    initiator: Initiator,
    others: Vec<Worker>,
    letters: Vec<Letter>,
    delivered: u64,
}

impl Search {
    fn begin(book: &Tables, first: Process, purpose: Purpose) -> Result<Search, Refusal> {
        let own = own_rows(book, first)?;
        let (initiator, invitations) = own.initiator(first, purpose)?;
        let mut others = Vec::new();
        for process in Process::all(book.processes()).filter(|process| *process != first) {
            others.push(Worker {
                process,
                own: own_rows(book, process)?,
                machine: None,
            });
        }
        let mut search = Search {
            own,
            initiator,
            others,
            letters: Vec::new(),
            delivered: 0,
        };
        search.send(first, invitations);
        Ok(search)
    }

    fn send(&mut self, from: Process, messages: Messages) {
        for (to, bytes) in messages {
            self.letters.push(Letter { from, to, bytes });
        }
    }

    /// Delivers a message to its receiver, and sends what that answers with.
    fn deliver(&mut self, letter: &Letter) -> Result<(), Refusal> {
        let receiver = self.others.iter_mut().find(|worker| worker.process == letter.to);
        let replies = match receiver {
            Some(worker) => worker.receive(&letter.bytes)?,
            None => self.initiator.receive(&self.own, &letter.bytes)?,
        };
        self.delivered += 1;
        self.send(letter.to, replies);
        Ok(())
    }

    /// Whether every worker has ended, and stands on its checkpoint of the line.
    fn has_ended_on(&self, line: &Line) -> bool {
        let stands = |process, candidate| line.set.checkpoint(process) == Some(candidate);
        let mut others = self.others.iter();
        self.initiator.ended()
            && stands(self.initiator.process(), self.initiator.candidate())
            && others.all(|worker| worker.ended_on().is_some_and(|on| stands(worker.process, on)))
    }
}

fn hex(bytes: &[u8]) -> String {
    bytes.iter().map(|byte| format!(" {byte:02X}")).collect()
}

fn main() -> ExitCode {
    match search_and_move() {
        Ok(()) => ExitCode::SUCCESS,
        Err(error) => {
            eprintln!("{error}");
            ExitCode::FAILURE
        }
    }
}

fn search_and_move() -> Result<(), Box<dyn Error>> {
    let book = match std::env::args_os().nth(1) {
        Some(file) => std::fs::read(file)?,
        None => BOOK.to_vec(),
    };
    let mut whole_book = Tables::read(&book)?;
    println!("processes {}", whole_book.processes());

    let mut search = Search::begin(&whole_book, Process::new(1), Purpose::AdvanceAndRestart)?;
    while let Some(letter) = search.letters.pop() {
        println!("{} to {}:{}", letter.from, letter.to, hex(&letter.bytes));
        search.deliver(&letter)?;
    }

    // No worker can do what follows with its own rows alone: to find the line and to move it needs the whole book.
    let line = whole_book.find_line()?;
    if !search.has_ended_on(&line) {
        return Err("some worker has not ended on the line".into());
    }
    println!("line {}", line.set);
    println!("passed {}", line.passed);
    println!("rounds {}", search.initiator.rounds());
    println!("messages {}", search.delivered);

    let order = whole_book.move_line(Purpose::AdvanceAndRestart)?;
    for restart in &order {
        println!(
            "process {} restarts from checkpoint {}; before it {} go, after it {}",
            restart.process, restart.from, restart.before, restart.after
        );
    }
    for repeat in order.sent_again() {
        println!(
            "process {} sends process {} messages {} to {} again",
            repeat.sender, repeat.receiver, repeat.first, repeat.last
        );
    }
    println!("new book{}", hex(&whole_book.write()?));
    Ok(())
}
