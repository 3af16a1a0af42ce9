//! Counts of cases, by kind and by call and answer, and the table that shows them.

use crate::call::{Call, ANSWERS, CALLS, WRONG_LENGTH};

/// What a case tries.
#[derive(Clone, Copy, PartialEq, Eq, Debug)]
pub enum Kind {
    ValidBook,
    DamagedBook,
    ValidJournal,
    DamagedJournal,
    ValidTables,
    Chain,
    ValidList,
    DamagedList,
    DamagedTables,
    TableLengths,
    WordLengths,
    OtherTables,
    OtherProcesses,
    SessionHead,
    Places,
    Set,
    Column,
    Name,
    Room,
    RealMessage,
    DamagedMessage,
    ChangedMachine,
    ForgedMachine,
    RealTurn,
    ChangedSession,
    DamagedStrand,
    ForgedSession,
}

/// All kinds, with what the table calls them.
const KINDS: [(Kind, &str); 27] = [
    (Kind::ValidBook, "valid books read"),
    (Kind::DamagedBook, "damaged books read"),
    (Kind::ValidJournal, "valid journals read"),
    (Kind::DamagedJournal, "damaged journals read"),
    (Kind::ValidTables, "valid tables"),
    (Kind::Chain, "books moved, and with later checkpoints"),
    (Kind::ValidList, "lists of what to send again, written and read"),
    (Kind::DamagedList, "damaged lists read"),
    (Kind::DamagedTables, "damaged tables"),
    (Kind::TableLengths, "tables of wrong length"),
    (Kind::WordLengths, "words or columns of wrong length"),
    (Kind::OtherTables, "states on other tables"),
    (Kind::OtherProcesses, "sessions on tables of another n"),
    (Kind::SessionHead, "sessions with another n or initiator"),
    (Kind::Places, "machines at unused places, places emptied"),
    (Kind::Set, "sets"),
    (Kind::Column, "checkpoints against columns"),
    (Kind::Name, "names, checkpoints and purposes"),
    (Kind::Room, "buffers of other length"),
    (Kind::RealMessage, "messages of real searches"),
    (Kind::DamagedMessage, "damaged messages"),
    (Kind::ChangedMachine, "changed machine states"),
    (Kind::ForgedMachine, "forged machine states"),
    (Kind::RealTurn, "starts and turns of real sessions"),
    (Kind::ChangedSession, "changed sessions"),
    (Kind::DamagedStrand, "damaged strands"),
    (Kind::ForgedSession, "forged sessions"),
];

/// The kinds about names in a session, and the questions that each must meet: which names are asked, and what is left to 13.
const OF_NAMES: [Kind; 3] = [Kind::OtherProcesses, Kind::SessionHead, Kind::Places];
const QUESTIONS_OF_NAMES: [u32; 3] = [10, 11, 13];

/// The counts.
#[derive(Clone, Default)]
pub struct Tally {
    kinds: [[u64; ANSWERS.len()]; KINDS.len()],
    answers: [[u64; ANSWERS.len()]; CALLS.len()],
    pub cases: u64,
}

impl Tally {
    /// Counts a case.
    pub fn add(&mut self, kind: Kind, call: Call, answer: u32) {
        let column = column(answer);
        self.kinds[place(kind)][column] += 1;
        self.answers[call as usize][column] += 1;
        self.cases += 1;
    }

    /// Adds the counts of another run.
    pub fn merge(&mut self, other: &Tally) {
        self.kinds
            .iter_mut()
            .zip(&other.kinds)
            .for_each(|(sums, counts)| add_each(sums, counts));
        self.answers
            .iter_mut()
            .zip(&other.answers)
            .for_each(|(sums, counts)| add_each(sums, counts));
        self.cases += other.cases;
    }

    /// Each answer that a call can give, or a kind must meet, and that no case had.
    pub fn missing(&self) -> Vec<String> {
        let mut missing = Vec::new();
        for kind in OF_NAMES {
            let never = |question: &&u32| self.kinds[place(kind)][column(**question)] == 0;
            missing.extend(
                QUESTIONS_OF_NAMES
                    .iter()
                    .filter(never)
                    .map(|question| format!("{kind:?} {question}")),
            );
        }
        for call in CALLS {
            for (column, &answer) in ANSWERS.iter().enumerate() {
                if call.can_answer(answer) && self.answers[call as usize][column] == 0 {
                    missing.push(format!("{} {answer}", call.name()));
                }
            }
        }
        missing
    }

    /// Prints the counts by kind, then those by call and answer; `-` where a call never gives an answer.
    pub fn print(&self) {
        self.print_kinds();
        println!();
        print!("{:<20}", "answers");
        ANSWERS
            .iter()
            .for_each(|&answer| print!("{:>width$}", heading(answer), width = width(answer)));
        println!();
        for call in CALLS {
            print!("{:<20}", call.name());
            for (column, &answer) in ANSWERS.iter().enumerate() {
                let count = self.answers[call as usize][column];
                let text = if count > 0 || call.can_answer(answer) {
                    count.to_string()
                } else {
                    "-".into()
                };
                print!("{text:>width$}", width = width(answer));
            }
            println!();
        }
    }

    /// How many cases each kind had, how many were accepted, and how many the questions of names refused.
    fn print_kinds(&self) {
        print!("{:>10}{:>10}", "cases", "accepted");
        QUESTIONS_OF_NAMES.iter().for_each(|question| print!("{question:>7}"));
        println!();
        for (counts, (_, name)) in self.kinds.iter().zip(&KINDS) {
            print!("{:>10}{:>10}", counts.iter().sum::<u64>(), counts[column(0)]);
            QUESTIONS_OF_NAMES
                .iter()
                .for_each(|&question| print!("{:>7}", counts[column(question)]));
            println!("  {name}");
        }
    }
}

/// Where a kind stands in the list.
fn place(kind: Kind) -> usize {
    KINDS
        .iter()
        .position(|entry| entry.0 == kind)
        .expect("every kind is listed")
}

/// Where an answer stands in the list.
fn column(answer: u32) -> usize {
    ANSWERS
        .iter()
        .position(|&listed| listed == answer)
        .expect("compared with a listed answer")
}

fn add_each(sums: &mut [u64], counts: &[u64]) {
    sums.iter_mut().zip(counts).for_each(|(sum, count)| *sum += count);
}

fn heading(answer: u32) -> String {
    match answer {
        0 => "accepted".into(),
        WRONG_LENGTH => "length".into(),
        question => question.to_string(),
    }
}

fn width(answer: u32) -> usize {
    if answer == 0 {
        10
    } else {
        7
    }
}
