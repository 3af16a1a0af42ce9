//! Reads lines of tests (edits of the tables; `set`, a book and sixteen checkpoint numbers, or `column`, a book, a process,
//! a checkpoint and sixteen known sent counters; then what must be answered), and prints for each what is answered: of a
//! set as try_sets does; of a column `none`, the partner that is named, or `refused` and the question. Only what is tested
//! is taken from a line.

use recovery_line::{sys, Counter};
use std::io;
use vectors::given::Given;
use vectors::sets::{sixteen, try_set};
use vectors::tables::{Lent, Set, Tables, PROCESSES};
use vectors::text::{self, Answer};
use vectors::{calls, IN_WORDS};

const NOT_KNOWN: Counter = sys::RECOVERY_LINE_NOT_KNOWN;

/// One checkpoint of a process, and what each process is known to have sent to that one.
struct Column {
    process: u64,
    checkpoint: u64,
    known: [Counter; PROCESSES],
}

fn main() -> io::Result<()> {
    text::answer_lines(|line| Some(try_line(line).unwrap_or_else(|| Answer::unreadable("? "))))
}

fn try_line(line: &str) -> Option<Answer> {
    let (edits, call) = text::edits_and_call(line, text::is_no_edit);
    let (kind, fields) = text::first(call);
    let (book, fields) = text::first(fields);
    let mut tables = Tables::of_field(book)?;
    let mut given = Given::all(tables.shape);
    given.edit_all(edits, &mut tables.counters)?;
    let lent = given.lent(&tables.counters);
    match kind {
        "set" => {
            let set = sixteen(fields)?;
            let mut answer = try_set(lent, &set);
            answer.expect(goes_by_columns(lent, &set), "columns");
            Some(answer)
        }
        "column" => Some(try_column(lent, &column_in(fields)?)),
        _ => None,
    }
}

fn column_in(fields: &str) -> Option<Column> {
    let (process, fields) = text::first(fields);
    let (checkpoint, fields) = text::first(fields);
    let mut known = [0; PROCESSES];
    for (entry, number) in known.iter_mut().zip(sixteen(fields)?) {
        *entry = Counter::try_from(number).ok()?;
    }
    Some(Column {
        process: text::decimal(process)?,
        checkpoint: text::decimal(checkpoint)?,
        known,
    })
}

impl Column {
    /// The partner that is named, or the question that refuses; nothing where a refusal writes.
    fn test(&self, lent: Lent) -> Option<Result<u64, u32>> {
        self.test_with(lent, &self.known)
    }

    /// The same with other counters known, of any number.
    fn test_with(&self, lent: Lent, known: &[Counter]) -> Option<Result<u64, u32>> {
        let mut partner = IN_WORDS;
        match calls::test_checkpoint(lent, self.process, self.checkpoint, known, &mut partner) {
            0 => Some(Ok(partner)),
            question => (partner == IN_WORDS).then_some(Err(question)),
        }
    }
}

fn try_column(lent: Lent, column: &Column) -> Answer {
    let mut answer = Answer::default();
    match column.test(lent) {
        Some(Ok(0)) => answer.put("none"),
        Some(Ok(partner)) => {
            answer.put(partner);
            answer.expect(gives_way_to_higher(lent, column, partner), "higher");
        }
        Some(Err(question)) => answer.put(format_args!("refused {question}")),
        None => answer.expect(false, "partner"),
    }
    let refuses_lengths = |other: &Lent| column.test(*other) == Some(Err(2));
    answer.expect(lent.other_lengths().iter().all(refuses_lengths), "lengths");
    answer.expect(refuses_words(lent, column), "words");
    answer
}

/// Where what a partner sent is not known, is a higher one named, or none?
fn gives_way_to_higher(lent: Lent, column: &Column, partner: u64) -> bool {
    let mut known = column.known;
    let Some(entry) = known.get_mut(partner as usize - 1) else {
        return false;
    };
    *entry = NOT_KNOWN;
    let named = column.test_with(lent, &known);
    matches!(named, Some(Ok(other)) if other == 0 || other > partner)
}

/// Is another number of words or of known counters refused before every question?
fn refuses_words(lent: Lent, column: &Column) -> bool {
    let refused = Some(Err(sys::RECOVERY_LINE_WRONG_LENGTH));
    let longer = [column.known.as_slice(), &[0]].concat();
    let counters = [&longer[..0], &longer[..PROCESSES - 1], &longer];
    let short = Lent {
        shape: &lent.shape[1..],
        sent: &[],
        ..lent
    };
    let without_tables = Lent { sent: &[], ..lent };
    column.test(short) == refused
        && counters
            .iter()
            .all(|known| column.test_with(without_tables, known) == refused)
}

/// Is the pair that is shown for a set that of its first checkpoint with an offending partner, each against what the set's
/// others had sent to it? A set that is refused has none.
fn goes_by_columns(lent: Lent, set: &Set) -> bool {
    let mut pair = [IN_WORDS; 2];
    if calls::test_set(lent, set, &mut pair) != 0 {
        return true;
    }
    let n = lent.shape[0];
    let first = (1..=n).find_map(|process| {
        let column = column_of_set(lent, set, process)?;
        match column.test(lent)? {
            Ok(0) => None,
            Ok(partner) => Some([process, partner]),
            Err(_) => Some([IN_WORDS; 2]),
        }
    });
    first.unwrap_or([0, 0]) == pair
}

/// The checkpoint of a process in an accepted set, against what the set's others had sent to it.
fn column_of_set(lent: Lent, set: &Set, process: u64) -> Option<Column> {
    let place = process as usize - 1;
    let counts = &lent.shape[1..];
    let mut known = [0; PROCESSES];
    let mut first_row = 0;
    for p in (0..PROCESSES).filter(|&p| set[p] != 0) {
        let row = first_row + set[p] as usize - 1;
        known[p] = *lent.sent.get(row * PROCESSES + place)?;
        first_row += counts[p] as usize;
    }
    Some(Column {
        process,
        checkpoint: set[place],
        known,
    })
}
