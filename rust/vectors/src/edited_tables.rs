//! Tables with edits, and the check of them.

use crate::calls;
use crate::edits::Edit;
use crate::tables::{Lent, Tables, BUFFER};
use crate::text::{self, Answer};

/// What is printed for a book, edits of its tables and the question that must refuse them: the question that does.
pub fn try_line(line: &str) -> Answer {
    match tables_in(line) {
        Some(tables) => try_tables(tables.lent()),
        None => Answer::unreadable("? "),
    }
}

/// The tables of a book after the edits; the last field of a line is the question, and no edit.
fn tables_in(line: &str) -> Option<Tables> {
    let (fields, question) = line.rsplit_once(' ')?;
    if question.is_empty() {
        return None;
    }
    let (book, edits) = text::first(fields);
    let mut tables = Tables::of_field(book)?;
    edits
        .split_terminator(' ')
        .try_for_each(|field| make_edit(&Edit::of(field)?, &mut tables))?;
    Some(tables)
}

/// An edit of n, a count, or an entry of a table.
fn make_edit(edit: &Edit, tables: &mut Tables) -> Option<()> {
    match (edit.name, edit.index) {
        ("n", None) => {
            tables.shape[0] = edit.value;
            Some(())
        }
        ("counts", _) => edit.put(&mut tables.shape[1..], edit.value),
        ("sent", _) => edit.put(&mut tables.counters.sent, edit.counter()?),
        ("received", _) => edit.put(&mut tables.counters.received, edit.counter()?),
        _ => None,
    }
}

fn try_tables(lent: Lent) -> Answer {
    let mut answer = Answer::default();
    let question = calls::check(lent);
    answer.put(question);
    answer.expect(writes_alike(question, lent), "write");
    answer.expect(
        lent.other_lengths().iter().all(|&other| calls::check(other) == 2),
        "lengths",
    );
    answer
}

/// Is a write refused by the same question, the buffer then unchanged? Tables that pass are written, and read again.
fn writes_alike(question: u32, lent: Lent) -> bool {
    let written = lent.write(BUFFER);
    let kept = if question == 0 {
        lent.are_read_again()
    } else {
        written.is_untouched()
    };
    written.question == question && kept
}
