//! Reads lines of books (`read` or `only`, a book), of tables (`tables`, a book, edits of its tables), of moves (edits of the
//! tables, `move`, a book, a purpose) and of later checkpoints (`append`, a book, the same with later checkpoints, and the book
//! moved with purpose 1 and with those), each with what must be answered behind it. Prints for each what is answered: of a book
//! and of tables as try_books and try_tables do; of a move the question that refuses, or 0, the moved book and the restart
//! order; of later checkpoints the line of either book. Only what is tried is taken from a line.

use std::io;
use vectors::moves::{self, Moved, ADVANCE};
use vectors::tables::{Set, Tables};
use vectors::taken_off::{extends, TakenOff};
use vectors::text::{self, Answer};
use vectors::{books, edited_tables};

fn main() -> io::Result<()> {
    let unreadable = || Answer::unreadable("?");
    text::answer_lines(|line| (!line.is_empty()).then(|| try_line(line).unwrap_or_else(unreadable)))
}

fn try_line(line: &str) -> Option<Answer> {
    let (edits, call) = text::edits_and_call(line, text::is_no_edit);
    let (kind, fields) = text::first(call);
    match kind {
        "move" => moves::try_fields(edits, fields),
        _ if !edits.is_empty() => None,
        "read" | "only" => Some(books::try_field(text::first(fields).0)),
        "tables" => Some(edited_tables::try_line(fields)),
        "append" => try_append(fields),
        _ => None,
    }
}

/// The line of a book with later checkpoints, and of the moved book with the same ones.
fn try_append(fields: &str) -> Option<Answer> {
    let mut books = fields.split(' ').map(Tables::of_field);
    let (book, whole, less) = (books.next()??, books.next()??, books.next()??);
    let (line_of_whole, _) = whole.lent().find_line().ok()?;
    let (line_of_less, _) = less.lent().find_line().ok()?;
    let mut answer = Answer::default();
    let lines = [(&whole, &line_of_whole), (&less, &line_of_less)];
    let numbers = lines.map(|(tables, line)| {
        line[..tables.processes()]
            .iter()
            .map(u64::to_string)
            .collect::<Vec<_>>()
    });
    answer.put(numbers.concat().join(" "));
    let moved = Moved::of(&book, ADVANCE);
    answer.expect(moved.question == 0, "move");
    answer.expect(extends(&whole, &book), "whole");
    answer.expect(extends(&less, &moved.tables), "moved");
    let off = TakenOff::by(&moved.order, &book);
    answer.expect(off.leaves(&whole, &less), "off");
    answer.expect(is_the_same(&line_of_whole, &line_of_less, &moved), "same");
    Some(answer)
}

/// Is a line that of the moved book, and what went before?
fn is_the_same(whole: &Set, less: &Set, moved: &Moved) -> bool {
    (0..whole.len()).all(|j| less[j].checked_add(moved.order.before(j)) == Some(whole[j]))
}
