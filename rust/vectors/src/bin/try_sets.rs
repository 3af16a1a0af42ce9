//! Reads lines of sets (a book, sixteen checkpoint numbers, then what a test of that set must answer), and prints for
//! each what a test does answer: `yes`, `no` and the pair that is shown, or the question that refuses. Only the book and
//! the set are taken from a line.

use std::io;
use vectors::sets::{sixteen, try_set};
use vectors::tables::{Set, Tables};
use vectors::text::{self, Answer};

fn main() -> io::Result<()> {
    text::answer_lines(|line| Some(try_line(line)))
}

fn try_line(line: &str) -> Answer {
    match line_in(line) {
        Some((tables, set)) => try_set(tables.lent(), &set),
        None => Answer::unreadable("? "),
    }
}

fn line_in(line: &str) -> Option<(Tables, Set)> {
    let (book, rest) = text::first(line);
    Some((Tables::of_field(book)?, sixteen(rest)?))
}
