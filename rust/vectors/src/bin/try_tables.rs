//! Reads lines of tables (a book, edits of its tables, then the question that must refuse them), and prints for each
//! the question by which a check of the edited tables refuses, 0 for none. Only the book and the edits are taken from a
//! line.

use std::io;
use vectors::{edited_tables, text};

fn main() -> io::Result<()> {
    text::answer_lines(|line| Some(edited_tables::try_line(line)))
}
