//! Reads lines of books (the book, then what a read of it must answer), and prints for each what a read does answer:
//! the question that refuses, or 0, n and the counts, and then the line that is found and T. Only the book is taken
//! from a line.

use std::io;
use vectors::{books, text};

fn main() -> io::Result<()> {
    text::answer_lines(|line| Some(books::try_field(text::first(line).0)))
}
