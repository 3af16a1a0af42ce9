//! The text of test vectors, and of the answers to them.

use std::fmt::Display;
use std::io::{self, Write};

/// The longest bytes that a field may spell: far more than the longest book or journal that is accepted.
const MOST_BYTES: usize = 1 << 24;

/// Prints the answer to each line of standard input but the comments; a line may have none.
pub fn answer_lines(mut answer: impl FnMut(&str) -> Option<Answer>) -> io::Result<()> {
    let text = io::read_to_string(io::stdin())?;
    let mut out = io::stdout().lock();
    for line in text.split_terminator('\n').filter(|line| !line.starts_with('#')) {
        if let Some(answer) = answer(line) {
            writeln!(out, "{}", answer.0)?;
        }
    }
    Ok(())
}

/// The first field, and the fields behind it.
pub fn first(fields: &str) -> (&str, &str) {
    fields.split_once(' ').unwrap_or((fields, ""))
}

/// The edits in front of a call, and the call: it begins with the first field that `begins` names.
pub fn edits_and_call(line: &str, begins: impl Fn(&str) -> bool) -> (&str, &str) {
    let mut at = 0;
    for field in line.split(' ') {
        if begins(field) {
            return (line[..at].strip_suffix(' ').unwrap_or(""), &line[at..]);
        }
        at += field.len() + 1;
    }
    (line, "")
}

/// Is a field no edit? Each edit has an equals sign.
pub fn is_no_edit(field: &str) -> bool {
    !field.contains('=')
}

/// The number that a field says in decimal digits alone.
pub fn decimal(field: &str) -> Option<u64> {
    if field.bytes().all(|b| b.is_ascii_digit()) {
        field.parse().ok()
    } else {
        None
    }
}

/// The process that a text names; nobody, 0, where it says no number.
pub fn process(text: &str) -> u64 {
    decimal(text).unwrap_or(0)
}

fn digit(b: u8) -> Option<u8> {
    match b {
        b'0'..=b'9' => Some(b - b'0'),
        b'a'..=b'f' => Some(b - b'a' + 10),
        _ => None,
    }
}

/// The bytes that a field spells: `-` for none, or two digits a byte, or such digits, `*` and the length in bytes up to
/// which zeros follow.
pub fn bytes(field: &str) -> Option<Vec<u8>> {
    if field == "-" {
        return Some(Vec::new());
    }
    let (digits, length) = match field.split_once('*') {
        Some((digits, length)) => (digits, usize::try_from(decimal(length)?).ok()?),
        None => (field, field.len() / 2),
    };
    let spelled = digits.len() / 2;
    if digits.is_empty() || digits.len() % 2 != 0 || length < spelled || MOST_BYTES < length {
        return None;
    }
    let pairs = digits.as_bytes().chunks_exact(2);
    let mut bytes = pairs
        .map(|pair| Some(digit(pair[0])? * 16 + digit(pair[1])?))
        .collect::<Option<Vec<u8>>>()?;
    bytes.resize(length, 0);
    Some(bytes)
}

/// The bytes that parts joined by `+` spell one after another: each is as a field of [`bytes`], or such digits, `x` and how
/// many times over.
pub fn joined_bytes(field: &str) -> Option<Vec<u8>> {
    let mut joined = Vec::new();
    for part in field.split('+') {
        let (spelled, times) = match part.split_once('x') {
            Some((digits, times)) => (bytes(digits)?, usize::try_from(decimal(times)?).ok()?),
            None => (bytes(part)?, 1),
        };
        let length = spelled.len().checked_mul(times)?.checked_add(joined.len())?;
        if MOST_BYTES < length {
            return None;
        }
        joined.extend(spelled.repeat(times));
    }
    Some(joined)
}

/// What is printed for a line.
#[derive(Default)]
pub struct Answer(String);

impl Answer {
    /// Of a line that cannot be read.
    pub fn unreadable(text: &str) -> Answer {
        Answer(text.to_owned())
    }

    pub fn put(&mut self, what: impl Display) {
        self.0 += &what.to_string();
    }

    /// A number, with a space in front.
    pub fn put_number(&mut self, number: u64) {
        self.put(format_args!(" {number}"));
    }

    pub fn put_bytes(&mut self, bytes: &[u8]) {
        for b in bytes {
            self.put(format_args!("{b:02x}"));
        }
    }

    /// ` P:HEX`
    pub fn put_message(&mut self, p: usize, message: &[u8]) {
        self.put(format_args!(" {p}:"));
        self.put_bytes(message);
    }

    /// Nothing where it holds, so that what does not shows as a difference.
    pub fn expect(&mut self, holds: bool, word: &str) {
        if !holds {
            self.put(format_args!(" !{word}"));
        }
    }
}
