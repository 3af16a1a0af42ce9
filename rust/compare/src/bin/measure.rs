//! Measures the library, through its C interface, against the independent implementation, used through its Rust
//! structs, in one process on the same inputs.
//!
//!     measure                               ratios, then how times grow
//!     measure --list                        the operations' names
//!     measure --callgrind NAME SIDE TIMES   runs an operation; SIDE is ours, reference or neither
//!     measure --size NAME                   what an operation of some size is measured by
//!
//! NAME is one of the list, or has a size: read:N:CHECKPOINTS and journal:N:BYTES (measured by bytes), set:N:T (by pairs),
//! checkpoint:N:T (by partners), check:N:T and find:N:T (by T + n), session:N:T (by turns), order:N:CHECKPOINTS,
//! write-list:N:CHECKPOINTS and read-list:N:CHECKPOINTS (by entries).

use compare::benches::{Bench, Operation};
use compare::book::Book;
use compare::growth::print_growth;
use compare::layout::JOURNAL_BYTES;
use compare::line;
use compare::measured_books::{dense, in_flight, last_pair_at_fault, ring_with, typical};
use compare::measured_journals::{in_any_order, in_turn};
use compare::timing::medians;
use std::process::ExitCode;

/// What an operation is measured on.
enum Input {
    Book(fn() -> Book),
    /// A turn after so many others, or its message alone.
    Turn(usize),
    Journal(fn() -> Vec<u8>),
    /// The list of a book's order.
    List(fn() -> Book),
}

/// An operation under the name of its row.
struct Row {
    name: &'static str,
    what: &'static str,
    operation: Operation,
    input: Input,
}

const fn row(name: &'static str, what: &'static str, operation: Operation, book: fn() -> Book) -> Row {
    Row {
        name,
        what,
        operation,
        input: Input::Book(book),
    }
}

const fn turn(name: &'static str, what: &'static str, operation: Operation, turns_before: usize) -> Row {
    Row {
        name,
        what,
        operation,
        input: Input::Turn(turns_before),
    }
}

const JOURNAL: Row = Row {
    name: "journal",
    what: "the largest journal",
    operation: Operation::Journal,
    input: Input::Journal(largest_journal),
};

const READ_LIST: Row = Row {
    name: "read-list",
    what: "the same list",
    operation: Operation::ReadResend,
    input: Input::List(largest),
};

fn largest_journal() -> Vec<u8> {
    in_any_order(16, JOURNAL_BYTES)
}

fn largest() -> Book {
    dense(16, 256, false)
}

fn largest_at_fault() -> Book {
    last_pair_at_fault(16, 256)
}

fn two_falling() -> Book {
    ring_with(2, 254)
}

fn sixteen_falling() -> Book {
    ring_with(16, 240)
}

fn sixteen_typical() -> Book {
    typical(16, 16)
}

fn sixteen_in_flight() -> Book {
    in_flight(16, 16)
}

/// All of 16 processes and 256 checkpoints, but for find-254: 2 processes and 256.
const ROWS: [Row; 24] = [
    row("read", "the largest book", Operation::Read, largest),
    row("check", "its tables", Operation::Check, largest),
    row(
        "check-sent",
        "the oldest have sent",
        Operation::Check,
        sixteen_in_flight,
    ),
    row("write", "the largest book", Operation::Write, largest),
    JOURNAL,
    row("test_set", "a consistent set", Operation::TestSet, largest),
    row(
        "test_set-no",
        "its last pair at fault",
        Operation::TestNewest,
        largest_at_fault,
    ),
    row(
        "checkpoint",
        "permitted by a column",
        Operation::TestCheckpoint,
        largest,
    ),
    row("find-254", "2 processes, T = 254", Operation::Find, two_falling),
    row("find-240", "16 processes, T = 240", Operation::Find, sixteen_falling),
    turn("turn-down", "a poll to a participant", Operation::Turn, 36),
    turn("turn-up", "a report to the initiator", Operation::Turn, 37),
    turn("turn-send", "the last report of a wait", Operation::Turn, 29),
    turn("poll", "received by a participant", Operation::ParticipantReceive, 36),
    turn("report", "received by the initiator", Operation::InitiatorReceive, 37),
    turn(
        "report-last",
        "received by the initiator",
        Operation::InitiatorReceive,
        29,
    ),
    row(
        "session",
        "start and turns, T = 48",
        Operation::Session,
        sixteen_typical,
    ),
    row(
        "session-240",
        "start and turns, T = 240",
        Operation::Session,
        sixteen_falling,
    ),
    row("search", "the same search, T = 48", Operation::Search, sixteen_typical),
    row(
        "search-240",
        "the same search, T = 240",
        Operation::Search,
        sixteen_falling,
    ),
    row("move", "purpose 3, T = 48", Operation::Move, sixteen_typical),
    row(
        "move-1",
        "purpose 1, much on its way",
        Operation::Advance,
        sixteen_in_flight,
    ),
    row("write-list", "240 to send again", Operation::WriteResend, largest),
    READ_LIST,
];

fn main() -> ExitCode {
    let arguments: Vec<String> = std::env::args().skip(1).collect();
    let arguments: Vec<&str> = arguments.iter().map(String::as_str).collect();
    let done = match arguments[..] {
        [] => {
            print_ratios();
            print_growth();
            true
        }
        ["--list"] => {
            ROWS.iter().for_each(|row| println!("{}", row.name));
            true
        }
        ["--callgrind", name, side, times] => run_times(name, side, times),
        ["--size", name] => print_size(name),
        _ => false,
    };
    if !done {
        eprintln!("measure: see the head of bin/measure.rs");
    }
    ExitCode::from(u8::from(!done) * 2)
}

fn print_ratios() {
    println!("Medians of interleaved runs, in nanoseconds of the thread's own time.");
    println!("Buffers are kept from call to call and not cleared.");
    println!(
        "{:<12} {:<26} {:>12} {:>12} {:>7}",
        "operation", "on", "ours", "reference", "ratio"
    );
    for row in &ROWS {
        let found = medians(&mut bench_of(row));
        let (ours, theirs, ratio) = (found.ours, found.theirs, found.ratio());
        println!(
            "{:<12} {:<26} {ours:>12.0} {theirs:>12.0} {ratio:>7.2}",
            row.name, row.what
        );
    }
}

fn bench_of(row: &Row) -> Bench {
    match row.input {
        Input::Book(book) => Bench::new(row.operation, &book(), 0),
        Input::Turn(turns_before) => Bench::new(row.operation, &sixteen_typical(), turns_before),
        Input::Journal(journal) => Bench::of_journal(&journal()),
        Input::List(book) => Bench::of_list(&book()),
    }
}

/// Runs an operation a fixed number of times on one side, or only what goes before each run.
fn run_times(name: &str, side: &str, times: &str) -> bool {
    let listed = ROWS.iter().find(|row| row.name == name).map(bench_of);
    let on_book = || of_size(name).map(|(operation, book)| on_size(operation, &book));
    let on_journal = || journal_of_size(name).map(|journal| Bench::of_journal(&journal));
    let named = listed.or_else(on_journal).or_else(on_book);
    let (Some(mut bench), Ok(times)) = (named, times.parse::<u32>()) else {
        return false;
    };
    for _ in 0..times {
        bench.restore();
        match side {
            "ours" => bench.run_ours(),
            "reference" => bench.run_theirs(),
            "neither" => {}
            _ => return false,
        }
    }
    true
}

/// What is measured of a name with a size.
fn on_size(operation: Operation, book: &Book) -> Bench {
    match operation {
        Operation::ReadResend => Bench::of_list(book),
        _ => Bench::new(operation, book, 0),
    }
}

/// The parts of a name with a size.
fn parts(name: &str) -> Option<(&str, usize, usize)> {
    let mut parts = name.split(':');
    Some((parts.next()?, parts.next()?.parse().ok()?, parts.next()?.parse().ok()?))
}

/// The journal of a name with a size.
fn journal_of_size(name: &str) -> Option<Vec<u8>> {
    let (operation, n, bytes) = parts(name)?;
    (operation == "journal").then(|| in_turn(n, bytes))
}

/// The operation and the book of a name with a size.
fn of_size(name: &str) -> Option<(Operation, Book)> {
    let (operation, n, size) = parts(name)?;
    match operation {
        "read" => Some((Operation::Read, dense(n, size, false))),
        "check" => Some((Operation::Check, ring_with(n, size))),
        "set" => Some((Operation::TestSet, ring_with(n, size))),
        "checkpoint" => Some((Operation::TestCheckpoint, ring_with(n, size))),
        "find" => Some((Operation::Find, ring_with(n, size))),
        "session" => Some((Operation::Session, ring_with(n, size))),
        "order" => Some((Operation::RestartOrder, dense(n, size, false))),
        "write-list" => Some((Operation::WriteResend, dense(n, size, false))),
        "read-list" => Some((Operation::ReadResend, dense(n, size, false))),
        _ => None,
    }
}

fn print_size(name: &str) -> bool {
    if let Some(journal) = journal_of_size(name) {
        println!("{}", journal.len());
        return true;
    }
    let Some((operation, book)) = of_size(name) else {
        return false;
    };
    let size = match operation {
        Operation::Read => book.bytes().len(),
        Operation::TestSet | Operation::RestartOrder | Operation::WriteResend | Operation::ReadResend => {
            book.n() * (book.n() - 1)
        }
        Operation::TestCheckpoint => book.n() - 1,
        Operation::Session => {
            let mut bench = Bench::new(operation, &book, 0);
            bench.run_ours();
            bench.delivered() as usize
        }
        _ => line::passed(&book, &line::line(&book)) + book.n(),
    };
    println!("{size}");
    true
}
