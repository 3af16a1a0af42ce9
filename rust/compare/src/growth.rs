//! How times grow with the size of what is measured.

use crate::benches::{Bench, Operation};
use crate::layout::JOURNAL_BYTES;
use crate::line;
use crate::measured_books::{dense, ring_with, typical};
use crate::measured_journals::in_turn;
use crate::timing::medians;

/// Prints how times grow, of each side in all and per unit.
pub fn print_growth() {
    println!();
    println!("Reading: nanoseconds per byte of the book.");
    print_heads(&["n", "checkpoints", "bytes"], "per byte");
    let sixteen = [16, 32, 64, 128, 256].map(|checkpoints| dense(16, checkpoints, false));
    let fewer = [8, 4, 2].map(|n| dense(n, 256, false));
    for book in sixteen.iter().chain(&[dense(16, 256, true)]).chain(&fewer) {
        let bytes = book.bytes().len();
        let found = medians(&mut Bench::new(Operation::Read, book, 0));
        print_sizes(&[book.n(), book.checkpoints(), bytes]);
        print_per(found.ours, bytes);
        print_per(found.theirs, bytes);
        println!();
    }
    print_growth_of_journals();
    print_growth_of_finder();
    print_growth_of_sessions();
    print_growth_of_lists();
}

fn print_growth_of_journals() {
    println!();
    println!("Journals, each message received right after it was sent: nanoseconds per byte.");
    print_heads(&["n", "bytes"], "per byte");
    let of_sixteen = [16_384, 32_768, JOURNAL_BYTES].map(|bytes| (16, bytes));
    for (n, bytes) in of_sixteen.into_iter().chain([2, 8].map(|n| (n, JOURNAL_BYTES))) {
        let found = medians(&mut Bench::of_journal(&in_turn(n, bytes)));
        print_sizes(&[n, bytes]);
        print_per(found.ours, bytes);
        print_per(found.theirs, bytes);
        println!();
    }
}

/// The head of a table: sizes, then nanoseconds in all and per unit for each side.
fn print_heads(sizes: &[&str], unit: &str) {
    sizes.iter().for_each(|size| print!("{size:>12}"));
    println!("{:>12}{unit:>10}{:>12}{unit:>10}", "ours", "reference");
}

fn print_sizes(sizes: &[usize]) {
    sizes.iter().for_each(|size| print!("{size:>12}"));
}

fn print_per(nanoseconds: f64, units: usize) {
    print!("{nanoseconds:>12.0}{:>10.1}", nanoseconds / units as f64);
}

fn print_growth_of_finder() {
    println!();
    println!("Finding the line, less the check of the same tables: nanoseconds per row of T + n.");
    print_heads(&["n", "checkpoints", "T"], "per row");
    let of_two = [16, 64, 128, 254].map(|passed| (2, passed));
    let of_sixteen = [16, 64, 128, 240].map(|passed| (16, passed));
    for (n, passed) in of_two.into_iter().chain([(4, 252), (8, 248)]).chain(of_sixteen) {
        let book = ring_with(n, passed);
        let find = medians(&mut Bench::new(Operation::Find, &book, 0));
        let check = medians(&mut Bench::new(Operation::Check, &book, 0));
        let passed = line::passed(&book, &line::line(&book));
        print_sizes(&[n, book.checkpoints(), passed]);
        print_per(find.ours - check.ours, passed + n);
        print_per(find.theirs - check.theirs, passed + n);
        println!();
    }
}

fn print_growth_of_sessions() {
    println!();
    println!("Whole sessions, in rings and then in runs where everybody talks to everybody: nanoseconds per turn.");
    print_heads(&["n", "checkpoints", "T", "turns"], "per turn");
    let rings = [
        (2, 2),
        (2, 254),
        (4, 28),
        (4, 252),
        (8, 56),
        (8, 248),
        (16, 48),
        (16, 240),
    ];
    let rings = rings.map(|(n, passed)| ring_with(n, passed));
    let runs = [(2, 128), (4, 64), (8, 32), (16, 4), (16, 16)].map(|(n, each)| typical(n, each));
    for book in rings.iter().chain(&runs) {
        let mut bench = Bench::new(Operation::Session, book, 0);
        let found = medians(&mut bench);
        let passed = line::passed(book, &line::line(book));
        let turns = bench.delivered() as usize;
        print_sizes(&[book.n(), book.checkpoints(), passed, turns]);
        print_per(found.ours, turns);
        print_per(found.theirs, turns);
        println!();
    }
}

fn print_growth_of_lists() {
    println!();
    println!("Lists of what to send again, less the order, and then read: nanoseconds per entry.");
    print_heads(&["n", "checkpoints", "entries"], "per entry");
    let books = [(2, 256), (4, 256), (8, 256), (16, 32), (16, 256)].map(|(n, all)| dense(n, all, false));
    for book in &books {
        let entries = book.n() * (book.n() - 1);
        let order = medians(&mut Bench::new(Operation::RestartOrder, book, 0));
        let write = medians(&mut Bench::new(Operation::WriteResend, book, 0));
        print_sizes(&[book.n(), book.checkpoints(), entries]);
        print_per(write.ours - order.ours, entries);
        print_per(write.theirs - order.theirs, entries);
        println!();
        let read = medians(&mut Bench::of_list(book));
        print_sizes(&[book.n(), book.checkpoints(), entries]);
        print_per(read.ours, entries);
        print_per(read.theirs, entries);
        println!();
    }
}
