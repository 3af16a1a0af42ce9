//! What is claimed of the pair that is shown for a set, and of the partner that is named for a checkpoint.

use crate::book::Book;
use crate::layout::{Counter, NOT_KNOWN};
use crate::line::at_fault;
use std::fmt;

/// The pairs at fault in a set, "the lowest j, and for it the lowest p" first.
pub fn faults(book: &Book, set: &[usize]) -> Vec<(u64, u64)> {
    let n = book.n();
    let pairs = (1..=n).flat_map(|j| (1..=n).map(move |p| (j, p)));
    let at_fault = pairs.filter(|&(j, p)| at_fault(book, set, j, p));
    at_fault.map(|(j, p)| (j as u64, p as u64)).collect()
}

/// The partners from which a checkpoint received more than is known to have been sent, rising.
pub fn offenders(book: &Book, process: usize, checkpoint: usize, known: &[Counter]) -> Vec<u64> {
    let partners = (1..=book.n()).filter(|&p| p != process);
    let offending = partners.filter(|&p| book.received_at(process, checkpoint, p) > u64::from(known[p - 1]));
    offending.map(|p| p as u64).collect()
}

/// Whether a checkpoint is permitted only because something is not known.
pub fn is_permitted_by_mark(book: &Book, process: usize, checkpoint: usize, known: &[Counter]) -> bool {
    let nothing_for_mark = |&entry: &Counter| if u64::from(entry) == NOT_KNOWN { 0 } else { entry };
    let unmarked: Vec<Counter> = known.iter().map(nothing_for_mark).collect();
    let offend = |known: &[Counter]| !offenders(book, process, checkpoint, known).is_empty();
    !offend(known) && offend(&unmarked)
}

/// What is shown is one of those at fault, and none of them stands before it; nothing is shown exactly if there is none.
pub fn is_first<T: PartialOrd + Default>(shown: T, at_fault: &[T]) -> bool {
    if shown == T::default() {
        return at_fault.is_empty();
    }
    at_fault.contains(&shown) && !at_fault.iter().any(|other| *other < shown)
}

/// How many sets or checkpoints had nothing at fault, one pair or partner, and several.
#[derive(Clone, Default)]
struct Faults {
    none: u64,
    one: u64,
    several: u64,
}

impl Faults {
    fn add(&mut self, faults: usize) {
        *match faults {
            0 => &mut self.none,
            1 => &mut self.one,
            _ => &mut self.several,
        } += 1;
    }

    fn merge(&mut self, other: &Faults) {
        self.none += other.none;
        self.one += other.one;
        self.several += other.several;
    }
}

/// What the accepted tests of a run had.
#[derive(Clone, Default)]
pub struct Met {
    sets: Faults,
    checkpoints: Faults,
    /// Checkpoints that only what is not known permits.
    by_mark: u64,
    /// Checkpoints tested against what their set had sent, the pair's own j among them.
    of_sets: u64,
    of_pairs: u64,
}

impl Met {
    pub fn add_set(&mut self, faults: usize) {
        self.sets.add(faults);
    }

    pub fn add_checkpoint(&mut self, offending: usize, by_mark: bool) {
        self.checkpoints.add(offending);
        self.by_mark += u64::from(by_mark);
    }

    pub fn add_of_set(&mut self, is_of_pair: bool) {
        self.of_sets += 1;
        self.of_pairs += u64::from(is_of_pair);
    }

    pub fn merge(&mut self, other: &Met) {
        self.sets.merge(&other.sets);
        self.checkpoints.merge(&other.checkpoints);
        self.by_mark += other.by_mark;
        self.of_sets += other.of_sets;
        self.of_pairs += other.of_pairs;
    }

    /// What no accepted test had.
    pub fn missing(&self) -> Vec<String> {
        let counts = [
            (self.sets.none, "a consistent set"),
            (self.sets.one, "a set with one pair at fault"),
            (self.sets.several, "a set with several pairs at fault"),
            (self.checkpoints.none, "a checkpoint without an offending partner"),
            (self.checkpoints.one, "a checkpoint with one offending partner"),
            (self.checkpoints.several, "a checkpoint with several offending partners"),
            (self.by_mark, "a checkpoint that only the mark permits"),
            (self.of_pairs, "a pair's checkpoint against what its set had sent"),
        ];
        let never = counts.iter().filter(|(count, _)| *count == 0);
        never.map(|(_, what)| what.to_string()).collect()
    }
}

impl fmt::Display for Met {
    fn fmt(&self, f: &mut fmt::Formatter<'_>) -> fmt::Result {
        let (sets, columns) = (&self.sets, &self.checkpoints);
        write!(
            f,
            "{} consistent sets, {} with one pair at fault, {} with several; {} checkpoints without an offending partner \
             ({} by the mark alone), {} with one, {} with several; {} of them against their set, {} of a pair shown",
            sets.none,
            sets.one,
            sets.several,
            columns.none,
            self.by_mark,
            columns.one,
            columns.several,
            self.of_sets,
            self.of_pairs
        )
    }
}
