//! What there is for each process.

use crate::names::Process;
use crate::sys::RECOVERY_LINE_PROCESSES;
use std::array;
use std::iter::{Flatten, FusedIterator};

/// What at most sixteen processes have, in rising order: messages, a set and a restart order are iterated by it.
#[derive(Clone, Debug)]
#[must_use = "iterators do nothing unless they are consumed"]
pub struct ByProcess<T> {
    items: Flatten<array::IntoIter<Option<T>, RECOVERY_LINE_PROCESSES>>,
    left: usize,
}

impl<T> ByProcess<T> {
    /// What `item` gives, which is asked of each of sixteen processes in turn.
    pub(crate) fn of(mut item: impl FnMut(Process) -> Option<T>) -> ByProcess<T> {
        let items: [Option<T>; RECOVERY_LINE_PROCESSES] = array::from_fn(|place| item(Process::at(place)));
        ByProcess {
            left: items.iter().flatten().count(),
            items: items.into_iter().flatten(),
        }
    }
}

impl<T> Iterator for ByProcess<T> {
    type Item = T;

    fn next(&mut self) -> Option<T> {
        let item = self.items.next()?;
        self.left -= 1;
        Some(item)
    }

    fn size_hint(&self) -> (usize, Option<usize>) {
        (self.left, Some(self.left))
    }
}

impl<T> DoubleEndedIterator for ByProcess<T> {
    fn next_back(&mut self) -> Option<T> {
        let item = self.items.next_back()?;
        self.left -= 1;
        Some(item)
    }
}

impl<T> ExactSizeIterator for ByProcess<T> {}

impl<T> FusedIterator for ByProcess<T> {}
