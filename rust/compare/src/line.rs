//! The line of a book, found in the plainest way: by sweeps over all pairs, and for small books by trying every set.

use crate::book::Book;

/// Whether (j, p) is at fault in a set: what j's checkpoint received from p is more than what p's sent to j.
pub fn at_fault(book: &Book, set: &[usize], j: usize, p: usize) -> bool {
    j != p && book.received_at(j, set[j - 1], p) > book.sent_at(p, set[p - 1], j)
}

/// Whether a set of one checkpoint per process is consistent.
pub fn is_consistent(book: &Book, set: &[usize]) -> bool {
    let n = book.n();
    (1..=n).all(|j| (1..=n).all(|p| !at_fault(book, set, j, p)))
}

/// The line: whoever is at fault steps back by one, until nobody is.
pub fn line(book: &Book) -> Vec<usize> {
    let n = book.n();
    let mut set = book.newest();
    loop {
        let mut fell = false;
        for j in 1..=n {
            while (1..=n).any(|p| at_fault(book, &set, j, p)) {
                set[j - 1] -= 1;
                fell = true;
            }
        }
        if !fell {
            return set;
        }
    }
}

/// How many checkpoints are newer than those of a set.
pub fn passed(book: &Book, set: &[usize]) -> usize {
    book.newest().iter().zip(set).map(|(newest, at)| newest - at).sum()
}

/// How many sets a book has; `None` if there are more than `most`.
pub fn sets(book: &Book, most: usize) -> Option<usize> {
    (1..=book.n()).try_fold(1usize, |product, j| {
        let product = product * book.count(j);
        (product <= most).then_some(product)
    })
}

/// Whether a set is the line, by trying every set: it is consistent, and no consistent set is newer anywhere.
pub fn is_line_of_all_sets(book: &Book, line: &[usize]) -> bool {
    let n = book.n();
    let mut set = vec![1; n];
    loop {
        if is_consistent(book, &set) && set.iter().zip(line).any(|(other, at)| other > at) {
            return false;
        }
        match (0..n).find(|&place| set[place] < book.count(place + 1)) {
            Some(place) => {
                set[place] += 1;
                set[..place].fill(1);
            }
            None => return is_consistent(book, line),
        }
    }
}
