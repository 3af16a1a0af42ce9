//! Random valid books.

use crate::book::{Book, Table};
use crate::layout::{Counter, CHECKPOINTS, LARGEST, PROCESSES};
use crate::random::Random;

/// Counters around which books are made: the borders between lengths of numbers, and the largest.
const BORDERS: [u64; 7] = [1, 127, 16_383, 2_097_151, 268_435_455, 2_147_483_647, LARGEST];

/// A random valid book of some kind.
pub fn any_book(random: &mut Random) -> Book {
    let book = match random.below(12) {
        0..=3 => tiny(random),
        4..=6 => simulated(random),
        7..=8 => arbitrary(random),
        9 => falling_far(random),
        10 => small_counts(random),
        _ => one_process_or_oldest_only(random),
    };
    finished(random, book)
}

/// A book whose searches are short: few processes and checkpoints.
pub fn small_book(random: &mut Random) -> Book {
    let book = tiny(random);
    finished(random, book)
}

/// A book whose line is far from the newest checkpoints, with up to 256 checkpoints.
pub fn far_book(random: &mut Random) -> Book {
    let book = falling_far(random);
    finished(random, book)
}

/// What a book of every kind may get: messages on their way when the line was set, and counters of another range.
fn finished(random: &mut Random, book: Book) -> Book {
    let book = if random.once_in(2) {
        with_messages_in_flight(random, book)
    } else {
        book
    };
    with_counters_moved(random, book)
}

/// Random counts of checkpoints for n processes, `total` of them in all.
fn random_counts(random: &mut Random, n: usize, total: usize) -> Vec<usize> {
    let mut counts = vec![1; n];
    let favourite = random.below(n);
    let lopsided = random.once_in(4);
    for _ in n..total {
        let place = if lopsided && !random.once_in(4) {
            favourite
        } else {
            random.below(n)
        };
        counts[place] += 1;
    }
    counts
}

/// Up to four processes with up to four checkpoints and counters so small that ties are common.
fn tiny(random: &mut Random) -> Book {
    let n = random.one_of(&[1, 2, 2, 2, 3, 3, 3, 4]);
    let counts: Vec<usize> = (0..n).map(|_| random.between(1, 4)).collect();
    let steps = random.between(1, 2);
    rising(random, &counts, 2, steps)
}

/// Tables with any rising counters: each grows with chance one in `rare`, by up to `step`.
fn rising(random: &mut Random, counts: &[usize], rare: usize, step: usize) -> Book {
    let mut book = Book::of_zeros(counts);
    let n = counts.len();
    for j in 1..=n {
        for r in 2..=book.count(j) {
            for p in (1..=n).filter(|&p| p != j) {
                for table in [Table::Sent, Table::Received] {
                    let before = *book.entry_mut(table, j, r - 1, p);
                    let growth = if random.once_in(rare) {
                        random.between(1, step) as Counter
                    } else {
                        0
                    };
                    *book.entry_mut(table, j, r, p) = before + growth;
                }
            }
        }
    }
    book
}

/// Any rising tables of any size, received counters having nothing to do with sent ones.
fn arbitrary(random: &mut Random) -> Book {
    let n = random.between(2, PROCESSES);
    let most = random.one_of(&[n, n + 3, 2 * n, 60, CHECKPOINTS]).max(n);
    let total = random.between(n, most);
    let counts = random_counts(random, n, total);
    let rare = random.one_of(&[1, 2, 8, 40]);
    let step = random.one_of(&[1, 3, 200, 100_000]);
    let mut book = rising(random, &counts, rare, step);
    if random.once_in(2) {
        received_rarely(random, &mut book);
    }
    book
}

/// Makes most received counters zero, so that the line is not always the oldest set.
fn received_rarely(random: &mut Random, book: &mut Book) {
    let keep = random.between(2, 30);
    let n = book.n();
    for j in 1..=n {
        for p in (1..=n).filter(|&p| p != j) {
            if !random.once_in(keep) {
                for r in 1..=book.count(j) {
                    *book.entry_mut(Table::Received, j, r, p) = 0;
                }
            }
        }
    }
}

/// A run of workers that send, receive what was sent, and save a checkpoint when it suits them.
fn simulated(random: &mut Random) -> Book {
    let n = random.between(2, PROCESSES);
    let total = random.one_of(&[n + 2, 2 * n, 3 * n, 100, CHECKPOINTS]).max(n);
    let traffic = random.one_of(&[1, 2, 5, 20, 60]);
    let reach = random.between(1, n - 1);
    let lost = random.between(2, 12);
    let mut run = Run::new(n);
    while run.saved() < total {
        let j = random.below(n);
        if random.once_in(traffic + 1) {
            run.save(j);
        } else if random.once_in(2) {
            let p = (j + random.between(1, reach)) % n;
            run.send(j, p, random.between(1, 3) as Counter);
        } else {
            let p = (j + n - random.between(1, reach)) % n;
            run.receive(j, p, lost);
        }
    }
    run.book()
}

/// The workers of a simulated run: their counters now, and the rows that they saved.
struct Run {
    sent: Vec<Vec<Counter>>,
    received: Vec<Vec<Counter>>,
    saved: Vec<Vec<(Vec<Counter>, Vec<Counter>)>>,
}

impl Run {
    fn new(n: usize) -> Self {
        let zeros = vec![0; n];
        Run {
            sent: vec![zeros.clone(); n],
            received: vec![zeros.clone(); n],
            saved: vec![vec![(zeros.clone(), zeros)]; n],
        }
    }

    fn saved(&self) -> usize {
        self.saved.iter().map(Vec::len).sum()
    }

    fn save(&mut self, j: usize) {
        let row = (self.sent[j].clone(), self.received[j].clone());
        self.saved[j].push(row);
    }

    fn send(&mut self, j: usize, p: usize, messages: Counter) {
        self.sent[j][p] += messages;
    }

    /// Receives what p has sent, but for some that are still under way.
    fn receive(&mut self, j: usize, p: usize, under_way: usize) {
        let waiting = self.sent[p][j] - self.received[j][p];
        self.received[j][p] += waiting - waiting / under_way as Counter;
    }

    fn book(&self) -> Book {
        let counts: Vec<usize> = self.saved.iter().map(Vec::len).collect();
        let mut book = Book::of_zeros(&counts);
        for (j, rows) in self.saved.iter().enumerate() {
            for (r, (sent, received)) in rows.iter().enumerate() {
                let at = book.place(j + 1, r + 1, 1);
                book.sent[at..at + sent.len()].copy_from_slice(sent);
                book.received[at..at + received.len()].copy_from_slice(received);
            }
        }
        book
    }
}

/// A ring of some size, held at its oldest set or a newer one.
fn falling_far(random: &mut Random) -> Book {
    let n = random.one_of(&[2, 2, 2, 3, 3, 4, 8, 16]);
    let total = random
        .one_of(&[2 * n, 3 * n, 40, 100, CHECKPOINTS])
        .clamp(2 * n, CHECKPOINTS);
    let each = total / n;
    let held_at = if random.once_in(3) { random.between(1, each) } else { 1 };
    ring(n, each, held_at)
}

/// A ring of n processes with as many checkpoints each, in which each fall makes the next process fall by one; the
/// line is the checkpoint `held_at` everywhere.
pub fn ring(n: usize, each: usize, held_at: usize) -> Book {
    let mut book = Book::of_zeros(&vec![each; n]);
    for j in 1..=n {
        let from = j % n + 1;
        let to = (j + n - 2) % n + 1;
        for r in 2..=each {
            let behind = if j == 1 && r > held_at { 2 } else { 1 };
            *book.entry_mut(Table::Received, j, r, from) = (r - 1) as Counter;
            *book.entry_mut(Table::Sent, j, r, to) = (r - behind) as Counter;
        }
    }
    book
}

/// Many processes with one or two checkpoints each.
fn small_counts(random: &mut Random) -> Book {
    let n = random.between(5, PROCESSES);
    let counts: Vec<usize> = (0..n).map(|_| random.between(1, 2)).collect();
    let rare = random.one_of(&[1, 3, 10]);
    rising(random, &counts, rare, 2)
}

/// The smallest books: one process, or nothing but oldest checkpoints.
fn one_process_or_oldest_only(random: &mut Random) -> Book {
    if random.once_in(2) {
        return Book::of_zeros(&vec![1; random.between(1, PROCESSES)]);
    }
    Book::of_zeros(&[random.one_of(&[1, 2, 3, 128, CHECKPOINTS])])
}

/// Puts messages on some channels that the oldest checkpoints had sent and not received. Either all later ones have received
/// them, so that the line stays, or on each channel those from some checkpoint on, and perhaps not all.
fn with_messages_in_flight(random: &mut Random, mut book: Book) -> Book {
    let n = book.n();
    let rare = random.one_of(&[1, 2, 6]);
    let at_once = random.once_in(2);
    for j in 1..=n {
        for p in (1..=n).filter(|&p| p != j) {
            if !random.once_in(rare) {
                continue;
            }
            let messages = random.between(1, 4);
            let (first, received) = if at_once {
                (2, messages)
            } else {
                (random.between(2, book.count(p) + 1), random.between(0, messages))
            };
            for r in 1..=book.count(j) {
                *book.entry_mut(Table::Sent, j, r, p) += messages as Counter;
            }
            for r in first..=book.count(p) {
                *book.entry_mut(Table::Received, p, r, j) += received as Counter;
            }
        }
    }
    book
}

/// Moves the counters, in their order, to another range: near a border between lengths of numbers, or to the largest.
fn with_counters_moved(random: &mut Random, mut book: Book) -> Book {
    let largest = book
        .sent
        .iter()
        .chain(&book.received)
        .max()
        .copied()
        .map_or(0, u64::from);
    if largest == 0 || random.once_in(3) {
        return book;
    }
    let border = random.one_of(&BORDERS);
    let start = (border.saturating_sub(random.below(largest as usize + 1) as u64)).max(1);
    let start = start.min(LARGEST - largest + 1);
    let room = (LARGEST - start) / largest;
    let step = if random.once_in(2) {
        1
    } else {
        1 + random.number() % room.max(1)
    };
    let step = step.min(room.max(1));
    book.map_counters(|counter| (start + (u64::from(counter) - 1) * step) as Counter);
    book
}
