//! Families of small books for the exploration of all orders.

use crate::book::Book;
use crate::books::ring;
use crate::explore::{explore_book, Explored};
use crate::layout::{participants, Counter};
use crate::random::Random;

/// All books of n processes with at most so many checkpoints each and counters up to a largest; those that the oldest have sent
/// up to another.
struct Family {
    n: usize,
    checkpoints: usize,
    largest: Counter,
    in_flight: Counter,
}

/// A checkpoint's counters: those sent to every partner, then those received from every partner.
type Row = Vec<Counter>;
/// The rows of one process, oldest first.
type History = Vec<Row>;

impl Family {
    /// Every history of one process.
    fn histories(&self) -> Vec<History> {
        let partners = self.n - 1;
        let sent = rows_between(&vec![0; partners], &vec![self.in_flight; partners]);
        let oldest = sent.into_iter().map(|sent| [sent, vec![0; partners]].concat());
        let mut all: Vec<History> = oldest.map(|row| vec![row]).collect();
        let mut longest = all.clone();
        for _ in 1..self.checkpoints {
            longest = longest.iter().flat_map(|history| self.longer(history)).collect();
            all.extend(longest.iter().cloned());
        }
        all
    }

    /// Every history with one checkpoint more.
    fn longer(&self, history: &History) -> Vec<History> {
        let last = history.last().expect("a history has an oldest checkpoint");
        let rows = rows_between(last, &vec![self.largest; last.len()]);
        rows.into_iter().map(|row| [&history[..], &[row]].concat()).collect()
    }

    /// How many books there are.
    fn size(&self, histories: usize) -> u64 {
        (histories as u64).pow(self.n as u32)
    }

    /// The book of a number, which says the history of each process.
    fn book(&self, histories: &[History], number: u64) -> Book {
        let mut rest = number;
        let chosen: Vec<&History> = (0..self.n)
            .map(|_| {
                let history = &histories[(rest % histories.len() as u64) as usize];
                rest /= histories.len() as u64;
                history
            })
            .collect();
        let counts: Vec<usize> = chosen.iter().map(|history| history.len()).collect();
        let mut book = Book::of_zeros(&counts);
        for (place, history) in chosen.iter().enumerate() {
            fill(&mut book, place + 1, history);
        }
        book
    }
}

/// Every row whose counters are at least those of one row and at most those of another.
fn rows_between(least: &[Counter], most: &[Counter]) -> Vec<Row> {
    let mut rows: Vec<Row> = vec![Vec::new()];
    for (&low, &high) in least.iter().zip(most) {
        let grown = rows
            .iter()
            .flat_map(|row| (low..=high).map(move |next| with(row, next)));
        rows = grown.collect();
    }
    rows
}

fn with(row: &Row, counter: Counter) -> Row {
    let mut longer = row.clone();
    longer.push(counter);
    longer
}

/// Writes the rows of process j.
fn fill(book: &mut Book, j: usize, history: &History) {
    let n = book.n();
    for (r, row) in history.iter().enumerate() {
        for (column, p) in participants(n, j).enumerate() {
            let place = book.place(j, r + 1, p);
            book.sent[place] = row[column];
            book.received[place] = row[n - 1 + column];
        }
    }
}

/// Explores a family, whole or `most` books of it drawn at random, and prints what was met.
fn explore_family(family: &Family, most: u64, seed: u64) -> Result<Explored, String> {
    let histories = family.histories();
    let size = family.size(histories.len());
    let mut explored = Explored::default();
    let mut random = Random::of_part(seed, size);
    let drawn = size > most;
    for number in 0..size.min(most) {
        let number = if drawn { random.number() % size } else { number };
        explore_book(&family.book(&histories, number), &mut explored)?;
    }
    let Family {
        n,
        checkpoints,
        largest,
        in_flight,
    } = family;
    let of = if drawn {
        format!("drawn from {size}")
    } else {
        "all".to_string()
    };
    println!(
        "n {n}, up to {checkpoints} checkpoints each, counters to {largest}, the oldest sent to {in_flight}, {of}: {explored}"
    );
    Ok(explored)
}

/// Explores rings, in which each fall makes the next process fall: the longest searches of their size.
fn explore_rings(large: bool) -> Result<Explored, String> {
    let mut explored = Explored::default();
    let sizes = [(2, 12), (3, if large { 8 } else { 5 }), (4, if large { 5 } else { 3 })];
    for (n, most) in sizes {
        for each in 2..=most {
            explore_book(&ring(n, each, 1), &mut explored)?;
        }
    }
    println!("rings of n 2 to 4: {explored}");
    Ok(explored)
}

/// Explores the families of the gate, or with `large` many more books.
pub fn explore_all(large: bool, seed: u64) -> Result<(), String> {
    let times = if large { 40 } else { 1 };
    let family = |n, checkpoints, largest, in_flight| Family {
        n,
        checkpoints,
        largest,
        in_flight,
    };
    let plan = [
        (family(2, 3, 2, 0), u64::MAX),
        (family(2, 3, 1, 1), u64::MAX),
        (family(2, 4, 3, 0), 1000 * times),
        (family(2, 4, 3, 3), 1000 * times),
        (family(3, 2, 1, 0), u64::MAX),
        (family(3, 3, 1, 0), 400 * times),
        (family(3, 3, 1, 1), 400 * times),
        (family(3, 3, 2, 0), 400 * times),
        (family(3, 3, 2, 2), 400 * times),
        (family(4, 2, 1, 0), 60 * times),
        (family(4, 2, 1, 1), 60 * times),
        (family(4, 2, 2, 0), 20 * times),
        (family(4, 2, 2, 2), 20 * times),
    ];
    let mut total = Explored::default();
    let families = plan.iter().map(|(family, most)| explore_family(family, *most, seed));
    for explored in families.chain(std::iter::once_with(|| explore_rings(large))) {
        let explored = explored?;
        total.add(&explored);
    }
    println!("all: {total}; demand 3 holds in every state");
    Ok(())
}
