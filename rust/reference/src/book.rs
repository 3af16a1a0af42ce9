//! The book and its tables: questions 1 to 9, reading and writing.

use crate::varint;

/// "n 1 to 16".
pub const PROCESSES: usize = 16;
/// "256 checkpoints in all".
pub const CHECKPOINTS: usize = 256;
/// "65,536 bytes".
pub const BOOK_BYTES: usize = 65_536;
/// "Two lent tables [...] of 4,096 numbers".
pub const ENTRIES: usize = PROCESSES * CHECKPOINTS;
/// An entry of a table: "numbers of 32 bits each".
pub type Counter = u32;
/// "4,294,967,295 is the mark for 'not known' and never a counter in a book or message."
pub const MARK: Counter = 4_294_967_295;

/// One number for each process: a checkpoint's counters, or what is known of them.
pub(crate) type Row = [Counter; PROCESSES];

/// "In tables, n and sixteen counts go with the rows."
#[derive(Clone, PartialEq, Debug)]
pub struct Shape {
    pub n: u64,
    pub counts: [u64; PROCESSES],
}

/// Tables that have passed questions 2 and 4 to 9. Processes count from 0 here, checkpoints from 1.
pub(crate) struct Book<'a> {
    pub n: usize,
    pub counts: [usize; PROCESSES],
    first_rows: [usize; PROCESSES],
    sent: &'a [Row],
    received: &'a [Row],
}

/// All processes of `n` but `own`, rising.
pub(crate) fn others(n: usize, own: usize) -> impl Iterator<Item = usize> {
    (0..n).filter(move |&process| process != own)
}

/// The rows of a table.
fn rows(table: &[Counter]) -> &[Row] {
    table.as_chunks().0
}

/// Whether every entry is zero (without an early exit, which is quick over large tables).
pub(crate) fn all_zero(entries: &[Counter]) -> bool {
    entries.iter().fold(0, |bits, entry| bits | entry) == 0
}

/// Whether each entry of a row is at most the other row's.
pub(crate) fn at_most(row: &Row, other: &Row) -> bool {
    row.iter()
        .zip(other)
        .fold(true, |all, (entry, bound)| all & (entry <= bound))
}

/// Question 2.
pub(crate) fn table_lengths(sent: &[Counter], received: &[Counter]) -> Result<(), u32> {
    if sent.len() == ENTRIES && received.len() == ENTRIES {
        Ok(())
    } else {
        Err(2)
    }
}

/// Question 4.
pub(crate) fn process_count(n: u64) -> Result<usize, u32> {
    if (1..=PROCESSES as u64).contains(&n) {
        Ok(n as usize)
    } else {
        Err(4)
    }
}

/// Question 5, `before` being the sum of the counts before this one.
fn checkpoint_count(count: u64, before: usize) -> Result<usize, u32> {
    let room = (CHECKPOINTS - before) as u64;
    if (1..=room).contains(&count) {
        Ok(count as usize)
    } else {
        Err(5)
    }
}

/// What goes before an oldest checkpoint's sent counters: "question 7 applies to received counters
/// only" (E4), and 8 has nothing before them; none is lower than zero.
const ZEROS: Row = [0; PROCESSES];

/// Questions 6 to 8 of one counter; `before` is the same counter one checkpoint before, `None` if it
/// is received and of an oldest checkpoint.
fn counter_question(counter: Counter, before: Option<Counter>) -> Result<(), u32> {
    if counter == MARK {
        return Err(6);
    }
    match before {
        None if counter != 0 => Err(7),
        Some(earlier) if counter < earlier => Err(8),
        _ => Ok(()),
    }
}

impl<'a> Book<'a> {
    /// "Lent tables meet 2, 4, all of 5, then 6 to 8 in book order, then 9."
    pub fn accepted(shape: &Shape, sent: &'a [Counter], received: &'a [Counter]) -> Result<Self, u32> {
        table_lengths(sent, received)?;
        let n = process_count(shape.n)?;
        let mut counts = [0; PROCESSES];
        let mut first_rows = [0; PROCESSES];
        let mut sum = 0;
        for process in 0..n {
            first_rows[process] = sum;
            counts[process] = checkpoint_count(shape.counts[process], sum)?;
            sum += counts[process];
        }
        let book = Book {
            n,
            counts,
            first_rows,
            sent: rows(sent),
            received: rows(received),
        };
        let absent_counts_are_zero = shape.counts[n..].iter().all(|&count| count == 0);
        if absent_counts_are_zero && book.is_sound(sum) {
            return Ok(book);
        }
        // Which question fails is asked one by one; if none of 6 to 8 does, it is 9.
        book.counter_questions()?;
        Err(9)
    }

    /// Whether 6 to 8 pass and "unused rows and columns, and a process's own column are zero" (9),
    /// which a few sweeps over whole rows tell.
    fn is_sound(&self, used_rows: usize) -> bool {
        let received_nothing = (0..self.n).all(|own| all_zero(&self.received[self.first_rows[own]]));
        received_nothing
            && [self.sent, self.received].into_iter().all(|table| {
                let used = (0..self.n).all(|own| self.never_falls(own, &table[self.rows_of(own)]));
                used && all_zero(table[used_rows..].as_flattened())
            })
    }

    /// Whether no column falls along the rows of one process. The newest row then has the highest
    /// counters: no mark, and zeros where nothing is used.
    fn never_falls(&self, own: usize, rows: &[Row]) -> bool {
        let newest = &rows[rows.len() - 1];
        let (earlier, later) = (rows.as_flattened(), rows[1..].as_flattened());
        let falls = later
            .iter()
            .zip(earlier)
            .fold(false, |any, (next, last)| any | (next < last));
        let unused_is_zero = newest[own] == 0 && all_zero(&newest[self.n..]);
        !falls && unused_is_zero && !newest.contains(&MARK)
    }

    /// Questions 6 to 8 "in book order": process by process, oldest checkpoint first, the sent
    /// counters before the received ones.
    fn counter_questions(&self) -> Result<(), u32> {
        for own in 0..self.n {
            for index in self.rows_of(own) {
                let oldest = index == self.first_rows[own];
                for (table, before_oldest) in [(self.sent, Some(&ZEROS)), (self.received, None)] {
                    let before = if oldest { before_oldest } else { Some(&table[index - 1]) };
                    for partner in others(self.n, own) {
                        counter_question(table[index][partner], before.map(|row| row[partner]))?;
                    }
                }
            }
        }
        Ok(())
    }

    /// The rows of one process's checkpoints, oldest first.
    fn rows_of(&self, process: usize) -> std::ops::Range<usize> {
        let first = self.first_rows[process];
        first..first + self.counts[process]
    }

    /// What `process` had sent to each partner at its checkpoint of that number.
    pub fn sent(&self, process: usize, checkpoint: usize) -> &'a Row {
        &self.sent[self.first_rows[process] + checkpoint - 1]
    }

    /// What `process` had received from each partner at its checkpoint of that number.
    pub fn received(&self, process: usize, checkpoint: usize) -> &'a Row {
        &self.received[self.first_rows[process] + checkpoint - 1]
    }

    /// Whether the sent counters in `known` permit the checkpoint: its "received counters are at
    /// most the known sent counters". The mark is above every counter, so "not known" permits
    /// everything; own and absent columns of accepted tables are zero, which everything permits.
    fn permits(&self, process: usize, checkpoint: usize, known: &Row) -> bool {
        at_most(self.received(process, checkpoint), known)
    }

    /// The lowest partner from which the checkpoint received more than the sent counter in `known`.
    pub fn offending_partner(&self, process: usize, checkpoint: usize, known: &Row) -> Option<usize> {
        let received = self.received(process, checkpoint).iter();
        received.zip(known).position(|(received, known)| received > known)
    }

    /// The newest checkpoint up to `candidate` "whose received counters are at most the known sent
    /// counters". The oldest one received nothing, so there always is one.
    pub fn newest_permitted(&self, process: usize, candidate: usize, known: &Row) -> usize {
        let mut checkpoint = candidate;
        while !self.permits(process, checkpoint, known) {
            checkpoint -= 1;
        }
        checkpoint
    }

    /// Whether the checkpoint is the newest permitted of all. Received counters never fall, so if
    /// the next one is not permitted, no later one is.
    pub fn is_newest_permitted(&self, process: usize, checkpoint: usize, known: &Row) -> bool {
        let is_newest = checkpoint == self.counts[process];
        self.permits(process, checkpoint, known) && (is_newest || !self.permits(process, checkpoint + 1, known))
    }

    /// Whether `process` (below n) has a checkpoint of that number.
    pub fn has(&self, process: usize, checkpoint: u64) -> bool {
        1 <= checkpoint && checkpoint <= self.counts[process] as u64
    }

    /// The number of bytes of the book: one for each number, and those of further groups, of which
    /// unused entries have none.
    fn size(&self) -> usize {
        let further =
            |numbers: &[Counter]| -> u32 { numbers.iter().map(|&number| varint::further_groups(number)).sum() };
        let rows: usize = self.counts.iter().sum();
        let numbers = 1 + self.n + rows * 2 * (self.n - 1);
        let in_counts = further(&self.counts.map(|count| count as Counter));
        let in_tables = further(self.sent[..rows].as_flattened()) + further(self.received[..rows].as_flattened());
        numbers + (in_counts + in_tables) as usize
    }

    /// Writes all numbers of the book in the order of 01, where they fit.
    fn write(&self, out: &mut [u8]) {
        let mut at = 0;
        varint::write(self.n as Counter, out, &mut at);
        for own in 0..self.n {
            varint::write(self.counts[own] as Counter, out, &mut at);
            for index in self.rows_of(own) {
                for counters in [&self.sent[index], &self.received[index]] {
                    let (before, after) = (&counters[..own], &counters[own + 1..self.n]);
                    for &counter in before.iter().chain(after) {
                        varint::write(counter, out, &mut at);
                    }
                }
            }
        }
    }
}

/// Asks lent tables questions 2 and 4 to 9.
pub fn check(shape: &Shape, sent: &[Counter], received: &[Counter]) -> Result<(), u32> {
    Book::accepted(shape, sent, received).map(|_| ())
}

/// Takes a book into the tables: questions 1 to 9.
pub fn read(bytes: &[u8], sent: &mut [Counter], received: &mut [Counter]) -> Result<Shape, u32> {
    if bytes.len() > BOOK_BYTES {
        return Err(1);
    }
    table_lengths(sent, received)?;
    // "A refusal [...] changes nothing lent": the tables are filled aside first.
    let mut read_sent = [[0; PROCESSES]; CHECKPOINTS];
    let mut read_received = [[0; PROCESSES]; CHECKPOINTS];
    let shape = read_along(bytes, &mut read_sent, &mut read_received)?;
    sent.copy_from_slice(read_sent.as_flattened());
    received.copy_from_slice(read_received.as_flattened());
    Ok(shape)
}

/// Questions 3 to 9 "along the book, number by number", filling tables of zeros.
fn read_along(bytes: &[u8], sent: &mut [Row], received: &mut [Row]) -> Result<Shape, u32> {
    let mut at = 0;
    let n = process_count(u64::from(varint::read(bytes, &mut at).ok_or(3u32)?))?;
    let mut counts = [0; PROCESSES];
    let mut first = 0;
    for (own, count) in counts.iter_mut().enumerate().take(n) {
        *count = u64::from(varint::read(bytes, &mut at).ok_or(3u32)?);
        let end = first + checkpoint_count(*count, first)?;
        for index in first..end {
            for (table, before_oldest) in [(&mut *sent, Some(&ZEROS)), (&mut *received, None)] {
                let (earlier, later) = table.split_at_mut(index);
                let before = if index == first { before_oldest } else { earlier.last() };
                read_row(bytes, &mut at, &mut later[0], before, others(n, own))?;
            }
        }
        first = end;
    }
    if at == bytes.len() {
        Ok(Shape { n: n as u64, counts })
    } else {
        Err(9)
    }
}

/// Reads the counters of one row, for these partners: questions 3 and 6 to 8 of each.
fn read_row(
    bytes: &[u8],
    at: &mut usize,
    row: &mut Row,
    before: Option<&Row>,
    partners: impl Iterator<Item = usize>,
) -> Result<(), u32> {
    for partner in partners {
        let counter = varint::read(bytes, at).ok_or(3u32)?;
        counter_question(counter, before.map(|row| row[partner]))?;
        row[partner] = counter;
    }
    Ok(())
}

/// Writes the tables as a book and answers its length: questions 2, 4 to 9 and 17.
pub fn write(shape: &Shape, sent: &[Counter], received: &[Counter], out: &mut [u8]) -> Result<usize, u32> {
    let book = Book::accepted(shape, sent, received)?;
    let length = book.size();
    if length > out.len() {
        return Err(17);
    }
    book.write(out);
    Ok(length)
}
