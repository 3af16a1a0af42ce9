//! What one call is lent: every slice and number of any call of the interface in one struct, so that two
//! implementations can be run on equal copies and the copies be compared whole.

use crate::layout::{Counter, RESEND_WORDS, SHAPE_WORDS, TABLE_ENTRIES};

/// Elements that stand before and after what is lent; a write outside the lent part shows there.
const MARGIN: usize = 4;

/// An element with a value that a fresh buffer holds at each place.
pub trait Pattern: Copy + PartialEq {
    /// The value at a place.
    fn at(place: usize) -> Self;
}

impl Pattern for u8 {
    fn at(place: usize) -> u8 {
        0xA5 ^ (place % 251) as u8
    }
}

impl Pattern for u32 {
    fn at(place: usize) -> u32 {
        0xC3C3_0000 + place as u32
    }
}

impl Pattern for u64 {
    fn at(place: usize) -> u64 {
        0x5A5A_0000_0000_0000 + place as u64
    }
}

/// A buffer with margins.
#[derive(Clone, PartialEq)]
pub struct Guarded<T> {
    cells: Vec<T>,
}

impl<T: Pattern> Guarded<T> {
    /// A buffer of a length that holds the pattern.
    pub fn fresh(length: usize) -> Self {
        let cells = (0..length + 2 * MARGIN).map(T::at).collect();
        Guarded { cells }
    }

    /// A buffer that holds these values.
    pub fn holding(values: &[T]) -> Self {
        let mut cells = Vec::with_capacity(values.len() + 2 * MARGIN);
        cells.extend((0..MARGIN).map(T::at));
        cells.extend_from_slice(values);
        cells.extend((0..MARGIN).map(T::at));
        Guarded { cells }
    }

    /// What is lent.
    pub fn lent(&self) -> &[T] {
        &self.cells[MARGIN..self.cells.len() - MARGIN]
    }

    /// What is lent, to be changed.
    pub fn lent_mut(&mut self) -> &mut [T] {
        let end = self.cells.len() - MARGIN;
        &mut self.cells[MARGIN..end]
    }

    /// The same contents cut or extended (by the pattern) to a length.
    pub fn resized(&self, length: usize) -> Self {
        let kept = length.min(self.lent().len());
        let mut values = self.lent()[..kept].to_vec();
        values.extend((kept..length).map(|place| T::at(place + MARGIN)));
        Guarded::holding(&values)
    }
}

/// Every slice and number that a call may be lent. A call uses some of them; the others stay empty.
#[derive(Clone, PartialEq)]
pub struct Lent {
    pub shape: Guarded<u64>,
    pub sent: Guarded<Counter>,
    pub received: Guarded<Counter>,
    /// A book, a journal, a message or a list to be read.
    pub bytes: Guarded<u8>,
    /// Where messages, a book or a list are written; a session's strands.
    pub out: Guarded<u8>,
    /// The words of a machine or a session.
    pub state: Guarded<u64>,
    /// The set to be tested.
    pub set: Guarded<u64>,
    /// What each process is known to have sent.
    pub known: Guarded<Counter>,
    /// Where lengths, a pair, a line, an order or a list are written.
    pub result: Guarded<u64>,
    /// Process numbers, a checkpoint and a purpose, or n, in the order of the call's parameters.
    pub names: [u64; 3],
    /// Where single numbers are written, in the order of the call's parameters.
    pub numbers: [u64; 3],
}

impl Lent {
    /// Tables, and nothing else.
    pub fn tables(shape: &[u64], sent: &[Counter], received: &[Counter]) -> Self {
        Lent {
            shape: Guarded::holding(shape),
            sent: Guarded::holding(sent),
            received: Guarded::holding(received),
            bytes: Guarded::fresh(0),
            out: Guarded::fresh(0),
            state: Guarded::fresh(0),
            set: Guarded::fresh(0),
            known: Guarded::fresh(0),
            result: Guarded::fresh(0),
            names: [0; 3],
            numbers: [u64::at(0), u64::at(1), u64::at(2)],
        }
    }

    /// A book or a journal to be read into fresh tables.
    pub fn to_read(bytes: &[u8]) -> Self {
        let mut lent = Lent::tables(&[], &[], &[]);
        lent.shape = Guarded::fresh(SHAPE_WORDS);
        lent.sent = Guarded::fresh(TABLE_ENTRIES);
        lent.received = Guarded::fresh(TABLE_ENTRIES);
        lent.bytes = Guarded::holding(bytes);
        lent
    }

    /// A list to be read, among n processes, into fresh words.
    pub fn to_read_list(n: u64, bytes: &[u8]) -> Self {
        let mut lent = Lent::tables(&[], &[], &[]);
        lent.names[0] = n;
        lent.bytes = Guarded::holding(bytes);
        lent.result = Guarded::fresh(RESEND_WORDS);
        lent
    }

    /// The names of the fields in which two differ, each with the first place.
    pub fn differences(&self, other: &Lent) -> Vec<String> {
        let mut found = Vec::new();
        let mut note = |name: &str, place: Option<String>| {
            if let Some(place) = place {
                found.push(format!("{name}{place}"));
            }
        };
        note("shape", first_difference(&self.shape, &other.shape));
        note("sent", first_difference(&self.sent, &other.sent));
        note("received", first_difference(&self.received, &other.received));
        note("bytes", first_difference(&self.bytes, &other.bytes));
        note("out", first_difference(&self.out, &other.out));
        note("state", first_difference(&self.state, &other.state));
        note("set", first_difference(&self.set, &other.set));
        note("known", first_difference(&self.known, &other.known));
        note("result", first_difference(&self.result, &other.result));
        for (place, (a, b)) in self.numbers.iter().zip(&other.numbers).enumerate() {
            note("numbers", (a != b).then(|| format!("[{place}]: {a} and {b}")));
        }
        found
    }
}

/// The first place at which two buffers differ, with both values; a place outside what was lent is negative or too
/// large.
fn first_difference<T: Pattern + std::fmt::Display>(a: &Guarded<T>, b: &Guarded<T>) -> Option<String> {
    let place = a.cells.iter().zip(&b.cells).position(|(x, y)| x != y)?;
    let (x, y) = (a.cells[place], b.cells[place]);
    Some(format!("[{}]: {x} and {y}", place as i64 - MARGIN as i64))
}
