//! Journals: events that fill the book, after document 02's E1.

use crate::book::{process_count, table_lengths, Counter, Row, Shape, CHECKPOINTS, PROCESSES};
use crate::varint;

/// "at most 65,536 bytes"
pub const JOURNAL_BYTES: usize = 65_536;
/// The bounds of a journal's numbers: 01's today, and a journal's own.
const GROUPS: usize = 5;
const LARGEST: u64 = 4_294_967_295;

/// "a kind (1 sent, 2 received, 3 checkpoint), the process, and for 1 and 2 the partner"
#[derive(Clone, Copy)]
enum Event {
    Sent { process: u64, partner: u64 },
    Received { process: u64, partner: u64 },
    Checkpoint { process: u64 },
}

/// A checkpoint that an event made, with its process's counts then.
struct Saved {
    process: usize,
    sent: Row,
    received: Row,
}

/// What the events so far have made; processes count from 0.
struct Run {
    n: usize,
    /// The running counts of each process: what it has sent to and received from each partner.
    sent: [Row; PROCESSES],
    received: [Row; PROCESSES],
    saved: Vec<Saved>,
}

/// The next number of the journal, and moves `at` behind it. All kinds and processes have one group.
fn number(bytes: &[u8], at: &mut usize) -> Option<u64> {
    match bytes.get(*at) {
        Some(&byte) if byte < 0x80 => {
            *at += 1;
            Some(u64::from(byte))
        }
        _ => varint::read_within(bytes, at, GROUPS, LARGEST),
    }
}

/// The next event; `None` where question 19 says no.
fn event(bytes: &[u8], at: &mut usize) -> Option<Event> {
    let kind = number(bytes, at)?;
    let process = number(bytes, at)?;
    if kind == 3 {
        return Some(Event::Checkpoint { process });
    }
    let partner = number(bytes, at)?;
    match kind {
        _ if partner == process => None,
        1 => Some(Event::Sent { process, partner }),
        2 => Some(Event::Received { process, partner }),
        _ => None,
    }
}

impl Run {
    /// "Checkpoint 1 of every process is there from the start."
    fn new(n: usize) -> Self {
        Run {
            n,
            sent: [[0; PROCESSES]; PROCESSES],
            received: [[0; PROCESSES]; PROCESSES],
            saved: Vec::with_capacity(CHECKPOINTS),
        }
    }

    /// Question 10: the place of a process.
    fn place(&self, process: u64) -> Result<usize, u32> {
        if 1 <= process && process <= self.n as u64 {
            Ok(process as usize - 1)
        } else {
            Err(10)
        }
    }

    /// One event: questions 10, 20 and 5. It changes the counts of the process that it names; "the
    /// partner's counts stay".
    fn log(&mut self, event: Event) -> Result<(), u32> {
        match event {
            Event::Sent { process, partner } => {
                let (own, other) = (self.place(process)?, self.place(partner)?);
                self.sent[own][other] += 1;
            }
            Event::Received { process, partner } => {
                let (own, other) = (self.place(process)?, self.place(partner)?);
                // As many are underway as were sent and not received.
                if self.received[own][other] == self.sent[other][own] {
                    return Err(20);
                }
                self.received[own][other] += 1;
            }
            Event::Checkpoint { process } => {
                let own = self.place(process)?;
                self.save(own)?;
            }
        }
        Ok(())
    }

    /// Question 5, and a checkpoint with the process's counts.
    fn save(&mut self, process: usize) -> Result<(), u32> {
        if self.n + self.saved.len() == CHECKPOINTS {
            return Err(5);
        }
        self.saved.push(Saved {
            process,
            sent: self.sent[process],
            received: self.received[process],
        });
        Ok(())
    }

    /// Puts the checkpoints into the tables, process by process; every other row is zero.
    fn fill(&self, sent: &mut [Row], received: &mut [Row]) -> Shape {
        let mut counts = [0; PROCESSES];
        counts[..self.n].fill(1);
        self.saved.iter().for_each(|saved| counts[saved.process] += 1);
        let mut rows = [0; PROCESSES];
        let mut first = 0;
        for process in 0..self.n {
            rows[process] = first + 1;
            for table in [&mut *sent, &mut *received] {
                table[first] = [0; PROCESSES];
            }
            first += counts[process] as usize;
        }
        for table in [&mut *sent, &mut *received] {
            table[first..].fill([0; PROCESSES]);
        }
        for saved in &self.saved {
            let row = &mut rows[saved.process];
            sent[*row] = saved.sent;
            received[*row] = saved.received;
            *row += 1;
        }
        Shape {
            n: self.n as u64,
            counts,
        }
    }
}

/// Fills the tables from a journal: questions 1 to 4, then 19, 10, 20 and 5 of each event.
pub fn read_journal(bytes: &[u8], sent: &mut [Counter], received: &mut [Counter]) -> Result<Shape, u32> {
    if bytes.len() > JOURNAL_BYTES {
        return Err(1);
    }
    table_lengths(sent, received)?;
    let mut at = 0;
    let mut run = Run::new(process_count(number(bytes, &mut at).ok_or(3u32)?)?);
    while at < bytes.len() {
        run.log(event(bytes, &mut at).ok_or(19u32)?)?;
    }
    Ok(run.fill(sent.as_chunks_mut().0, received.as_chunks_mut().0))
}
