//! What a call is given beside a state.

use crate::edits::Edit;
use crate::tables::{Counters, Lent, Shape, ENTRIES};

/// The shape; how many entries of each table are lent, and how many bytes of the buffer.
#[derive(Clone)]
pub struct Given {
    pub shape: Shape,
    pub sent: usize,
    pub received: usize,
    pub room: usize,
}

impl Given {
    /// Everything is lent.
    pub fn all(shape: Shape) -> Given {
        Given {
            shape,
            sent: ENTRIES,
            received: ENTRIES,
            room: usize::MAX,
        }
    }

    /// How many entries of each table are lent.
    pub fn entries(&self) -> [usize; 2] {
        [self.sent.min(ENTRIES), self.received.min(ENTRIES)]
    }

    pub fn lent<'a>(&'a self, counters: &'a Counters) -> Lent<'a> {
        let [sent, received] = self.entries();
        Lent {
            shape: &self.shape,
            sent: &counters.sent[..sent],
            received: &counters.received[..received],
        }
    }

    /// The part of a buffer that is lent.
    pub fn part<'a>(&self, buffer: &'a mut [u8]) -> &'a mut [u8] {
        let room = self.room.min(buffer.len());
        &mut buffer[..room]
    }

    /// An edit of what is lent, of the shape or of a table.
    pub fn edit(&mut self, edit: &Edit, counters: &mut Counters) -> Option<()> {
        let value = edit.counter()?;
        match edit.name {
            "room" => self.room = value as usize,
            "sent_entries" => self.sent = value as usize,
            "received_entries" => self.received = value as usize,
            "processes" => self.shape[0] = value.into(),
            "counts" => edit.put(&mut self.shape[1..], value.into())?,
            "sent" => edit.put(&mut counters.sent, value)?,
            "received" => edit.put(&mut counters.received, value)?,
            _ => return None,
        }
        Some(())
    }

    /// Edits with a space between two.
    pub fn edit_all(&mut self, fields: &str, counters: &mut Counters) -> Option<()> {
        fields
            .split_terminator(' ')
            .try_for_each(|field| self.edit(&Edit::of(field)?, counters))
    }
}
