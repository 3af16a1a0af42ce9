//! What to send again, after document 02's E5.

use crate::book::{others, process_count, Book, Counter, Shape, PROCESSES};
use crate::machine::process_question;
use crate::restart::restart_order;
use crate::varint;

/// An entry of a list: "(sender, receiver, first, last)".
#[derive(Clone, Copy, PartialEq, Eq, Debug)]
pub struct Repeat {
    pub sender: u64,
    pub receiver: u64,
    pub first: Counter,
    pub last: Counter,
}

/// The list of accepted tables, `from` being the line's checkpoints, "with purpose 2, checkpoints 1": "for each
/// channel whose line [...] sent more than was received, from one past the received count to the sent
/// count, [...] strictly rising by sender, then receiver".
pub(crate) fn list_of(book: &Book, from: &[usize; PROCESSES]) -> Vec<Repeat> {
    let mut list = Vec::with_capacity(book.n * (book.n - 1));
    for sender in 0..book.n {
        let sent = book.sent(sender, from[sender]);
        for receiver in others(book.n, sender) {
            let received = book.received(receiver, from[receiver])[sender];
            if sent[receiver] > received {
                list.push(Repeat {
                    sender: sender as u64 + 1,
                    receiver: receiver as u64 + 1,
                    first: received + 1,
                    last: sent[receiver],
                });
            }
        }
    }
    list
}

/// "Seven-bit numbers after a leading count", four to an entry.
fn numbers(list: &[Repeat]) -> impl Iterator<Item = Counter> + '_ {
    let of_entry = |entry: &Repeat| {
        [
            entry.sender as Counter,
            entry.receiver as Counter,
            entry.first,
            entry.last,
        ]
    };
    std::iter::once(list.len() as Counter).chain(list.iter().flat_map(of_entry))
}

/// Writes the list of the tables' restart order and answers its length: questions 2, 4 to 9, 11 and 17.
pub fn write_resend(
    shape: &Shape,
    sent: &[Counter],
    received: &[Counter],
    purpose: u64,
    out: &mut [u8],
) -> Result<usize, u32> {
    let list = restart_order(shape, sent, received, purpose)?.resend;
    let length = numbers(&list).map(varint::size).sum();
    if length > out.len() {
        return Err(17);
    }
    let mut at = 0;
    numbers(&list).for_each(|number| varint::write(number, out, &mut at));
    Ok(length)
}

/// The next entry; `None` where question 3 says no to one of its four numbers.
fn entry(bytes: &[u8], at: &mut usize) -> Option<Repeat> {
    Some(Repeat {
        sender: varint::read(bytes, at)?.into(),
        receiver: varint::read(bytes, at)?.into(),
        first: varint::read(bytes, at)?,
        last: varint::read(bytes, at)?,
    })
}

/// Questions 10 and 21 of an entry, given the one before it: "21 if out of order, with an equal sender
/// and receiver, or with a first that is zero or past its last".
fn entry_question(n: usize, before: Option<&Repeat>, entry: &Repeat) -> Result<(), u32> {
    process_question(n, entry.sender)?;
    process_question(n, entry.receiver)?;
    let channel = |entry: &Repeat| (entry.sender, entry.receiver);
    let rises = before.is_none_or(|before| channel(before) < channel(entry));
    if rises && entry.sender != entry.receiver && 1 <= entry.first && entry.first <= entry.last {
        Ok(())
    } else {
        Err(21)
    }
}

/// Reads a list: question 4 "to the n lent with it and 3 to the count", then each entry in turn; "bytes
/// left over give 21 at the end".
pub fn read_resend(n: u64, bytes: &[u8]) -> Result<Vec<Repeat>, u32> {
    let n = process_count(n)?;
    let mut at = 0;
    let count = varint::read(bytes, &mut at).ok_or(3u32)?;
    let mut list: Vec<Repeat> = Vec::new();
    for _ in 0..count {
        let entry = entry(bytes, &mut at).ok_or(3u32)?;
        entry_question(n, list.last(), &entry)?;
        list.push(entry);
    }
    if at == bytes.len() {
        Ok(list)
    } else {
        Err(21)
    }
}
