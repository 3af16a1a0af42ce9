//! Journals read into tables: valid ones and damaged ones, and what is claimed of those that are accepted.

use crate::call::Call;
use crate::damaged_journals::damaged;
use crate::journal_claims::{book_of_events, channels_hold};
use crate::journals::{any_journal, long_journal, Journal};
use crate::layout::BOOK_BYTES;
use crate::lent::{Guarded, Lent};
use crate::made;
use crate::random::Random;
use crate::runner::{book_of, Runner};
use crate::scenarios::lent_tables;
use crate::tally::Kind;
use crate::variations::varied;

/// One journal in so many is long.
const LONG: usize = 24;

/// A journal is read; then damaged ones are, and some with tables or words of other lengths.
pub fn journals(runner: &mut Runner, random: &mut Random) -> Option<()> {
    let journal = if random.once_in(LONG) {
        long_journal(random)
    } else {
        any_journal(random)
    };
    let bytes = journal.bytes();
    let read = runner.case(Kind::ValidJournal, Call::Journal, Lent::to_read(&bytes))?;
    runner.demand(read.answer == 0, "a valid journal is accepted", &read.left)?;
    accepted(runner, &read.left, &bytes)?;
    for _ in 0..6 {
        let bytes = damaged(random, &journal);
        let lent = Lent::to_read(&bytes);
        let read = runner.case(Kind::DamagedJournal, Call::Journal, lent.clone())?;
        if read.answer == 0 {
            accepted(runner, &read.left, &bytes)?;
        }
        if random.once_in(3) {
            let (kind, lent) = varied(random, Call::Journal, &lent);
            runner.case(kind, Call::Journal, lent)?;
        }
    }
    Some(())
}

/// What is claimed of an accepted journal and of the tables that it left.
fn accepted(runner: &mut Runner, left: &Lent, bytes: &[u8]) -> Option<()> {
    let journal = Journal::of_bytes(bytes);
    runner.journals.add(&journal, bytes.len());
    let (built, counted) = (book_of(left), book_of_events(&journal));
    runner.demand(
        built == counted,
        "the tables have what the events before each checkpoint add up to",
        left,
    )?;
    let written = made::by_events(&journal);
    let same = written.bytes() == bytes && written.tables().is_ok_and(|tables| made::book_in(&tables) == built);
    runner.demand(
        same,
        "the wrapper's journal of these events has these bytes and tables",
        left,
    )?;
    let law = channels_hold(&journal);
    let what = law.as_ref().err().map_or("", String::as_str);
    runner.demand(law.is_ok(), &format!("the channels' law: {what}"), left)?;
    written_and_read(runner, left)
}

/// "The book built is always one that the reader accepts": the tables pass the check, are written, and come back when read.
fn written_and_read(runner: &mut Runner, left: &Lent) -> Option<()> {
    let built = book_of(left);
    let mut lent = lent_tables(&built);
    let checked = runner.case(Kind::ValidTables, Call::Check, lent.clone())?;
    runner.demand(checked.answer == 0, "built tables pass the check", left)?;
    lent.out = Guarded::fresh(BOOK_BYTES);
    let written = runner.case(Kind::ValidTables, Call::Write, lent)?;
    runner.demand(written.answer == 0, "built tables are written", left)?;
    let book = &written.left.out.lent()[..written.left.numbers[0] as usize];
    let read = runner.case(Kind::ValidBook, Call::Read, Lent::to_read(book))?;
    let same = read.answer == 0 && book_of(&read.left) == built;
    runner.demand(same, "a built book is read into the same tables", &read.left)
}
