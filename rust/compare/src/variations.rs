//! Variations of a case: the same call with something of what it is lent changed, sometimes two things, so that the
//! order of the questions shows.

use crate::call::Call;
use crate::changed_states::{change_initiator, change_participant, change_session, damage_strands};
use crate::damaged_books::with_bytes_changed;
use crate::damaged_tables::{change_entries, change_shape, change_table_lengths, change_word_lengths, ODD_NUMBERS};
use crate::layout::{initiator, message_bytes, participant, session, slot_start, Counter, NOT_KNOWN, PROCESSES};
use crate::lent::{Guarded, Lent};
use crate::messages;
use crate::other_tables::{change_processes, change_tables_validly};
use crate::places::{change_head, change_places};
use crate::random::Random;
use crate::tally::Kind;
use crate::theirs;

/// A variation of a case, with what it tries.
pub fn varied(random: &mut Random, call: Call, lent: &Lent) -> (Kind, Lent) {
    let mut changed = lent.clone();
    let kind = one_kind(random, call);
    change(random, call, kind, &mut changed);
    if random.once_in(4) {
        let second = one_kind(random, call);
        change(random, call, second, &mut changed);
    }
    (kind, changed)
}

/// The kinds of variation that belong to a call.
fn own_kinds(call: Call) -> &'static [Kind] {
    match call {
        Call::Read => &[Kind::DamagedBook],
        Call::Journal => &[Kind::DamagedJournal],
        Call::TestSet => &[Kind::Set],
        Call::TestCheckpoint => &[Kind::Column, Kind::Name, Kind::Name],
        Call::Write => &[Kind::Room],
        Call::ParticipantFirst | Call::Search | Call::Move | Call::RestartOrder => &[Kind::Name],
        Call::InitiatorBegin | Call::SessionStart | Call::WriteResend => &[Kind::Name, Kind::Room],
        Call::ReadResend => &[Kind::DamagedList, Kind::DamagedList, Kind::Name],
        Call::ParticipantReceive | Call::InitiatorReceive => &OF_MACHINES,
        Call::SessionTurn => &OF_TURNS,
        Call::Check | Call::Find => &[],
    }
}

const OF_MACHINES: [Kind; 5] = [
    Kind::DamagedMessage,
    Kind::DamagedMessage,
    Kind::ChangedMachine,
    Kind::OtherTables,
    Kind::Room,
];

const OF_TURNS: [Kind; 12] = [
    Kind::ChangedSession,
    Kind::ChangedSession,
    Kind::ChangedSession,
    Kind::OtherProcesses,
    Kind::SessionHead,
    Kind::Places,
    Kind::DamagedStrand,
    Kind::DamagedStrand,
    Kind::OtherTables,
    Kind::Room,
    Kind::Room,
    Kind::Name,
];

/// The kinds that every call has; a call that fills tables has the last two, about lengths, and one without tables the last.
const OF_TABLES: [Kind; 5] = [
    Kind::DamagedTables,
    Kind::DamagedTables,
    Kind::DamagedTables,
    Kind::TableLengths,
    Kind::WordLengths,
];

/// A kind of variation for a call, its own more often than those of every call.
fn one_kind(random: &mut Random, call: Call) -> Kind {
    let own = own_kinds(call);
    let common = match call {
        Call::ReadResend => &OF_TABLES[4..],
        _ if call.fills_tables() => &OF_TABLES[3..],
        _ => &OF_TABLES,
    };
    if own.is_empty() || random.once_in(4) {
        random.one_of(common)
    } else {
        random.one_of(own)
    }
}

fn change(random: &mut Random, call: Call, kind: Kind, lent: &mut Lent) {
    match kind {
        Kind::DamagedBook | Kind::DamagedJournal | Kind::DamagedList => {
            let bytes = with_bytes_changed(random, lent.bytes.lent().to_vec());
            lent.bytes = Guarded::holding(&bytes);
        }
        Kind::DamagedTables if random.once_in(3) => change_shape(random, lent),
        Kind::DamagedTables => change_entries(random, lent),
        Kind::TableLengths => change_table_lengths(random, lent),
        Kind::WordLengths => change_word_lengths(random, call, lent),
        Kind::OtherTables => change_tables_validly(random, lent),
        Kind::OtherProcesses => change_processes(random, lent),
        Kind::SessionHead => change_head(random, lent),
        Kind::Places => change_places(random, lent.state.lent_mut()),
        Kind::Set => change_set(random, lent),
        Kind::Column => change_column(random, lent),
        Kind::Name => change_name(random, call, lent),
        Kind::Room => change_room(random, call, lent),
        Kind::DamagedMessage => damage_message(random, lent),
        Kind::ChangedMachine if call == Call::ParticipantReceive => change_participant(random, lent.state.lent_mut()),
        Kind::ChangedMachine => change_initiator(random, lent.state.lent_mut()),
        Kind::ChangedSession => change_session(random, lent.state.lent_mut()),
        _ => damage_strands(random, lent),
    }
}

/// Changes a word of a set.
pub fn change_set(random: &mut Random, lent: &mut Lent) {
    let counts: Vec<u64> = lent.shape.lent().iter().skip(1).copied().collect();
    let set = lent.set.lent_mut();
    if set.is_empty() || counts.len() < set.len() {
        return;
    }
    let place = random.below(set.len());
    set[place] = match random.below(5) {
        0 => 0,
        1 => counts[place].wrapping_add(1),
        2 => (1 << 32) + counts[place] % 256,
        3 => u64::MAX,
        _ => random.between(0, 3) as u64,
    };
}

/// Changes an entry of a column.
fn change_column(random: &mut Random, lent: &mut Lent) {
    let known = lent.known.lent_mut();
    if known.is_empty() {
        return;
    }
    let place = random.below(known.len());
    known[place] = match random.below(5) {
        0 => 0,
        1 => NOT_KNOWN as Counter,
        2 => known[place].wrapping_add(1),
        3 => known[place].wrapping_sub(1),
        _ => random.number() as Counter,
    };
}

/// Changes a process number, a checkpoint or a purpose.
fn change_name(random: &mut Random, call: Call, lent: &mut Lent) {
    let place = random.below(call.names());
    lent.names[place] = match random.below(4) {
        0 => random.one_of(&ODD_NUMBERS),
        1 => (1 << 32) + lent.names[place],
        _ => random.between(0, PROCESSES + 1) as u64,
    };
}

/// Lends another length of bytes to write to: just enough, one less, none, more, or any.
fn change_room(random: &mut Random, call: Call, lent: &mut Lent) {
    let needed = room_needed(random, call, lent);
    let length = match random.below(6) {
        0 => 0,
        1 | 2 => needed.saturating_sub(1),
        3 => needed,
        4 => needed + random.between(1, 40),
        _ => random.between(0, needed),
    };
    lent.out = lent.out.resized(length);
}

/// How many bytes the call writes where there is room, or for a session up to the end of one of its waiting messages.
fn room_needed(random: &mut Random, call: Call, lent: &Lent) -> usize {
    let mut trial = lent.clone();
    if !matches!(call, Call::SessionStart | Call::SessionTurn) {
        trial.out = trial.out.resized(70_000);
    }
    if theirs::run(call, &mut trial) != 0 {
        return lent.out.lent().len();
    }
    match call {
        Call::Write | Call::WriteResend => trial.numbers[0] as usize,
        Call::SessionStart | Call::SessionTurn => {
            let words = trial.state.lent();
            let (n, initiator) = (words[session::N] as usize, words[session::INITIATOR] as usize);
            let ends: Vec<usize> = (1..=n)
                .filter(|p| words[session::WAITING + p - 1] > 0)
                .map(|p| slot_start(n, initiator, p) + words[session::WAITING + p - 1] as usize)
                .collect();
            if ends.is_empty() {
                message_bytes(n)
            } else {
                random.one_of(&ends)
            }
        }
        _ => trial.result.lent().iter().sum::<u64>() as usize,
    }
}

/// Damages a message; counters of the receiver's state serve as counters in it.
fn damage_message(random: &mut Random, lent: &mut Lent) {
    let n = lent.shape.lent().first().map_or(1, |&n| n.clamp(1, 16)) as usize;
    let state = lent.state.lent();
    let held = match state.len() {
        participant::WORDS => &state[participant::COLUMN..participant::COLUMN + n],
        initiator::WORDS => &state[initiator::MATRIX..initiator::MATRIX + PROCESSES * n],
        _ => &[],
    };
    let bytes = messages::damaged(random, n, lent.bytes.lent(), held);
    lent.bytes = Guarded::holding(&bytes);
}
