//! Edits that a line says of a session: of a machine's field, of the session's own, of a strand, of what is lent (`book=HEX`:
//! the tables of another book).

use crate::edits::Edit;
use crate::session::{self, Place};
use crate::strands::{self, STRANDS};
use crate::tables::Counters;
use crate::text;
use crate::trial::Trial;

/// All edits, with a semicolon between two; `-` is none.
pub fn make_edits(fields: &str, trial: &mut Trial, counters: &mut Counters) -> Option<()> {
    fields
        .split_terminator(';')
        .try_for_each(|field| make_edit(field, trial, counters))
}

fn make_edit(field: &str, trial: &mut Trial, counters: &mut Counters) -> Option<()> {
    if field == "-" {
        return Some(());
    }
    if field.starts_with(|c: char| c.is_ascii_digit()) {
        return edit_machine(field, trial, false);
    }
    if let Some(book) = field.strip_prefix("book=") {
        trial.given.shape = counters.read_field(book);
        return Some(());
    }
    match field.split_once(' ') {
        None => edit_own(field, trial, counters),
        Some(("place", rest)) => edit_machine(rest, trial, true),
        Some(("strand", rest)) => edit_strand(rest, trial),
        Some(("length", rest)) => edit_length(rest, trial),
        Some(_) => None,
    }
}

/// `P.FIELD=V`: a field of the machine of process p, or of the one at p's place among the participants.
fn edit_machine(field: &str, trial: &mut Trial, among_participants: bool) -> Option<()> {
    let (p, field) = field.split_once('.')?;
    let p = text::process(p);
    let Place { role, words } = if among_participants {
        trial.session.place_among_participants(p)?
    } else {
        trial.session.place(p)?
    };
    let state = &mut trial.session.0[words];
    match field.strip_prefix("phase=") {
        Some(word) => role.set_phase(state, word),
        None => role.edit(state, &Edit::of(field)?),
    }
}

/// `NAME=V`: a field of the session, or what is lent.
fn edit_own(field: &str, trial: &mut Trial, counters: &mut Counters) -> Option<()> {
    let edit = Edit::of(field)?;
    match trial.session.set_own(edit.name, edit.value) {
        Some(()) => Some(()),
        None => trial.given.edit(&edit, counters),
    }
}

/// `strand P=HEX`: these bytes wait on process p's strand.
fn edit_strand(field: &str, trial: &mut Trial) -> Option<()> {
    let (p, bytes) = field.split_once('=')?;
    let k = session::place_of(text::process(p))?;
    let bytes = text::bytes(bytes)?;
    let slot = strands::slot(&trial.session, k, STRANDS as u64);
    trial.strands[slot].get_mut(..bytes.len())?.copy_from_slice(&bytes);
    trial.session.set_length(k, bytes.len() as u64);
    Some(())
}

/// `length P=V`: so many bytes wait on process p's strand; the bytes stay.
fn edit_length(field: &str, trial: &mut Trial) -> Option<()> {
    let (p, length) = field.split_once('=')?;
    let k = session::place_of(text::process(p))?;
    trial.session.set_length(k, text::decimal(length)?);
    Some(())
}
