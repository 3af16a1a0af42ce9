//! Where a field of a session stands in its words.

use reference::{words, Session};

/// The first word that a change of the field changes.
pub fn place_of(session: &Session, change: impl FnOnce(&mut Session)) -> usize {
    let mut changed = session.clone();
    change(&mut changed);
    let (before, after) = (words::session_words(session), words::session_words(&changed));
    (0..before.len())
        .find(|&at| before[at] != after[at])
        .expect("the change shows")
}
