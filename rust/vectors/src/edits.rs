//! Edits that lines say.

use crate::text;
use recovery_line::Counter;

/// A name, perhaps a dot and an index, and `=V`.
pub struct Edit<'a> {
    pub name: &'a str,
    pub index: Option<usize>,
    pub value: u64,
}

impl<'a> Edit<'a> {
    pub fn of(field: &'a str) -> Option<Edit<'a>> {
        let (place, value) = field.split_once('=')?;
        let value = text::decimal(value)?;
        let (name, index) = match place.split_once('.') {
            Some((name, index)) => (name, Some(usize::try_from(text::decimal(index)?).ok()?)),
            None => (place, None),
        };
        Some(Edit { name, index, value })
    }

    /// The value as an entry, if it is one.
    pub fn counter(&self) -> Option<Counter> {
        Counter::try_from(self.value).ok()
    }

    /// Puts the value at the place that the index names, if there is one.
    pub fn put<T>(&self, slice: &mut [T], value: T) -> Option<()> {
        *slice.get_mut(self.index?)? = value;
        Some(())
    }
}
