//! Stores as rows.

use crate::error::Error;
use crate::raw::{Entry, LONGEST_KEY};
use crate::text::Owned;
use std::iter::FusedIterator;
use std::{fmt, slice, str};

/// A row of a key and a value. A key with a zero in it would be read as the bytes before that.
pub(crate) fn entry_of(key: &[u8], value: i64) -> Result<Entry, Error> {
    if key.len() > LONGEST_KEY || key.contains(&0) {
        return Err(Error::NoKey);
    }
    let mut entry = Entry { key: [0; LONGEST_KEY], value };
    entry.key[..key.len()].copy_from_slice(key);
    Ok(entry)
}

impl Entry {
    fn name(&self) -> &str {
        let end = self.key.iter().position(|byte| *byte == 0).unwrap_or(LONGEST_KEY);
        // The bytes of a key are ASCII.
        str::from_utf8(&self.key[..end]).unwrap_or_default()
    }
}

impl fmt::Debug for Entry {
    fn fmt(&self, to: &mut fmt::Formatter<'_>) -> fmt::Result {
        write!(to, "{} {}", self.name(), self.value)
    }
}

/// The rows of a store: each key with its value, in rising order of the keys. [`Machine::open_rows`] takes them.
///
/// [`Machine::open_rows`]: crate::Machine::open_rows
#[derive(Debug, PartialEq, Eq)]
pub struct StoreRows(pub(crate) Owned<Entry>);

impl StoreRows {
    pub fn len(&self) -> usize {
        self.0.len()
    }

    pub fn is_empty(&self) -> bool {
        self.0.is_empty()
    }

    /// A key's value; `None` if it has none. It is found by a binary search.
    pub fn get(&self, key: impl AsRef<[u8]>) -> Option<i64> {
        let wanted = entry_of(key.as_ref(), 0).ok()?;
        let place = self.0.binary_search_by(|entry| entry.key.cmp(&wanted.key)).ok()?;
        Some(self.0[place].value)
    }

    pub fn iter(&self) -> StoreRowsIter<'_> {
        StoreRowsIter(self.0.iter())
    }
}

impl<'a> IntoIterator for &'a StoreRows {
    type Item = (&'a str, i64);
    type IntoIter = StoreRowsIter<'a>;

    fn into_iter(self) -> StoreRowsIter<'a> {
        self.iter()
    }
}

/// The keys of a store with their values, in rising order of the keys.
#[derive(Clone, Debug)]
pub struct StoreRowsIter<'a>(slice::Iter<'a, Entry>);

impl<'a> Iterator for StoreRowsIter<'a> {
    type Item = (&'a str, i64);

    fn next(&mut self) -> Option<(&'a str, i64)> {
        self.0.next().map(|entry| (entry.name(), entry.value))
    }

    fn size_hint(&self) -> (usize, Option<usize>) {
        self.0.size_hint()
    }
}

impl DoubleEndedIterator for StoreRowsIter<'_> {
    fn next_back(&mut self) -> Option<Self::Item> {
        self.0.next_back().map(|entry| (entry.name(), entry.value))
    }
}

impl ExactSizeIterator for StoreRowsIter<'_> {}

impl FusedIterator for StoreRowsIter<'_> {}
