//! Replies.

use crate::raw::{Row, MOST_SHOWN};
use crate::text::Owned;
use std::fmt;
use std::iter::FusedIterator;
use std::ops::Range;

/// Why a transaction aborted.
#[derive(Clone, Copy, Debug, PartialEq, Eq, Hash)]
pub enum Reason {
    Need,
    Fail,
    Absent,
    Range,
}

impl fmt::Display for Reason {
    fn fmt(&self, to: &mut fmt::Formatter<'_>) -> fmt::Result {
        to.write_str(match self {
            Reason::Need => "need",
            Reason::Fail => "fail",
            Reason::Absent => "absent",
            Reason::Range => "range",
        })
    }
}

/// How a transaction ended: it committed and shows these values, or it aborted at a statement, counted from 1; in a call
/// the count begins with the `let`s of the procedure's values.
#[derive(Clone, Copy, Debug, PartialEq, Eq)]
pub enum Outcome<'a> {
    Commit { shows: &'a [i64] },
    Abort { reason: Reason, statement: u32 },
}

/// The reply to the transaction with a timestamp. It displays as its line in the text of an answer.
#[derive(Clone, Copy, Debug, PartialEq, Eq)]
pub struct Reply<'a> {
    pub timestamp: u32,
    pub outcome: Outcome<'a>,
}

impl<'a> Reply<'a> {
    /// The reply of a row, with the values that it shows.
    fn of(timestamp: u32, row: &Row, shows: &'a [i64]) -> Reply<'a> {
        let abort = |reason| Outcome::Abort { reason, statement: row.statement };
        let outcome = match row.outcome {
            0 => Outcome::Commit { shows },
            1 => abort(Reason::Need),
            2 => abort(Reason::Fail),
            3 => abort(Reason::Absent),
            _ => abort(Reason::Range),
        };
        Reply { timestamp, outcome }
    }

    pub fn is_commit(&self) -> bool {
        matches!(self.outcome, Outcome::Commit { .. })
    }

    /// The values that it shows: none if it aborted.
    pub fn shows(&self) -> &'a [i64] {
        match self.outcome {
            Outcome::Commit { shows } => shows,
            Outcome::Abort { .. } => &[],
        }
    }
}

impl fmt::Display for Reply<'_> {
    fn fmt(&self, to: &mut fmt::Formatter<'_>) -> fmt::Result {
        match self.outcome {
            Outcome::Commit { shows } => {
                write!(to, "{} commit", self.timestamp)?;
                shows.iter().try_for_each(|value| write!(to, " {value}"))
            }
            Outcome::Abort { reason, statement } => write!(to, "{} abort {reason} {statement}", self.timestamp),
        }
    }
}

/// The reply to a single call, which owns the values that it shows.
#[derive(Clone)]
pub struct OwnedReply {
    pub(crate) timestamp: u32,
    pub(crate) row: Row,
    pub(crate) shown: [i64; MOST_SHOWN],
}

impl OwnedReply {
    /// Room for a reply.
    pub(crate) fn empty() -> OwnedReply {
        OwnedReply { timestamp: 0, row: Row::default(), shown: [0; MOST_SHOWN] }
    }

    pub fn reply(&self) -> Reply<'_> {
        Reply::of(self.timestamp, &self.row, &self.shown[..self.row.shown as usize])
    }

    pub fn is_commit(&self) -> bool {
        self.reply().is_commit()
    }

    /// The values that it shows: none if it aborted.
    pub fn shows(&self) -> &[i64] {
        self.reply().shows()
    }
}

impl PartialEq for OwnedReply {
    fn eq(&self, other: &OwnedReply) -> bool {
        self.reply() == other.reply()
    }
}

impl Eq for OwnedReply {}

impl fmt::Display for OwnedReply {
    fn fmt(&self, to: &mut fmt::Formatter<'_>) -> fmt::Result {
        self.reply().fmt(to)
    }
}

impl fmt::Debug for OwnedReply {
    fn fmt(&self, to: &mut fmt::Formatter<'_>) -> fmt::Result {
        fmt::Debug::fmt(&self.reply(), to)
    }
}

/// The replies of a segment. They display as a line for each.
#[derive(Debug)]
pub struct Replies {
    pub(crate) behind: u32,
    pub(crate) rows: Owned<Row>,
    pub(crate) values: Owned<i64>,
}

impl Replies {
    pub fn len(&self) -> usize {
        self.rows.len()
    }

    pub fn is_empty(&self) -> bool {
        self.rows.is_empty()
    }

    /// The reply of the transaction with this index in the segment, counted from 0.
    pub fn get(&self, place: usize) -> Option<Reply<'_>> {
        let row = self.rows.get(place)?;
        let first = row.first as usize;
        Some(Reply::of(self.behind + 1 + place as u32, row, &self.values[first..first + row.shown as usize]))
    }

    pub fn iter(&self) -> RepliesIter<'_> {
        RepliesIter { replies: self, places: 0..self.len() }
    }
}

impl PartialEq for Replies {
    fn eq(&self, other: &Replies) -> bool {
        self.iter().eq(other)
    }
}

impl Eq for Replies {}

impl<'a> IntoIterator for &'a Replies {
    type Item = Reply<'a>;
    type IntoIter = RepliesIter<'a>;

    fn into_iter(self) -> RepliesIter<'a> {
        self.iter()
    }
}

/// Replies, in the order of their transactions.
#[derive(Clone, Debug)]
pub struct RepliesIter<'a> {
    replies: &'a Replies,
    places: Range<usize>,
}

impl<'a> Iterator for RepliesIter<'a> {
    type Item = Reply<'a>;

    fn next(&mut self) -> Option<Reply<'a>> {
        self.replies.get(self.places.next()?)
    }

    fn size_hint(&self) -> (usize, Option<usize>) {
        self.places.size_hint()
    }
}

impl DoubleEndedIterator for RepliesIter<'_> {
    fn next_back(&mut self) -> Option<Self::Item> {
        self.replies.get(self.places.next_back()?)
    }
}

impl ExactSizeIterator for RepliesIter<'_> {}

impl FusedIterator for RepliesIter<'_> {}

impl fmt::Display for Replies {
    fn fmt(&self, to: &mut fmt::Formatter<'_>) -> fmt::Result {
        self.iter().try_for_each(|reply| writeln!(to, "{reply}"))
    }
}

impl fmt::Debug for Row {
    fn fmt(&self, to: &mut fmt::Formatter<'_>) -> fmt::Result {
        to.debug_struct("Row")
            .field("outcome", &self.outcome)
            .field("statement", &self.statement)
            .field("shown", &self.shown)
            .finish()
    }
}
