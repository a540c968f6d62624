//! The errors of calls.

use crate::raw;
use crate::replies::Replies;
use crate::text::Text;
use std::fmt;
use std::sync::Arc;

/// Why a call failed. Only after `Stopped` and `Kept` has anything changed.
#[derive(Clone, Debug, PartialEq, Eq)]
#[non_exhaustive]
pub enum Error {
    /// The text was refused. The first line says why, as `refused: line 3`. For a procedure the lines follow that `bohm-check`
    /// has for it: each fault's line, what is wrong, and what to write instead.
    Refused(String),
    /// An allocation failed.
    NoMemory,
    /// The timestamp is below the floor.
    Trimmed,
    /// The timestamp is above the top.
    Future,
    /// The segment has a store.
    HasStore,
    /// The segment's timestamps would pass 4294967295.
    Timestamps,
    /// The snapshot has transactions.
    HasLog,
    /// The bytes are not a key.
    NoKey,
    /// Replies of an earlier segment are waiting: [`Machine::replies`](crate::Machine::replies) returns them.
    Waiting,
    /// An allocation failed part way: whole batches of 4096 transactions ran, with these replies.
    Stopped(Arc<Replies>),
    /// Transactions ran, but their replies could not be allocated: [`Machine::replies`](crate::Machine::replies) returns
    /// them later.
    Kept,
    /// An edition, or a number of arguments or calls, is not acceptable.
    Unfit,
    /// The keys of a store's rows don't rise, each above the one before it.
    Unsorted,
    /// A key's handle belongs to another list or machine.
    OtherOwner,
    /// A status that this crate doesn't know: the library isn't the one that its header describes.
    Unknown(u32),
}

impl fmt::Display for Error {
    fn fmt(&self, to: &mut fmt::Formatter<'_>) -> fmt::Result {
        match self {
            Error::Refused(report) => to.write_str(report),
            Error::NoMemory => to.write_str("an allocation failed"),
            Error::Trimmed => to.write_str("the timestamp is below the floor"),
            Error::Future => to.write_str("the timestamp is above the top"),
            Error::HasStore => to.write_str("the segment has a store"),
            Error::Timestamps => to.write_str("the segment's timestamps would pass 4294967295"),
            Error::HasLog => to.write_str("the snapshot has transactions"),
            Error::NoKey => to.write_str("the bytes are not a key"),
            Error::Waiting => to.write_str("replies of an earlier segment were not taken yet"),
            Error::Stopped(_) => to.write_str("an allocation failed after part of the segment had run"),
            Error::Kept => to.write_str("the replies could not be allocated: take them later"),
            Error::Unfit => to.write_str("an edition, or a number of arguments or calls, is not acceptable"),
            Error::Unsorted => to.write_str("the keys are not in rising order"),
            Error::OtherOwner => to.write_str("the key's handle belongs to another list or machine"),
            Error::Unknown(status) => write!(to, "status {status}"),
        }
    }
}

impl std::error::Error for Error {}

/// The result of a status; `out` has the line of a refusal, or the report on it.
pub(crate) fn told(status: u32, out: &Text) -> Result<(), Error> {
    Err(match status {
        raw::DONE => return Ok(()),
        raw::REFUSED => Error::Refused(String::from_utf8_lossy(out).trim_end().to_owned()),
        raw::NO_MEMORY => Error::NoMemory,
        raw::TRIMMED => Error::Trimmed,
        raw::FUTURE => Error::Future,
        raw::HAS_STORE => Error::HasStore,
        raw::TIMESTAMPS => Error::Timestamps,
        raw::HAS_LOG => Error::HasLog,
        raw::NO_KEY => Error::NoKey,
        raw::WAITING => Error::Waiting,
        raw::UNFIT => Error::Unfit,
        raw::UNSORTED => Error::Unsorted,
        other => Error::Unknown(other),
    })
}

/// The result of a status, for a call that returns no bytes.
pub(crate) fn done(status: u32) -> Result<(), Error> {
    told(status, &Text::none())
}
