//! A deterministic transaction executor that is proved correct: the functions of `bohm.h`, for Rust.
//!
//! A [`Machine`] is a store of 64-bit integers with its past. A [`Procedure`] is a transaction with parameters. What a call
//! opened is closed when it is dropped, and a call that fails returns an [`Error`]. The [`guide`] has three pages.
//!
//! ```
//! # fn main() -> Result<(), bohm::Error> {
//! let mut machine = bohm::Machine::open("log 2\nalice 100\nbob 20\n", 0)?;
//! let transfer = bohm::Procedure::prepare(
//!     "procedure 2\nkey from\nkey to\nvalue amount\nreads from to\nwrites from to\n\
//!      need $amount > 0\nneed from >= $amount\nset from = from - $amount\nset to = to + $amount\nshow to\nend\n",
//! )?;
//! let reply = machine.call(&transfer, &["alice", "bob"], &[30])?;
//! assert_eq!(reply.to_string(), "1 commit 50");
//! assert_eq!(machine.value_at("alice", machine.top())?, Some(70));
//! # Ok(())
//! # }
//! ```

mod calls;
mod error;
pub mod guide;
mod keys;
mod machine;
mod raw;
mod replies;
mod seed;
mod store_rows;
mod text;
mod workers;

pub use calls::{Calls, Edition, Procedure, Statement};
pub use error::Error;
pub use keys::KeyHandle;
pub use machine::{answer, Counts, Machine};
pub use replies::{OwnedReply, Outcome, Reason, Replies, RepliesIter, Reply};
pub use store_rows::{StoreRows, StoreRowsIter};
pub use text::{sources, version, Text};
