//! Page 3: stores that outlive a machine, and what runs.
//!
//! # A store as rows
//!
//! [`Machine::store_rows`] has all keys with their values; [`Machine::open_rows`] opens a machine on them, of any size. What
//! it takes are pairs in rising order of the keys, so also a `BTreeMap`.
//!
//! ```
//! use bohm::{Error, Machine};
//! use std::collections::BTreeMap;
//!
//! # fn main() -> Result<(), Error> {
//! let accounts = BTreeMap::from([("bob", 20), ("alice", 100)]);
//! let mut machine = Machine::open_rows(accounts, 0)?;
//! machine.apply("log 2\ntxn\nreads bob\nwrites bob\ndrop bob\nend\n")?;
//!
//! let store = machine.store_rows(machine.top())?;
//! assert_eq!(store.iter().collect::<Vec<_>>(), [("alice", 100)]);
//! assert_eq!((store.get("alice"), store.get("bob")), (Some(100), None));
//!
//! // Another machine goes on as this one does, with the same timestamps.
//! let second = Machine::open_rows(&store, machine.top())?;
//! assert_eq!(second.digest(second.top())?, machine.digest(machine.top())?);
//! # Ok(())
//! # }
//! ```
//!
//! The same store as text is [`Machine::store_at`], which [`Machine::open`] takes up to 64 MiB.
//!
//! # What lasts
//!
//! A machine is in memory. A program that has to find its store again writes what it runs to a disk before it answers: a
//! segment's text, or of a list of calls its [`Calls::text`], which is that segment. After a crash it opens the last store
//! that it wrote, with its timestamp, and applies the segments behind it: the replies are the same. The program `bohm` reads
//! the store and the segments as one log, and answers alike, so anyone can check them.
//!
//! ```
//! use bohm::{Edition, Error, Machine, Procedure};
//!
//! # fn main() -> Result<(), Error> {
//! let mut machine = Machine::open("log 2\nalice 100\n", 0)?;
//! let spend = Procedure::prepare(
//!     "procedure 2\nkey who\nvalue n\nreads who\nwrites who\nneed who >= $n\nset who = who - $n\nend\n",
//! )?;
//! let mut calls = machine.calls(Edition::Two)?;
//! calls.push(&spend, &["alice"], &[30])?;
//! calls.push(&spend, &["alice"], &[80])?;
//!
//! let written = calls.text()?; // to the disk, before the calls run
//! let replies = machine.run(&calls)?.to_string();
//!
//! let mut recovered = Machine::open("log 2\nalice 100\n", 0)?;
//! assert_eq!(recovered.apply(written)?.to_string(), replies);
//! # Ok(())
//! # }
//! ```
//!
//! # Memory, and other ends
//!
//! Versions take memory until `trim`. A key takes some even when it has no value any more, or never had one because its
//! transactions aborted: [`Machine::compact`] gives that back, and drops the past. [`Machine::counts`] says what is held, and
//! how many timestamps are left of 4294967295: before they end, open the store again with the timestamp 0.
//!
//! ```
//! # use bohm::{Error, Machine};
//! # fn main() -> Result<(), Error> {
//! let mut machine = Machine::open("log 2\na 1\n", 0)?;
//! machine.apply("log 2\ntxn\nreads\nwrites b\nset b = 1\nend\ntxn\nreads b\nwrites b\ndrop b\nend\n")?;
//! assert_eq!(machine.counts().names, 2);
//!
//! machine.compact()?;
//! let counts = machine.counts();
//! assert_eq!((counts.names, counts.floor, counts.top, counts.left), (1, 2, 2, u32::MAX - 2));
//! # Ok(())
//! # }
//! ```
//!
//! [`Calls::text`]: crate::Calls::text
//! [`Machine::compact`]: crate::Machine::compact
//! [`Machine::counts`]: crate::Machine::counts
//! [`Machine::open`]: crate::Machine::open
//! [`Machine::open_rows`]: crate::Machine::open_rows
//! [`Machine::store_at`]: crate::Machine::store_at
//! [`Machine::store_rows`]: crate::Machine::store_rows
