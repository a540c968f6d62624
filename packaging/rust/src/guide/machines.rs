//! Page 1: a machine, its replies and its past.
//!
//! # Opening
//!
//! A [`Machine`] begins with a snapshot: a line with an edition, and a line for each key with its value, in rising order of
//! the keys. Keys are 1 to 32 lower-case letters, digits and underscores, the first of them a letter; values are 64-bit
//! integers with a sign. The second argument is the timestamp of the last transaction that the store includes, 0 for a new
//! store.
//!
//! ```
//! use bohm::{Error, Machine};
//!
//! # fn main() -> Result<(), Error> {
//! let machine = Machine::open("log 2\nalice 100\nbob 20\n", 0)?;
//! assert_eq!(machine.value_at("bob", 0)?, Some(20));
//! assert_eq!(machine.value_at("carol", 0)?, None);
//!
//! let refused = Machine::open("log 2\nbob 20\nalice 100\n", 0);
//! assert_eq!(refused.err(), Some(Error::Refused("refused: check order 0 0".to_owned())));
//! # Ok(())
//! # }
//! ```
//!
//! # Applying a segment
//!
//! A segment is the text of a log without a store. `apply` runs it as a whole, or refuses it as a whole. Its transactions
//! have the next timestamps, and each has a [`Reply`]: it committed, and shows values, or it aborted at a statement, and
//! changed nothing.
//!
//! ```
//! use bohm::{Error, Machine, Outcome, Reason};
//!
//! # fn main() -> Result<(), Error> {
//! let mut machine = Machine::open("log 2\nalice 100\nbob 20\n", 0)?;
//! let replies = machine.apply(
//!     "log 2\n\
//!      txn\nreads alice\nwrites alice\nset alice = alice - 30\nshow alice\nend\n\
//!      txn\nreads bob\nwrites\nneed bob >= 21\nend\n",
//! )?;
//! for reply in &replies {
//!     match reply.outcome {
//!         Outcome::Commit { shows } => assert_eq!((reply.timestamp, shows), (1, &[70][..])),
//!         Outcome::Abort { reason, statement } => assert_eq!((reason, statement), (Reason::Need, 1)),
//!     }
//! }
//! assert_eq!(replies.to_string(), "1 commit 70\n2 abort need 1\n");
//! # Ok(())
//! # }
//! ```
//!
//! # The past
//!
//! Every store from the timestamp `floor` to the timestamp `top` can be read. `trim` raises the floor, and frees the
//! versions below it. Machines with equal stores have equal digests.
//!
//! ```
//! # fn main() -> Result<(), bohm::Error> {
//! # let mut machine = bohm::Machine::open("log 2\nalice 100\n", 0)?;
//! # machine.apply("log 2\ntxn\nreads alice\nwrites alice\nset alice = alice - 30\nend\n")?;
//! assert_eq!((machine.floor(), machine.top()), (0, 1));
//! assert_eq!((machine.value_at("alice", 0)?, machine.value_at("alice", 1)?), (Some(100), Some(70)));
//!
//! machine.trim(1)?;
//! assert_eq!(machine.value_at("alice", 0), Err(bohm::Error::Trimmed));
//!
//! let same = bohm::Machine::open("log 1\nalice 70\n", 1)?;
//! assert_eq!(machine.digest(1)?, same.digest(1)?);
//! # Ok(())
//! # }
//! ```
//!
//! # Threads
//!
//! Threads may read a machine at once; what changes it takes `&mut`. So a lock of readers and a writer serves a machine that
//! several threads use:
//!
//! ```
//! use std::sync::RwLock;
//!
//! # fn main() -> Result<(), bohm::Error> {
//! let shared = RwLock::new(bohm::Machine::open("log 2\nalice 100\n", 0)?);
//! std::thread::scope(|threads| {
//!     for _ in 0..2 {
//!         threads.spawn(|| {
//!             let machine = shared.read().unwrap();
//!             machine.value_at("alice", machine.top())
//!         });
//!     }
//! });
//! # Ok(())
//! # }
//! ```
//!
//! # Errors
//!
//! After an [`Error`] nothing has changed, but for two, which need a failed allocation: [`Stopped`](crate::Error::Stopped)
//! has the replies of the whole batches of 4096 transactions that ran, and after [`Kept`](crate::Error::Kept) the replies
//! wait for [`Machine::replies`].
//!
//! Next page: [`procedures`](super::procedures).
//!
//! [`Error`]: crate::Error
//! [`Machine`]: crate::Machine
//! [`Machine::replies`]: crate::Machine::replies
//! [`Reply`]: crate::Reply
