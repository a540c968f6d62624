//! Page 2: procedures, calls, and lists of calls.
//!
//! # A call
//!
//! A [`Procedure`] is a transaction with parameters, which is read and checked once. Its keys come before its values. In
//! edition 2 a statement sees what the statements before it wrote, so a transfer from an account to itself changes nothing;
//! in edition 1 it would make money.
//!
//! ```
//! use bohm::{Error, Machine, Outcome, Procedure, Reason};
//!
//! const TRANSFER: &str = "\
//! procedure 2
//! key from
//! key to
//! value amount
//! reads from to
//! writes from to
//! need $amount > 0
//! need from >= $amount
//! set from = from - $amount
//! set to = to + $amount
//! show from
//! show to
//! end
//! ";
//!
//! # fn main() -> Result<(), Error> {
//! let mut machine = Machine::open("log 2\nalice 100\nbob 20\n", 0)?;
//! let transfer = Procedure::prepare(TRANSFER)?;
//!
//! let reply = machine.call(&transfer, &["alice", "bob"], &[30])?;
//! assert_eq!(reply.shows(), [70, 50]);
//!
//! let reply = machine.call(&transfer, &["alice", "alice"], &[30])?;
//! assert_eq!(reply.shows(), [70, 70]);
//!
//! // The statement's number counts the `let` of the value first. The procedure has its line and text.
//! let reply = machine.call(&transfer, &["alice", "bob"], &[71])?;
//! let Outcome::Abort { reason: Reason::Need, statement } = reply.reply().outcome else { panic!("{reply}") };
//! let failed = transfer.statement(statement)?.expect("a statement");
//! assert_eq!(format!("{reply}: {failed}"), "3 abort need 3: need from >= $amount");
//! assert_eq!(failed.line, 8);
//! # Ok(())
//! # }
//! ```
//!
//! # A refusal
//!
//! [`Error::Refused`] has what `bohm-check` says of a faulty procedure: the line that says why it is refused, and then each
//! fault with its line, and what to write instead.
//!
//! ```
//! use bohm::{Error, Procedure};
//!
//! let Err(Error::Refused(report)) = Procedure::prepare("procedure 2\nkey k\nreads k\nwrites k\nset k += 1\nend\n") else {
//!     panic!("it is accepted");
//! };
//! let lines: Vec<_> = report.lines().collect();
//! assert_eq!(lines[..3], ["refused: line 5", "line 5:", "    set k += 1"]);
//! assert_eq!(lines.last(), Some(&"help: set k = k + 1"));
//! ```
//!
//! A call with a wrong number of arguments is [`Error::Unfit`], one with bytes that are no key [`Error::NoKey`]; neither
//! runs.
//!
//! # Handles
//!
//! A key that is used again and again is looked up once: its [`KeyHandle`] then names it.
//!
//! ```
//! # use bohm::{Error, Machine, Procedure};
//! # fn main() -> Result<(), Error> {
//! let mut machine = Machine::open("log 2\nvisits 0\n", 0)?;
//! let count = Procedure::prepare("procedure 2\nkey k\nreads k\nwrites k\nset k = k + 1\nshow k\nend\n")?;
//! let visits = machine.key("visits")?;
//! for _ in 0..1000 {
//!     machine.call_named(&count, &[visits], &[])?;
//! }
//! assert_eq!(machine.value_at("visits", machine.top())?, Some(1000));
//! # Ok(())
//! # }
//! ```
//!
//! # Lists of calls
//!
//! Where calls come in numbers, a list of them costs less for each: [`Machine::run`] runs it as one segment. The list keeps
//! its calls until it is cleared, and its memory until it is dropped. Its handles are its own.
//!
//! ```
//! use bohm::{Edition, Error, Machine, Procedure};
//!
//! # fn main() -> Result<(), Error> {
//! let mut machine = Machine::open("log 2\na 0\nb 0\n", 0)?;
//! let add = Procedure::prepare("procedure 2\nkey k\nvalue n\nreads k\nwrites k\nset k = k + $n\nshow k\nend\n")?;
//! let mut calls = machine.calls(Edition::Two)?;
//! let a = calls.key("a")?;
//! for round in 0..3 {
//!     calls.clear();
//!     calls.push_named(&add, &[a], &[round])?;
//!     calls.push(&add, &["b"], &[10])?;
//!     let replies = machine.run(&calls)?;
//!     assert_eq!(replies.len(), 2);
//!     assert!(replies.iter().all(|reply| reply.is_commit()));
//! }
//! assert_eq!((machine.value_at("a", 6)?, machine.value_at("b", 6)?), (Some(3), Some(30)));
//! # Ok(())
//! # }
//! ```
//!
//! Next page: [`stores`](super::stores).
//!
//! [`Error::NoKey`]: crate::Error::NoKey
//! [`Error::Refused`]: crate::Error::Refused
//! [`Error::Unfit`]: crate::Error::Unfit
//! [`KeyHandle`]: crate::KeyHandle
//! [`Machine::run`]: crate::Machine::run
//! [`Procedure`]: crate::Procedure
