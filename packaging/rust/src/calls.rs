//! Procedures, and lists of calls of them.

use crate::error::{done, told, Error};
use crate::keys::{pointers_to, KeyHandle, Owner};
use crate::raw::{self, Handle};
use crate::seed;
use crate::text::Text;
use std::fmt;

/// The edition of a procedure, and of the log that its calls represent.
#[derive(Clone, Copy, Debug, PartialEq, Eq, Hash)]
pub enum Edition {
    One = 1,
    Two = 2,
}

/// A transaction with parameters, read and checked once.
#[derive(Debug)]
pub struct Procedure {
    pub(crate) raw: Handle,
}

// SAFETY: `bohm.h` says that a procedure may go to another thread.
unsafe impl Send for Procedure {}
// SAFETY: it only changes when it is dropped, and `bohm.h` says that threads may then use it at once.
unsafe impl Sync for Procedure {}

impl Procedure {
    /// Reads and checks a procedure. [`Error::Refused`] has the report on a faulty one. The statement number of its first line
    /// counts the `let`s of the values; its other lines count from the first statement of the text.
    pub fn prepare(text: impl AsRef<[u8]>) -> Result<Procedure, Error> {
        let text = text.as_ref();
        let (mut raw, mut out) = (Handle::closed(), Text::none());
        // SAFETY: the handle is closed, and the text has that length.
        let status = unsafe { raw::bohm_prepare_report(&mut raw, &seed::draw(), text.as_ptr(), text.len(), out.0.out()) };
        told(status, &out)?;
        Ok(Procedure { raw })
    }

    /// The statement that a reply names by its number, from 1 on. The first numbers are those of the values' `let`s, whose lines
    /// are the values'. `None` if there is no such statement.
    pub fn statement(&self, number: u32) -> Result<Option<Statement>, Error> {
        let (mut line, mut text) = (0, Text::none());
        // SAFETY: the procedure is open until it is dropped.
        match done(unsafe { raw::bohm_statement_text(&self.raw, number, &mut line, text.0.out()) }) {
            Ok(()) => Ok(Some(Statement { line, text })),
            Err(Error::Unfit) => Ok(None),
            Err(error) => Err(error),
        }
    }
}

/// A statement of a procedure. It is displayed as its text.
#[derive(Debug)]
pub struct Statement {
    /// The number of its line in the procedure's text, counted from 1.
    pub line: usize,
    /// That line.
    pub text: Text,
}

impl fmt::Display for Statement {
    fn fmt(&self, to: &mut fmt::Formatter<'_>) -> fmt::Result {
        to.write_str(self.text.as_str())
    }
}

impl Drop for Procedure {
    fn drop(&mut self) {
        // SAFETY: an open procedure is closed once.
        unsafe { raw::bohm_close_procedure(&mut self.raw) }
    }
}

/// A list of calls of procedures, which [`Machine::run`](crate::Machine::run) runs as a segment.
#[derive(Debug)]
pub struct Calls {
    pub(crate) raw: Handle,
    owner: Owner,
    len: usize,
}

// SAFETY: `bohm.h` says that a list may go to another thread.
unsafe impl Send for Calls {}
// SAFETY: by a `&` it is only read, as by a pointer to const, which `bohm.h` lets several threads do at once.
unsafe impl Sync for Calls {}

impl Calls {
    /// An empty list for procedures of an edition. [`Machine::calls`](crate::Machine::calls) makes a list whose calls cost less.
    pub fn new(edition: Edition) -> Result<Calls, Error> {
        let mut raw = Handle::closed();
        // SAFETY: the handle is closed.
        done(unsafe { raw::bohm_open_calls(&mut raw, &seed::draw(), edition as u32) })?;
        Ok(Calls::opened(raw))
    }

    /// An empty list, from an open handle.
    pub(crate) fn opened(raw: Handle) -> Calls {
        Calls { raw, owner: Owner::new(), len: 0 }
    }

    /// Makes a handle of a key, by which [`push_named`](Calls::push_named) names the key in this list, so that a key
    /// that is used again and again is looked up once. Each call makes a new handle, which survives `clear`.
    pub fn key(&mut self, name: impl AsRef<[u8]>) -> Result<KeyHandle, Error> {
        let (name, mut number) = (name.as_ref(), 0);
        // SAFETY: the list is open until it is dropped, and the name has that length.
        done(unsafe { raw::bohm_key_handle(&mut self.raw, name.as_ptr(), name.len(), &mut number) })?;
        Ok(KeyHandle { owner: self.owner, number })
    }

    /// Appends a call with these arguments, in the order of the parameters. After an error the list is unchanged.
    pub fn push<K: AsRef<[u8]>>(&mut self, procedure: &Procedure, keys: &[K], values: &[i64]) -> Result<(), Error> {
        let pointers = pointers_to(keys)?;
        // SAFETY: both are open until they are dropped, and the arrays have these lengths.
        done(unsafe {
            raw::bohm_push(&mut self.raw, &procedure.raw, pointers.as_ptr(), keys.len(), values.as_ptr(), values.len())
        })?;
        self.len += 1;
        Ok(())
    }

    /// Appends a call as [`push`](Calls::push) does, with its keys named by handles of this list.
    pub fn push_named(&mut self, procedure: &Procedure, keys: &[KeyHandle], values: &[i64]) -> Result<(), Error> {
        let numbers = self.owner.numbers_of(keys)?;
        // SAFETY: both are open until they are dropped, and the arrays have these lengths.
        done(unsafe {
            raw::bohm_push_named(
                &mut self.raw, &procedure.raw, numbers.as_ptr(), keys.len(), values.as_ptr(), values.len(),
            )
        })?;
        self.len += 1;
        Ok(())
    }

    /// The text of the log that the calls are, without a store: what [`Machine::apply`](crate::Machine::apply) would run
    /// instead, and what a program that audits reads.
    pub fn text(&self) -> Result<Text, Error> {
        let mut out = Text::none();
        // SAFETY: the list is open until it is dropped.
        done(unsafe { raw::bohm_calls_text(&self.raw, out.0.out()) })?;
        Ok(out)
    }

    pub fn len(&self) -> usize {
        self.len
    }

    pub fn is_empty(&self) -> bool {
        self.len == 0
    }

    /// Removes all calls. Their memory is kept for later calls, and handles stay valid.
    pub fn clear(&mut self) {
        // SAFETY: the list is open until it is dropped.
        unsafe { raw::bohm_clear_calls(&mut self.raw) };
        self.len = 0;
    }
}

impl Drop for Calls {
    fn drop(&mut self) {
        // SAFETY: an open list is closed once.
        unsafe { raw::bohm_close_calls(&mut self.raw) }
    }
}
