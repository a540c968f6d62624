//! The text after the store, cut into windows of whole transactions.

use crate::fault::Fault;
use crate::text::{Buffer, Text};
use std::time::Duration;

/// A window that was given to a thread.
pub struct Piece {
    /// Its number, from 0.
    pub number: usize,
    /// Whether the text ends with it.
    pub is_last: bool,
}

pub struct Input {
    text: Text,
    next: usize,
    has_ended: bool,
    /// Why reading the text ended before its end.
    fault: Option<Fault>,
}

impl Input {
    /// The rest of the text, from the beginning of its window.
    pub fn new(text: Text) -> Input {
        Input { text, next: 0, has_ended: false, fault: None }
    }

    /// Whether all windows were taken.
    pub fn has_ended(&self) -> bool {
        self.has_ended
    }

    /// The next window, if there is one.
    pub fn next(&mut self, buffer: &mut Buffer) -> Option<Piece> {
        while !self.has_ended {
            let is_full = self.text.fill().unwrap_or_else(|fault| self.refuse(fault));
            let bytes = self.text.window().bytes();
            self.has_ended = !is_full;
            let cut = if is_full { last_txn(bytes) } else { Some(bytes.len()) };
            match cut {
                Some(0) => return None,
                Some(_) if self.fault.is_some() => return None,
                Some(at) => {
                    self.text.hand_over(at, buffer);
                    self.next += 1;
                    return Some(Piece { number: self.next - 1, is_last: self.has_ended });
                }
                None => self.text.grow(),
            }
        }
        None
    }

    /// Notes the fault: no more windows follow.
    fn refuse(&mut self, fault: Fault) -> bool {
        self.fault = Some(fault);
        false
    }

    /// Reads the rest of the text and ignores it.
    pub fn drain(&mut self) {
        while !self.has_ended {
            match self.text.read_on(self.text.window().len()) {
                Ok(0) => self.has_ended = true,
                Ok(_) => {}
                Err(fault) => {
                    self.fault = Some(fault);
                    self.has_ended = true;
                }
            }
        }
    }

    /// How long reading took, if the text was read to its end.
    pub fn end(self) -> Result<Duration, Fault> {
        self.fault.map_or(Ok(self.text.reading), Err)
    }
}

/// Where the last transaction begins, unless it is the first. A line `txn` begins one, or is bad.
fn last_txn(bytes: &[u8]) -> Option<usize> {
    bytes.windows(5).rposition(|five| five == b"\ntxn\n").map(|at| at + 1)
}
