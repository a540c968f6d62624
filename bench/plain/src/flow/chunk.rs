//! A parsed and checked window.

use crate::check::check_txns;
use crate::draft::Draft;
use crate::fault::Fault;
use crate::log::{Columns, Log};
use crate::names::{Layered, Name, Names};
use crate::parse::{Parser, bad_line};
use crate::text::Window;
use std::time::{Duration, Instant};

pub struct Chunk {
    /// The thread that numbered the keys that aren't in the store.
    pub thread: usize,
    pub txns: Columns,
    /// The names that the thread first met here, by their numbers.
    pub fresh: Vec<Name>,
    pub lines: usize,
    /// The first fault, with line and transaction counted from the beginning of the window.
    pub fault: Option<Fault>,
}

/// How long a thread spent on each part.
#[derive(Default)]
pub struct Busy {
    pub parse: Duration,
    pub check: Duration,
    pub print: Duration,
}

impl Busy {
    pub fn add(&mut self, other: &Busy) {
        self.parse += other.parse;
        self.check += other.check;
        self.print += other.print;
    }
}

/// A thread's state for reading.
pub struct Reader<'a> {
    thread: usize,
    stored: usize,
    names: Layered<'a>,
    draft: Draft,
    pub busy: Busy,
}

impl<'a> Reader<'a> {
    pub fn new(thread: usize, start: &'a Log) -> Reader<'a> {
        let names = Layered { shared: &start.names, own: Names::new() };
        Reader { thread, stored: start.store.len(), names, draft: Draft::new(), busy: Busy::default() }
    }

    pub fn read(&mut self, text: Window, is_last: bool, mut txns: Columns) -> Chunk {
        txns.clear();
        let (start, known) = (Instant::now(), self.names.own.all().len());
        let parsed = Parser::new(text, 0, &mut self.draft).txns(&mut txns, &mut self.names);
        let fault = match parsed {
            Ok(()) => {
                let parsed = Instant::now();
                // A store that isn't in order is refused for that, whatever this check finds.
                let checked = check_txns(&txns, self.stored, |number| self.names.name(number));
                self.busy.check += parsed.elapsed();
                self.busy.parse += parsed - start;
                checked.err()
            }
            Err(line) => Some(bad_line(text, line, is_last).map_or(Fault::Short, Fault::Line)),
        };
        let fresh = self.names.own.all()[known..].to_vec();
        Chunk { thread: self.thread, lines: txns.lines(), txns, fresh, fault }
    }
}
