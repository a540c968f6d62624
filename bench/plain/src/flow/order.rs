//! The work in log order: running, and finding the first fault.

use super::chunk::Chunk;
use crate::check::{MOST_TXNS, check_store};
use crate::fault::{Fault, Kind};
use crate::log::{Columns, Log};
use crate::names::{Names, Numbers};
use crate::run::{Cell, Reply, run_all, starting_cells};
use std::collections::VecDeque;
use std::time::{Duration, Instant};

/// Chunks that wait for those before them.
#[derive(Default)]
pub struct Queue {
    /// The number of the next chunk to be taken.
    next: usize,
    chunks: VecDeque<Option<Chunk>>,
}

impl Queue {
    /// Stores a chunk by its number; returns how many slots there are.
    pub fn put(&mut self, number: usize, chunk: Chunk) -> usize {
        let place = number - self.next;
        if self.chunks.len() <= place {
            self.chunks.resize_with(place + 1, || None);
        }
        self.chunks[place] = Some(chunk);
        self.chunks.len()
    }

    /// The next chunk and its number, if it has been read.
    pub fn take(&mut self) -> Option<(usize, Chunk)> {
        let chunk = self.chunks.front_mut()?.take()?;
        self.chunks.pop_front();
        self.next += 1;
        Some((self.next - 1, chunk))
    }
}

/// A chunk that was run.
pub struct Done {
    pub number: usize,
    /// How many transactions precede it.
    pub before: usize,
    pub txns: Columns,
    pub replies: Vec<Reply>,
    pub shows: Vec<i64>,
}

pub struct Runner<'a> {
    start: &'a Log,
    /// The names that aren't in the store, numbered after those that are.
    others: Names,
    /// For each thread, the numbers that its own key numbers are mapped to.
    numbers: Vec<Vec<u32>>,
    cells: Vec<Cell>,
    txns: usize,
    lines: usize,
    store: Result<(), Fault>,
    /// The first fault of a transaction.
    check: Option<Fault>,
    pub bad_line: Option<Fault>,
    pub busy: Duration,
}

impl<'a> Runner<'a> {
    pub fn new(start: &'a Log, threads: usize) -> Runner<'a> {
        Runner {
            start,
            others: Names::new(),
            numbers: vec![Vec::new(); threads],
            cells: starting_cells(start),
            txns: 0,
            lines: start.lines(),
            store: check_store(start),
            check: None,
            bad_line: None,
            busy: Duration::ZERO,
        }
    }

    /// Runs the next chunk, if there is no fault up to its end.
    pub fn run(&mut self, number: usize, chunk: Chunk) -> Option<Done> {
        let (start, before) = (Instant::now(), self.txns);
        self.note(&chunk);
        if self.verdict().is_err() {
            return None;
        }
        let Chunk { thread, txns, fresh, .. } = chunk;
        let stored = self.start.store.len();
        let (others, own) = (&mut self.others, &mut self.numbers[thread]);
        own.extend(fresh.iter().map(|name| stored as u32 + others.number(name)));
        self.cells.resize(stored + others.all().len(), Cell::default());
        let number_of = |key: u32| (key as usize).checked_sub(stored).map_or(key, |place| own[place]);
        let mut shows = vec![0; txns.shows(txns.len())];
        let replies = run_all(&txns, self.start.sees_writes(), &mut self.cells, &mut shows, number_of);
        self.busy += start.elapsed();
        Some(Done { number, before, txns, replies, shows })
    }

    /// Counts the chunk, and keeps its fault if it is the first one of its kind.
    fn note(&mut self, chunk: &Chunk) {
        let place = chunk.fault.map(|fault| fault.behind(self.lines, self.txns));
        match place {
            Some(fault @ Fault::Check(..)) => self.check = self.check.or(Some(fault)),
            Some(fault) => self.bad_line = self.bad_line.or(Some(fault)),
            None => {}
        }
        self.txns += chunk.txns.len();
        self.lines += chunk.lines;
    }

    /// Whether the text so far is a log. A bad line takes precedence over all faults of the check.
    pub fn verdict(&self) -> Result<(), Fault> {
        self.bad_line.map_or(Ok(()), Err)?;
        self.store?;
        if self.txns > MOST_TXNS {
            return Err(Fault::Check(Kind::Limit, 0, 0));
        }
        self.check.map_or(Ok(()), Err)
    }

    /// The names that aren't in the store, and the cells of all keys.
    pub fn end(self) -> (Names, Vec<Cell>) {
        (self.others, self.cells)
    }
}
