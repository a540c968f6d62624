//! The answer, when everything has run.

use crate::fault::Fault;
use crate::log::Log;
use crate::names::{Name, Names};
use crate::print::{BETWEEN, in_order, print_entries};
use crate::run::Cell;
use crate::text;
use crate::times::Times;
use std::thread;

pub struct Answer {
    /// The replies' texts, with the numbers of their windows.
    pub replies: Vec<(usize, Vec<u8>)>,
    /// The names that aren't in the starting store.
    pub others: Names,
    pub cells: Vec<Cell>,
}

/// The least number of store entries that is worth a thread.
const ENTRIES: usize = 1 << 14;

impl Answer {
    pub fn write(mut self, start: Log, threads: usize, times: &mut Times) -> Result<(), Fault> {
        let stored = start.store.len();
        let mut names = start.names.into_all();
        names.extend(self.others.all());
        let store = times.take("end", || print_store(&names, stored, &self.cells, threads));
        self.replies.sort_unstable_by_key(|(number, _)| *number);
        let replies = self.replies.iter().map(|(_, out)| out.as_slice());
        let parts = replies.chain([BETWEEN]).chain(store.iter().map(Vec::as_slice));
        let written = times.take("write", || text::write(parts));
        // The process ends, which frees everything at once.
        std::mem::forget((self, names, store));
        written
    }
}

/// The text of the final store, in parts that are each printed by a thread.
fn print_store(names: &[Name], stored: usize, cells: &[Cell], threads: usize) -> Vec<Vec<u8>> {
    let keys = in_order(names, stored);
    let size = keys.len().div_ceil(threads).max(ENTRIES);
    let print = |keys: &[u32]| {
        let mut out = Vec::with_capacity(16 * keys.len() + 64);
        print_entries(&mut out, keys, names, cells);
        out
    };
    thread::scope(|scope| {
        let (first, others) = keys.split_at(size.min(keys.len()));
        let others: Vec<_> = others.chunks(size).map(|keys| scope.spawn(move || print(keys))).collect();
        let first = print(first);
        let others = others.into_iter().map(|other| other.join().expect("no thread panics"));
        [first].into_iter().chain(others).collect()
    })
}
