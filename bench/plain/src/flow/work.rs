//! The threads' shared state, and the work of each of them.

use super::chunk::{Busy, Reader};
use super::input::{Input, Piece};
use super::order::{Done, Queue, Runner};
use crate::log::{Columns, Log};
use crate::print::print_replies;
use crate::text::{Buffer, Text};
use std::sync::atomic::AtomicBool;
use std::sync::atomic::Ordering::Relaxed;
use std::sync::{Mutex, MutexGuard};
use std::thread;
use std::time::Instant;

/// How many windows ahead of the run, for each thread, may be read.
const AHEAD: usize = 4;

pub struct Shared<'a> {
    start: &'a Log,
    threads: usize,
    input: Mutex<Input>,
    /// The chunks that have been read but not run.
    queue: Mutex<Queue>,
    runner: Mutex<Runner<'a>>,
    /// The chunks that have been run but not printed.
    done: Mutex<Vec<Done>>,
    /// The printed replies, with their windows' numbers.
    printed: Mutex<Vec<(usize, Vec<u8>)>>,
    /// Columns for reuse.
    spare: Mutex<Vec<Columns>>,
    /// Whether a bad line was found with no other before it.
    is_refused: AtomicBool,
}

/// A lock is never poisoned: a panic ends the process.
fn lock<T>(mutex: &Mutex<T>) -> MutexGuard<'_, T> {
    mutex.lock().expect("no thread panics")
}

fn into_inner<T>(mutex: Mutex<T>) -> T {
    mutex.into_inner().expect("no thread panics")
}

impl<'a> Shared<'a> {
    /// The text begins with the first transaction.
    pub fn new(threads: usize, text: Text, start: &'a Log) -> Shared<'a> {
        Shared {
            start,
            threads,
            input: Mutex::new(Input::new(text)),
            queue: Mutex::default(),
            runner: Mutex::new(Runner::new(start, threads)),
            done: Mutex::default(),
            printed: Mutex::default(),
            spare: Mutex::default(),
            is_refused: AtomicBool::new(false),
        }
    }

    /// Processes all windows on the given number of threads; on one if there is only one window.
    pub fn work_all(&self) -> Busy {
        let mut buffer = Buffer::default();
        let first = self.next(&mut buffer);
        let threads = if lock(&self.input).has_ended() { 1 } else { self.threads };
        thread::scope(|scope| {
            let others: Vec<_> = (1..threads)
                .map(|thread| scope.spawn(move || self.work(thread, None, Buffer::default())))
                .collect();
            let mut busy = self.work(0, first, buffer);
            for other in others {
                busy.add(&other.join().expect("no thread panics"));
            }
            busy
        })
    }

    /// The input, the run, and the replies' texts with the numbers of their windows.
    pub fn end(self) -> (Input, Runner<'a>, Vec<(usize, Vec<u8>)>) {
        // Columns are freed when the process ends, all at once.
        std::mem::forget(self.spare);
        (into_inner(self.input), into_inner(self.runner), into_inner(self.printed))
    }

    fn next(&self, buffer: &mut Buffer) -> Option<Piece> {
        let mut input = lock(&self.input);
        if self.is_refused.load(Relaxed) {
            // The text may be too long, which is reported first.
            input.drain();
        }
        input.next(buffer)
    }

    /// Processes windows until there are no more, beginning with the one already taken.
    fn work(&self, thread: usize, first: Option<Piece>, mut buffer: Buffer) -> Busy {
        let mut reader = Reader::new(thread, self.start);
        let mut piece = first.or_else(|| self.next(&mut buffer));
        while let Some(Piece { number, is_last }) = piece {
            let columns = lock(&self.spare).pop().unwrap_or_else(Columns::new);
            let chunk = reader.read(buffer.window(), is_last, columns);
            let waiting = lock(&self.queue).put(number, chunk);
            // A thread that is far ahead waits for the run, so that memory stays bounded.
            let is_far = waiting > AHEAD * self.threads;
            let runner = if is_far { Some(lock(&self.runner)) } else { self.runner.try_lock().ok() };
            if let Some(mut runner) = runner {
                self.run_ready(&mut runner);
            }
            self.print_done(&mut reader.busy);
            piece = self.next(&mut buffer);
        }
        self.run_ready(&mut lock(&self.runner));
        self.print_done(&mut reader.busy);
        reader.busy
    }

    fn run_ready(&self, runner: &mut Runner) {
        loop {
            let ready = lock(&self.queue).take();
            let Some((number, chunk)) = ready else { return };
            if let Some(done) = runner.run(number, chunk) {
                lock(&self.done).push(done);
            } else if runner.bad_line.is_some() {
                self.is_refused.store(true, Relaxed);
            }
        }
    }

    fn print_done(&self, busy: &mut Busy) {
        loop {
            let done = lock(&self.done).pop();
            let Some(Done { number, before, txns, replies, shows }) = done else { return };
            let start = Instant::now();
            let mut out = Vec::with_capacity(20 * replies.len() + 8 * shows.len() + 64);
            print_replies(&mut out, &txns, before, &replies, &shows);
            lock(&self.printed).push((number, out));
            lock(&self.spare).push(txns);
            busy.print += start.elapsed();
        }
    }
}
