//! Threads that run the calls of a list together.

use crate::raw::{self, Handle};
use std::sync::{Arc, Condvar, Mutex, MutexGuard, PoisonError};
use std::thread::{Builder, JoinHandle};

/// A worker of shared calls.
#[derive(Debug)]
struct Worker(Handle);

// SAFETY: `bohm.h` says that a worker may go to another thread.
unsafe impl Send for Worker {}

impl Worker {
    /// Runs its share of the calls.
    fn work(mut self) {
        // SAFETY: the worker is open, and only here.
        unsafe { raw::bohm_work(&mut self.0) };
    }
}

impl Drop for Worker {
    fn drop(&mut self) {
        // SAFETY: it is closed once; after its work it is closed already.
        unsafe { raw::bohm_close_worker(&mut self.0) }
    }
}

#[derive(Debug, Default)]
struct State {
    /// Those that no thread has taken.
    workers: Vec<Worker>,
    /// How many threads are working.
    working: usize,
    stops: bool,
}

#[derive(Debug, Default)]
struct Board {
    state: Mutex<State>,
    begins: Condvar,
    ends: Condvar,
}

impl Board {
    fn state(&self) -> MutexGuard<'_, State> {
        self.state.lock().unwrap_or_else(PoisonError::into_inner)
    }

    /// Takes workers, one after another, and does their work, until none is left.
    fn take_workers<'a>(&'a self, mut state: MutexGuard<'a, State>) -> MutexGuard<'a, State> {
        state.working += 1;
        while let Some(worker) = state.workers.pop() {
            drop(state);
            worker.work();
            state = self.state();
        }
        state.working -= 1;
        state
    }

    /// What a thread does until it is stopped.
    fn serve(&self) {
        let mut state = self.state();
        while !state.stops {
            if state.workers.is_empty() {
                state = self.begins.wait(state).unwrap_or_else(PoisonError::into_inner);
                continue;
            }
            state = self.take_workers(state);
            if state.working == 0 {
                self.ends.notify_one();
            }
        }
    }
}

/// Threads that wait for workers. They end when this is dropped.
#[derive(Debug)]
pub(crate) struct Threads {
    board: Arc<Board>,
    threads: Vec<JoinHandle<()>>,
}

impl Threads {
    /// No threads.
    pub(crate) fn none() -> Threads {
        Threads { board: Arc::new(Board::default()), threads: Vec::new() }
    }

    /// Starts threads until there are so many, or as many as the system starts.
    pub(crate) fn grow(&mut self, count: usize) {
        while self.threads.len() < count {
            let board = Arc::clone(&self.board);
            match Builder::new().name("bohm".to_owned()).spawn(move || board.serve()) {
                Ok(thread) => self.threads.push(thread),
                Err(_) => return,
            }
        }
    }

    /// Has the workers of a shared machine work, on these threads and on this one, and returns when all of them have.
    pub(crate) fn work(&self, machine: &mut Handle) {
        let mut opened = Vec::new();
        loop {
            let mut worker = Handle::closed();
            // SAFETY: the machine is open until it is dropped, and the worker is closed. What has no worker is run at the end.
            if unsafe { raw::bohm_open_worker(machine, &mut worker) } != raw::DONE {
                break;
            }
            opened.push(Worker(worker));
        }
        let mut state = self.board.state();
        state.workers = opened;
        self.board.begins.notify_all();
        state = self.board.take_workers(state);
        while state.working > 0 {
            state = self.board.ends.wait(state).unwrap_or_else(PoisonError::into_inner);
        }
    }
}

impl Drop for Threads {
    fn drop(&mut self) {
        self.board.state().stops = true;
        self.board.begins.notify_all();
        for thread in self.threads.drain(..) {
            let _ended = thread.join();
        }
    }
}
