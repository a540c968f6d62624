//! Machines, and the answers of whole logs.

use crate::calls::{Calls, Edition, Procedure};
use crate::error::{done, told, Error};
use crate::keys::{pointers_to, KeyHandle, Owner};
use crate::raw::{self, Entry, Handle};
use crate::replies::{OwnedReply, Replies};
use crate::seed;
use crate::store_rows::{entry_of, StoreRows};
use crate::text::{Owned, Text};
use crate::workers::Threads;
use std::mem::size_of;
use std::sync::Arc;

/// What a machine holds.
#[derive(Clone, Copy, Debug, PartialEq, Eq)]
pub struct Counts {
    /// The least timestamp that can be read.
    pub floor: u32,
    /// The greatest timestamp that can be read, that of the last transaction.
    pub top: u32,
    /// How many versions are kept.
    pub versions: u64,
    /// How many replies are waiting.
    pub waiting: u64,
    /// How many keys take memory, also without a value: [`Machine::compact`] leaves those with one.
    pub names: u64,
    /// About how many bytes the versions and the names take.
    pub bytes: u64,
    /// How many transactions can still run, before timestamps end at 4294967295.
    pub left: u32,
}

/// Runs a whole log, and returns the text of its answer.
pub fn answer(log: impl AsRef<[u8]>) -> Result<Text, Error> {
    let log = log.as_ref();
    let mut out = Text::none();
    // SAFETY: the text has that length.
    let status = unsafe { raw::bohm_answer(&seed::draw(), log.as_ptr(), log.len(), out.0.out()) };
    told(status, &out)?;
    Ok(out)
}

/// A store with its past, from one timestamp, the floor, up to another, the top. Threads may share it to read.
#[derive(Debug)]
pub struct Machine {
    raw: Handle,
    owner: Owner,
    threads: Threads,
}

// SAFETY: `bohm.h` says that a machine may go to another thread.
unsafe impl Send for Machine {}
// SAFETY: by a `&` it is only read, as by a pointer to const, which `bohm.h` lets several threads do at once.
unsafe impl Sync for Machine {}

impl Machine {
    /// Opens a snapshot: the store after the transaction with the timestamp `top`, as text of at most 64 MiB.
    /// [`open_rows`](Machine::open_rows) opens larger ones.
    pub fn open(snapshot: impl AsRef<[u8]>, top: u32) -> Result<Machine, Error> {
        let snapshot = snapshot.as_ref();
        let (mut raw, mut out) = (Handle::closed(), Text::none());
        // SAFETY: the handle is closed, and the text has that length.
        let status =
            unsafe { raw::bohm_open(&mut raw, &seed::draw(), snapshot.as_ptr(), snapshot.len(), top, out.0.out()) };
        told(status, &out)?;
        Ok(Machine { raw, owner: Owner::new(), threads: Threads::none() })
    }

    /// Opens a store of any size, as it is after the transaction with the timestamp `top`. Its keys come in rising order of
    /// their bytes, as those of [`store_rows`](Machine::store_rows) or of a `BTreeMap`; if not, that is an
    /// [`Error::Unsorted`].
    pub fn open_rows<K: AsRef<[u8]>>(rows: impl IntoIterator<Item = (K, i64)>, top: u32) -> Result<Machine, Error> {
        let entries = rows.into_iter().map(|(key, value)| entry_of(key.as_ref(), value)).collect::<Result<Vec<Entry>, _>>()?;
        let mut raw = Handle::closed();
        // SAFETY: the handle is closed, and there are that many entries.
        done(unsafe { raw::bohm_open_rows(&mut raw, &seed::draw(), entries.as_ptr(), entries.len(), top) })?;
        Ok(Machine { raw, owner: Owner::new(), threads: Threads::none() })
    }

    /// The replies of the transactions that just ran, which follow the timestamp `behind`.
    fn handed(&mut self, status: u32, behind: u32) -> Result<Replies, Error> {
        let mut replies = Replies { behind, rows: Owned::none(), values: Owned::none() };
        // SAFETY: the machine is open until it is dropped.
        let handed = unsafe { raw::bohm_rows(&mut self.raw, replies.rows.out(), replies.values.out()) };
        match (handed, status) {
            (raw::DONE, raw::STOPPED) => Err(Error::Stopped(Arc::new(replies))),
            (raw::DONE, _) => Ok(replies),
            _ => Err(Error::Kept),
        }
    }

    /// Runs a segment: the text of a log without a store, of at most 64 MiB. The first reply is that of the timestamp
    /// `top + 1`.
    pub fn apply(&mut self, segment: impl AsRef<[u8]>) -> Result<Replies, Error> {
        let (segment, behind) = (segment.as_ref(), self.top());
        let mut out = Text::none();
        // SAFETY: the machine is open until it is dropped, and the text has that length.
        let status = unsafe { raw::bohm_apply_held(&mut self.raw, segment.as_ptr(), segment.len(), out.0.out()) };
        if status != raw::STOPPED {
            told(status, &out)?;
        }
        self.handed(status, behind)
    }

    /// An empty list of calls for procedures of an edition. It shares the names of the keys that the store had when the
    /// machine was opened: calls on these keys take the least time and memory. The list runs on any machine.
    pub fn calls(&self, edition: Edition) -> Result<Calls, Error> {
        let mut raw = Handle::closed();
        // SAFETY: the machine is open until it is dropped, and the handle is closed.
        done(unsafe { raw::bohm_open_calls_for(&self.raw, &mut raw, edition as u32) })?;
        Ok(Calls::opened(raw))
    }

    /// Runs calls, as `apply` runs the segment of their instances. The list keeps them.
    pub fn run(&mut self, calls: &Calls) -> Result<Replies, Error> {
        let behind = self.top();
        // SAFETY: both are open until they are dropped.
        let status = unsafe { raw::bohm_run_calls_held(&mut self.raw, &calls.raw) };
        if status != raw::STOPPED {
            done(status)?;
        }
        self.handed(status, behind)
    }

    /// Runs calls as `run` does, but with so many workers where these take less time: there are at most 16, the procedures are
    /// long, and the list has at most 4096 calls. One worker is this thread; the others are threads that the machine keeps
    /// until it is dropped.
    pub fn run_calls_on(&mut self, calls: &mut Calls, workers: u32) -> Result<Replies, Error> {
        let behind = self.top();
        // SAFETY: both are open until they are dropped.
        let shared = unsafe { raw::bohm_share_calls(&mut self.raw, &mut calls.raw, workers) };
        if shared == raw::IN_ORDER || shared == raw::NO_MEMORY {
            return self.run(calls);
        }
        done(shared)?;
        self.threads.grow(workers as usize - 1);
        self.threads.work(&mut self.raw);
        // SAFETY: as above.
        let status = unsafe { raw::bohm_finish_calls(&mut self.raw, &mut calls.raw) };
        if status != raw::STOPPED {
            done(status)?;
        }
        self.handed(status, behind)
    }

    /// Runs one call, without a list, as `run` runs a list of it. Several calls in one list cost less each.
    pub fn call<K: AsRef<[u8]>>(&mut self, procedure: &Procedure, keys: &[K], values: &[i64]) -> Result<OwnedReply, Error> {
        let pointers = pointers_to(keys)?;
        let mut reply = OwnedReply::empty();
        // SAFETY: both are open until they are dropped, the arrays have these lengths, and the reply has room for all that
        // a transaction can show.
        done(unsafe {
            raw::bohm_call(
                &mut self.raw, &procedure.raw, pointers.as_ptr(), keys.len(), values.as_ptr(), values.len(),
                &mut reply.row, reply.shown.as_mut_ptr(), reply.shown.len(),
            )
        })?;
        reply.timestamp = self.top();
        Ok(reply)
    }

    /// Makes a handle of a key, by which [`call_named`](Machine::call_named) names the key on this machine, so that a key
    /// that is used again and again is looked up once. Each call makes a new handle.
    pub fn key(&mut self, name: impl AsRef<[u8]>) -> Result<KeyHandle, Error> {
        let (name, mut number) = (name.as_ref(), 0);
        // SAFETY: the machine is open until it is dropped, and the name has that length.
        done(unsafe { raw::bohm_machine_key(&mut self.raw, name.as_ptr(), name.len(), &mut number) })?;
        Ok(KeyHandle { owner: self.owner, number })
    }

    /// Runs one call as [`call`](Machine::call) does, with its keys named by handles of this machine.
    pub fn call_named(&mut self, procedure: &Procedure, keys: &[KeyHandle], values: &[i64]) -> Result<OwnedReply, Error> {
        let numbers = self.owner.numbers_of(keys)?;
        let mut reply = OwnedReply::empty();
        // SAFETY: as above.
        done(unsafe {
            raw::bohm_call_named(
                &mut self.raw, &procedure.raw, numbers.as_ptr(), keys.len(), values.as_ptr(), values.len(),
                &mut reply.row, reply.shown.as_mut_ptr(), reply.shown.len(),
            )
        })?;
        reply.timestamp = self.top();
        Ok(reply)
    }

    /// The replies that wait after an [`Error::Kept`].
    pub fn replies(&mut self) -> Result<Replies, Error> {
        let counts = self.counts();
        self.handed(raw::DONE, counts.top - counts.waiting as u32)
    }

    /// A key's value after the transaction with timestamp `ts`; `None` if it has none.
    pub fn value_at(&self, key: impl AsRef<[u8]>, ts: u32) -> Result<Option<i64>, Error> {
        let key = key.as_ref();
        let (mut present, mut value) = (0, 0);
        // SAFETY: as above.
        done(unsafe { raw::bohm_value_at(&self.raw, key.as_ptr(), key.len(), ts, &mut present, &mut value) })?;
        Ok((present == 1).then_some(value))
    }

    /// The snapshot at a timestamp, as text. If it is no longer than 64 MiB, another machine can be opened on it.
    pub fn store_at(&self, ts: u32) -> Result<Text, Error> {
        let mut out = Text::none();
        // SAFETY: as above.
        done(unsafe { raw::bohm_store_at(&self.raw, ts, out.0.out()) })?;
        Ok(out)
    }

    /// The store at a timestamp, as rows of any number: its keys in rising order, with their values.
    pub fn store_rows(&self, ts: u32) -> Result<StoreRows, Error> {
        let mut rows = Owned::none();
        // SAFETY: as above.
        done(unsafe { raw::bohm_store_rows(&self.raw, ts, rows.out()) })?;
        Ok(StoreRows(rows))
    }

    /// The digest of the store at a timestamp: machines with equal stores have equal digests.
    pub fn digest(&self, ts: u32) -> Result<[u8; 32], Error> {
        let mut digest = [0; 32];
        // SAFETY: as above.
        done(unsafe { raw::bohm_digest(&self.raw, ts, &mut digest) })?;
        Ok(digest)
    }

    /// Drops the past below a timestamp.
    pub fn trim(&mut self, floor: u32) -> Result<(), Error> {
        // SAFETY: as above.
        done(unsafe { raw::bohm_trim(&mut self.raw, floor) })
    }

    /// Drops the past below the top, and gives back the memory of all keys that have no value there, and of names that only
    /// aborted transactions brought. Nothing else changes: the top, its store, waiting replies and handles stay, and later
    /// transactions run as they would have. The time, and the memory that it needs meanwhile, grow with the store.
    pub fn compact(&mut self) -> Result<(), Error> {
        // SAFETY: as above.
        done(unsafe { raw::bohm_compact(&mut self.raw) })
    }

    fn timestamps(&self) -> (u32, u32) {
        let (mut floor, mut top) = (0, 0);
        // SAFETY: as above.
        unsafe { raw::bohm_timestamps(&self.raw, &mut floor, &mut top) };
        (floor, top)
    }

    /// The least timestamp that can be read.
    pub fn floor(&self) -> u32 {
        self.timestamps().0
    }

    /// The greatest timestamp that can be read, that of the last transaction.
    pub fn top(&self) -> u32 {
        self.timestamps().1
    }

    /// What the machine holds.
    pub fn counts(&self) -> Counts {
        let mut raw = raw::Counts::default();
        // SAFETY: as above.
        unsafe { raw::bohm_counts_sized(&self.raw, &mut raw, size_of::<raw::Counts>()) };
        let raw::Counts { floor, top, versions, waiting, names, bytes, left, unused: _ } = raw;
        Counts { floor, top, versions, waiting, names, bytes, left }
    }
}

impl Drop for Machine {
    fn drop(&mut self) {
        // SAFETY: an open machine is closed once.
        unsafe { raw::bohm_close(&mut self.raw) }
    }
}
