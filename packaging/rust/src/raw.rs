//! The declarations of `bohm.h`.

use std::os::raw::c_void;

#[repr(C)]
pub struct Array<T> {
    pub at: *mut T,
    pub len: usize,
}

impl<T> Array<T> {
    pub const fn none() -> Array<T> {
        Array { at: std::ptr::null_mut(), len: 0 }
    }
}

/// A machine, a procedure, a list of calls or a worker: null if it is closed.
#[repr(C)]
#[derive(Debug)]
pub struct Handle {
    pub at: *mut c_void,
}

impl Handle {
    pub const fn closed() -> Handle {
        Handle { at: std::ptr::null_mut() }
    }
}

#[repr(C)]
#[derive(Clone, Copy)]
pub struct Key {
    pub at: *const u8,
    pub len: usize,
}

#[repr(C)]
#[derive(Clone, Copy, Default)]
pub struct Row {
    pub outcome: u32,
    pub statement: u32,
    pub first: u64,
    pub shown: u64,
}

/// The most values that a reply shows.
pub const MOST_SHOWN: usize = 16;

/// The most bytes of a key.
pub const LONGEST_KEY: usize = 32;

/// A key, which zeros fill up, and its value.
#[repr(C)]
#[derive(Clone, Copy, PartialEq, Eq)]
pub struct Entry {
    pub key: [u8; LONGEST_KEY],
    pub value: i64,
}

#[repr(C)]
#[derive(Default)]
pub struct Counts {
    pub floor: u32,
    pub top: u32,
    pub versions: u64,
    pub waiting: u64,
    pub names: u64,
    pub bytes: u64,
    pub left: u32,
    pub unused: u32,
}

pub const DONE: u32 = 0;
pub const REFUSED: u32 = 1;
pub const NO_MEMORY: u32 = 2;
pub const TRIMMED: u32 = 3;
pub const FUTURE: u32 = 4;
pub const HAS_STORE: u32 = 5;
pub const TIMESTAMPS: u32 = 6;
pub const HAS_LOG: u32 = 7;
pub const NO_KEY: u32 = 8;
pub const WAITING: u32 = 9;
pub const STOPPED: u32 = 10;
pub const UNFIT: u32 = 12;
pub const UNSORTED: u32 = 14;
pub const IN_ORDER: u32 = 15;

extern "C" {
    pub fn bohm_free(at: *mut c_void);
    pub fn bohm_answer(seed: *const [u8; 16], text: *const u8, len: usize, out: *mut Array<u8>) -> u32;
    pub fn bohm_open(
        machine: *mut Handle, seed: *const [u8; 16], text: *const u8, len: usize, top: u32, out: *mut Array<u8>,
    ) -> u32;
    pub fn bohm_open_rows(
        machine: *mut Handle, seed: *const [u8; 16], entries: *const Entry, count: usize, top: u32,
    ) -> u32;
    pub fn bohm_apply_held(machine: *mut Handle, text: *const u8, len: usize, out: *mut Array<u8>) -> u32;
    pub fn bohm_rows(machine: *mut Handle, rows: *mut Array<Row>, values: *mut Array<i64>) -> u32;
    pub fn bohm_value_at(machine: *const Handle, key: *const u8, len: usize, ts: u32, present: *mut u8, value: *mut i64) -> u32;
    pub fn bohm_store_at(machine: *const Handle, ts: u32, out: *mut Array<u8>) -> u32;
    pub fn bohm_store_rows(machine: *const Handle, ts: u32, out: *mut Array<Entry>) -> u32;
    pub fn bohm_digest(machine: *const Handle, ts: u32, digest: *mut [u8; 32]) -> u32;
    pub fn bohm_trim(machine: *mut Handle, floor: u32) -> u32;
    pub fn bohm_compact(machine: *mut Handle) -> u32;
    pub fn bohm_timestamps(machine: *const Handle, floor: *mut u32, top: *mut u32) -> u32;
    pub fn bohm_counts_sized(machine: *const Handle, counts: *mut Counts, size: usize) -> u32;
    pub fn bohm_close(machine: *mut Handle);
    pub fn bohm_prepare_report(
        procedure: *mut Handle, seed: *const [u8; 16], text: *const u8, len: usize, out: *mut Array<u8>,
    ) -> u32;
    pub fn bohm_statement_text(procedure: *const Handle, statement: u32, line: *mut usize, out: *mut Array<u8>) -> u32;
    pub fn bohm_close_procedure(procedure: *mut Handle);
    pub fn bohm_open_calls(calls: *mut Handle, seed: *const [u8; 16], edition: u32) -> u32;
    pub fn bohm_open_calls_for(machine: *const Handle, calls: *mut Handle, edition: u32) -> u32;
    pub fn bohm_push(
        calls: *mut Handle, procedure: *const Handle, keys: *const Key, key_count: usize, values: *const i64, value_count: usize,
    ) -> u32;
    pub fn bohm_key_handle(calls: *mut Handle, key: *const u8, len: usize, handle: *mut u32) -> u32;
    pub fn bohm_push_named(
        calls: *mut Handle, procedure: *const Handle, handles: *const u32, handle_count: usize, values: *const i64,
        value_count: usize,
    ) -> u32;
    pub fn bohm_calls_text(calls: *const Handle, out: *mut Array<u8>) -> u32;
    pub fn bohm_call(
        machine: *mut Handle, procedure: *const Handle, keys: *const Key, key_count: usize, values: *const i64,
        value_count: usize, row: *mut Row, shown: *mut i64, room: usize,
    ) -> u32;
    pub fn bohm_machine_key(machine: *mut Handle, key: *const u8, len: usize, handle: *mut u32) -> u32;
    pub fn bohm_call_named(
        machine: *mut Handle, procedure: *const Handle, handles: *const u32, handle_count: usize, values: *const i64,
        value_count: usize, row: *mut Row, shown: *mut i64, room: usize,
    ) -> u32;
    pub fn bohm_run_calls_held(machine: *mut Handle, calls: *const Handle) -> u32;
    pub fn bohm_share_calls(machine: *mut Handle, calls: *mut Handle, workers: u32) -> u32;
    pub fn bohm_open_worker(machine: *mut Handle, worker: *mut Handle) -> u32;
    pub fn bohm_work(worker: *mut Handle) -> u32;
    pub fn bohm_close_worker(worker: *mut Handle);
    pub fn bohm_finish_calls(machine: *mut Handle, calls: *mut Handle) -> u32;
    pub fn bohm_clear_calls(calls: *mut Handle) -> u32;
    pub fn bohm_close_calls(calls: *mut Handle);
    pub static bohm_version: [u8; 16];
    pub static bohm_sources: [u8; 65];
}
