//! Keys as calls name them: by their bytes, or by handles.

use crate::error::Error;
use crate::raw::Key;
use std::ptr;
use std::sync::atomic::{AtomicU64, Ordering};

/// The most keys that a procedure can have.
const MOST_KEYS: usize = 32;

/// How many owners of handles were made. Each has a number of its own, so that no other one accepts its handles.
static OWNERS: AtomicU64 = AtomicU64::new(0);

/// A machine or a list of calls, among those that make handles of keys.
#[derive(Clone, Copy, Debug, PartialEq, Eq, Hash)]
pub(crate) struct Owner(u64);

impl Owner {
    pub fn new() -> Owner {
        Owner(OWNERS.fetch_add(1, Ordering::Relaxed))
    }

    /// The numbers of handles, if this owner made them all.
    pub fn numbers_of(self, handles: &[KeyHandle]) -> Result<[u32; MOST_KEYS], Error> {
        let mut numbers = [0; MOST_KEYS];
        if handles.len() > MOST_KEYS {
            return Err(Error::Unfit);
        }
        for (number, handle) in numbers.iter_mut().zip(handles) {
            if handle.owner != self {
                return Err(Error::OtherOwner);
            }
            *number = handle.number;
        }
        Ok(numbers)
    }
}

/// A key that a machine or a list of calls has looked up: [`Machine::key`](crate::Machine::key) and
/// [`Calls::key`](crate::Calls::key) make it. It names the key there until that machine or list is dropped.
#[derive(Clone, Copy, Debug, PartialEq, Eq, Hash)]
pub struct KeyHandle {
    pub(crate) owner: Owner,
    pub(crate) number: u32,
}

/// Where the bytes of keys are.
pub(crate) fn pointers_to<K: AsRef<[u8]>>(keys: &[K]) -> Result<[Key; MOST_KEYS], Error> {
    if keys.len() > MOST_KEYS {
        return Err(Error::Unfit);
    }
    let mut pointers = [Key { at: ptr::null(), len: 0 }; MOST_KEYS];
    for (pointer, key) in pointers.iter_mut().zip(keys) {
        let key = key.as_ref();
        *pointer = Key { at: key.as_ptr(), len: key.len() };
    }
    Ok(pointers)
}
