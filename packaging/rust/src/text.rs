//! Bytes that the library returns, and its version and checksum.

use crate::raw::{self, Array};
use std::ffi::CStr;
use std::{fmt, ops, slice};

/// Elements that the library returned: they are freed when this is dropped.
pub(crate) struct Owned<T>(Array<T>);

// SAFETY: nothing else owns the memory, and it isn't tied to a thread.
unsafe impl<T: Send> Send for Owned<T> {}
// SAFETY: through a `&` it is only read.
unsafe impl<T: Sync> Sync for Owned<T> {}

impl<T> Owned<T> {
    pub const fn none() -> Owned<T> {
        Owned(Array::none())
    }

    /// Where a call returns elements. There are none before the call.
    pub fn out(&mut self) -> *mut Array<T> {
        debug_assert!(self.0.at.is_null());
        &mut self.0
    }
}

impl<T> ops::Deref for Owned<T> {
    type Target = [T];

    fn deref(&self) -> &[T] {
        if self.0.at.is_null() {
            return &[];
        }
        // SAFETY: a call returned `len` elements there.
        unsafe { slice::from_raw_parts(self.0.at, self.0.len) }
    }
}

impl<T> Drop for Owned<T> {
    fn drop(&mut self) {
        // SAFETY: a call returned the pointer, or it is null.
        unsafe { raw::bohm_free(self.0.at.cast()) }
    }
}

impl<T: PartialEq> PartialEq for Owned<T> {
    fn eq(&self, other: &Owned<T>) -> bool {
        **self == **other
    }
}

impl<T: Eq> Eq for Owned<T> {}

impl<T: fmt::Debug> fmt::Debug for Owned<T> {
    fn fmt(&self, to: &mut fmt::Formatter<'_>) -> fmt::Result {
        to.debug_list().entries(self.iter()).finish()
    }
}

/// A text that the library returned. It is ASCII.
pub struct Text(pub(crate) Owned<u8>);

impl Text {
    pub(crate) const fn none() -> Text {
        Text(Owned::none())
    }

    pub fn as_str(&self) -> &str {
        std::str::from_utf8(&self.0).unwrap_or_default()
    }
}

impl ops::Deref for Text {
    type Target = [u8];

    fn deref(&self) -> &[u8] {
        &self.0
    }
}

impl AsRef<[u8]> for Text {
    fn as_ref(&self) -> &[u8] {
        self
    }
}

impl fmt::Display for Text {
    fn fmt(&self, to: &mut fmt::Formatter<'_>) -> fmt::Result {
        to.write_str(self.as_str())
    }
}

impl fmt::Debug for Text {
    fn fmt(&self, to: &mut fmt::Formatter<'_>) -> fmt::Result {
        fmt::Debug::fmt(self.as_str(), to)
    }
}

/// The text of bytes that end with a zero.
fn text_of(bytes: &'static [u8]) -> &'static str {
    CStr::from_bytes_until_nul(bytes).ok().and_then(|text| text.to_str().ok()).unwrap_or_default()
}

/// The version of the library.
pub fn version() -> &'static str {
    // SAFETY: nothing writes there.
    text_of(unsafe { &raw::bohm_version })
}

/// The checksum of the sources that the library is built from.
pub fn sources() -> &'static str {
    // SAFETY: as above.
    text_of(unsafe { &raw::bohm_sources })
}
