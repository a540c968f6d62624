//! The few calls of SQLite's library that a ledger needs.

use std::ffi::{c_char, c_int, c_void, CStr, CString};
use std::ptr;

#[link(name = "sqlite3")]
extern "C" {
    fn sqlite3_open(path: *const c_char, base: *mut *mut c_void) -> c_int;
    fn sqlite3_close(base: *mut c_void) -> c_int;
    fn sqlite3_errmsg(base: *mut c_void) -> *const c_char;
    fn sqlite3_prepare_v2(
        base: *mut c_void, sql: *const c_char, len: c_int, statement: *mut *mut c_void, tail: *mut *const c_char,
    ) -> c_int;
    fn sqlite3_bind_int64(statement: *mut c_void, place: c_int, value: i64) -> c_int;
    fn sqlite3_bind_text(
        statement: *mut c_void, place: c_int, text: *const c_char, len: c_int, free: *const c_void,
    ) -> c_int;
    fn sqlite3_step(statement: *mut c_void) -> c_int;
    fn sqlite3_column_count(statement: *mut c_void) -> c_int;
    fn sqlite3_column_type(statement: *mut c_void, place: c_int) -> c_int;
    fn sqlite3_column_int64(statement: *mut c_void, place: c_int) -> i64;
    fn sqlite3_column_text(statement: *mut c_void, place: c_int) -> *const c_char;
    fn sqlite3_column_bytes(statement: *mut c_void, place: c_int) -> c_int;
    fn sqlite3_finalize(statement: *mut c_void) -> c_int;
}

const OK: c_int = 0;
const ROW: c_int = 100;
const DONE: c_int = 101;
const INTEGER: c_int = 1;
const NULL: c_int = 5;

#[derive(Debug)]
pub struct Failed(String);

impl std::fmt::Display for Failed {
    fn fmt(&self, to: &mut std::fmt::Formatter<'_>) -> std::fmt::Result {
        to.write_str(&self.0)
    }
}

impl std::error::Error for Failed {}

#[derive(Clone, Debug, PartialEq)]
pub enum Value {
    Null,
    Number(i64),
    Text(String),
}

impl Value {
    pub fn number(&self) -> i64 {
        if let Value::Number(value) = self { *value } else { 0 }
    }

    pub fn text(&self) -> &str {
        if let Value::Text(text) = self { text } else { "" }
    }
}

impl From<i64> for Value {
    fn from(value: i64) -> Value {
        Value::Number(value)
    }
}

impl From<&str> for Value {
    fn from(text: &str) -> Value {
        Value::Text(text.to_owned())
    }
}

/// A connection, closed on drop.
pub struct Base(*mut c_void);

impl Base {
    pub fn open(path: &str) -> Result<Base, Failed> {
        let (name, mut base) = (CString::new(path).map_err(|_| Failed("the path has a zero".into()))?, Base(ptr::null_mut()));
        // SAFETY: the path ends with a zero, and the handle is closed on drop, also after an error.
        match unsafe { sqlite3_open(name.as_ptr(), &mut base.0) } {
            OK => Ok(base),
            _ => Err(base.failed()),
        }
    }

    fn failed(&self) -> Failed {
        // SAFETY: the message is a text of the open connection, and is copied.
        Failed(unsafe { CStr::from_ptr(sqlite3_errmsg(self.0)) }.to_string_lossy().into_owned())
    }

    /// Runs a statement with these values, and returns its rows.
    pub fn run(&self, sql: &str, values: &[Value]) -> Result<Vec<Vec<Value>>, Failed> {
        let mut statement = Statement(ptr::null_mut());
        // SAFETY: the text has that length, and the statement is finalized on drop.
        let status = unsafe {
            sqlite3_prepare_v2(self.0, sql.as_ptr().cast(), sql.len() as c_int, &mut statement.0, ptr::null_mut())
        };
        if status != OK || !statement.bind(values) {
            return Err(self.failed());
        }
        let mut rows = Vec::new();
        loop {
            // SAFETY: the statement is prepared.
            match unsafe { sqlite3_step(statement.0) } {
                ROW => rows.push(statement.row()),
                DONE => return Ok(rows),
                _ => return Err(self.failed()),
            }
        }
    }

    /// The number that a statement selects.
    pub fn number(&self, sql: &str) -> Result<i64, Failed> {
        let rows = self.run(sql, &[])?;
        rows.first().and_then(|row| row.first()).map(Value::number).ok_or_else(|| Failed(format!("{sql} has no row")))
    }
}

impl Drop for Base {
    fn drop(&mut self) {
        // SAFETY: its statements are finalized.
        unsafe { sqlite3_close(self.0) };
    }
}

struct Statement(*mut c_void);

impl Statement {
    /// Binds values; their texts outlive the statement.
    fn bind(&self, values: &[Value]) -> bool {
        values.iter().zip(1..).all(|(value, place)| match value {
            Value::Null => true,
            // SAFETY: the statement is prepared.
            Value::Number(value) => unsafe { sqlite3_bind_int64(self.0, place, *value) == OK },
            // SAFETY: the text has that length, and isn't freed before the statement.
            Value::Text(text) => unsafe {
                sqlite3_bind_text(self.0, place, text.as_ptr().cast(), text.len() as c_int, ptr::null()) == OK
            },
        })
    }

    fn row(&self) -> Vec<Value> {
        // SAFETY: the statement stands at a row, which has so many columns; a text is copied before the next call.
        unsafe { (0..sqlite3_column_count(self.0)).map(|place| self.column(place)).collect() }
    }

    unsafe fn column(&self, place: c_int) -> Value {
        match sqlite3_column_type(self.0, place) {
            INTEGER => Value::Number(sqlite3_column_int64(self.0, place)),
            NULL => Value::Null,
            _ => {
                let text = sqlite3_column_text(self.0, place).cast();
                let bytes = std::slice::from_raw_parts(text, sqlite3_column_bytes(self.0, place) as usize);
                Value::Text(String::from_utf8_lossy(bytes).into_owned())
            }
        }
    }
}

impl Drop for Statement {
    fn drop(&mut self) {
        // SAFETY: a prepared statement, or null.
        unsafe { sqlite3_finalize(self.0) };
    }
}
