//! The text of a log, a window at a time, and the streams.

use crate::fault::Fault;
use std::fs::File;
use std::io::{Read, Write};
use std::os::fd::AsFd;
use std::time::{Duration, Instant};

/// The most bytes that a log may have.
const LIMIT: usize = 67_108_864;

/// The usual size of a window. It grows if a transaction is larger.
pub const WINDOW: usize = 1 << 18;

/// Zero bytes after the window, so that a word can be loaded at any offset. No line has a zero byte.
const PAD: usize = 64;

/// A window, the space that it may fill, and the pad.
#[derive(Default)]
pub struct Buffer {
    bytes: Vec<u8>,
    length: usize,
}

impl Buffer {
    fn new(room: usize) -> Buffer {
        Buffer { bytes: vec![0; room + PAD], length: 0 }
    }

    fn room(&self) -> usize {
        self.bytes.len() - PAD
    }

    /// Ends the window at `length`.
    fn end(&mut self, length: usize) {
        self.length = length;
        self.bytes[length..length + PAD].fill(0);
    }

    pub fn window(&self) -> Window<'_> {
        Window { bytes: &self.bytes, length: self.length }
    }
}

/// The readable part of a text, followed by the pad.
#[derive(Clone, Copy)]
pub struct Window<'a> {
    bytes: &'a [u8],
    length: usize,
}

impl<'a> Window<'a> {
    pub fn len(self) -> usize {
        self.length
    }

    pub fn bytes(self) -> &'a [u8] {
        &self.bytes[..self.length]
    }

    #[inline(always)]
    pub fn byte(self, at: usize) -> u8 {
        self.bytes[at]
    }

    /// The eight bytes from `at` on, the first one highest.
    #[inline(always)]
    pub fn word(self, at: usize) -> u64 {
        u64::from_be_bytes(*self.bytes[at..].first_chunk().expect("room behind the window"))
    }
}

pub struct Text {
    input: File,
    buffer: Buffer,
    /// How many bytes were read in all.
    came: usize,
    /// How long reading took.
    pub reading: Duration,
}

impl Text {
    /// Standard input, not yet read, by windows of this many bytes.
    pub fn open(room: usize) -> Result<Text, Fault> {
        let input = file(std::io::stdin())?;
        Ok(Text { input, buffer: Buffer::new(room), came: 0, reading: Duration::ZERO })
    }

    pub fn window(&self) -> Window<'_> {
        self.buffer.window()
    }

    /// Discards the bytes before `at`, moves the rest to 0, and continues reading after it. Returns how
    /// many bytes were read, 0 at the end of the input.
    pub fn read_on(&mut self, at: usize) -> Result<usize, Fault> {
        let length = self.buffer.length;
        self.buffer.bytes.copy_within(at..length, 0);
        self.buffer.end(length - at);
        if self.buffer.length > self.buffer.room() / 2 {
            self.grow();
        }
        self.read()
    }

    /// Doubles the capacity.
    pub fn grow(&mut self) {
        self.buffer.bytes.resize(2 * self.buffer.room() + PAD, 0);
    }

    /// Reads until the buffer is full; false if the input ends first.
    pub fn fill(&mut self) -> Result<bool, Fault> {
        while self.buffer.length < self.buffer.room() {
            if self.read()? == 0 {
                return Ok(false);
            }
        }
        Ok(true)
    }

    fn read(&mut self) -> Result<usize, Fault> {
        let start = Instant::now();
        let (room, length) = (self.buffer.room(), self.buffer.length);
        let count = self.input.read(&mut self.buffer.bytes[length..room]).map_err(|_| Fault::Read)?;
        self.buffer.end(length + count);
        self.came += count;
        self.reading += start.elapsed();
        if self.came > LIMIT { Err(Fault::TooLong) } else { Ok(count) }
    }

    /// Passes the bytes before `at` to `other`, in exchange for its buffer; the rest moves to 0.
    pub fn hand_over(&mut self, at: usize, other: &mut Buffer) {
        let rest = &self.buffer.bytes[at..self.buffer.length];
        other.bytes.resize(self.buffer.bytes.len(), 0);
        other.bytes[..rest.len()].copy_from_slice(rest);
        other.end(rest.len());
        std::mem::swap(&mut self.buffer, other);
        other.end(at);
    }
}

/// Standard input or output without the library's buffer.
fn file(stream: impl AsFd) -> Result<File, Fault> {
    Ok(File::from(stream.as_fd().try_clone_to_owned().map_err(|_| Fault::Read)?))
}

/// All of standard input.
pub fn read_all() -> Result<Vec<u8>, Fault> {
    let mut text = Vec::new();
    file(std::io::stdin())?.read_to_end(&mut text).map_err(|_| Fault::Read)?;
    Ok(text)
}

/// Writes all parts of the answer to standard output.
pub fn write<'a>(answer: impl IntoIterator<Item = &'a [u8]>) -> Result<(), Fault> {
    let mut output = file(std::io::stdout())?;
    let mut sent = 0;
    for mut part in answer {
        while !part.is_empty() {
            match output.write(part) {
                Ok(count) if count > 0 => (part, sent) = (&part[count..], sent + count),
                _ => return Err(Fault::Write(sent)),
            }
        }
    }
    Ok(())
}
