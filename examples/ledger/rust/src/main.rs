//! A durable ledger in a Rust program, like ledger.c: `ledger FILE [BATCH]` reads entries on standard input, and writes the
//! answer to each once it is on the disk, BATCH entries (1) to a commit.

mod book;
mod entry;
mod file;
mod sqlite;

use std::error::Error;
use std::io::{BufRead, Write};
use std::{env, io};

/// The next entry: a call's line, or the lines up to `end`. Bytes that aren't UTF-8 become a character that no entry has.
fn read_entry(input: &mut impl BufRead) -> io::Result<String> {
    let mut entry = String::new();
    loop {
        let mut line = Vec::new();
        input.read_until(b'\n', &mut line)?;
        entry += &String::from_utf8_lossy(&line);
        let is_whole = !entry.starts_with("define ") && !entry.starts_with("txn") || line == b"end\n";
        if line.is_empty() || is_whole {
            break;
        }
    }
    if !entry.is_empty() && !entry.ends_with('\n') {
        entry.push('\n');
    }
    Ok(entry)
}

fn main() -> Result<(), Box<dyn Error>> {
    let words: Vec<String> = env::args().collect();
    let path = words.get(1).ok_or("usage: ledger FILE [BATCH]")?;
    let size: usize = words.get(2).map_or(Ok(1), |word| word.parse())?;
    let mut ledger = file::Ledger::open(path)?;
    let (mut input, mut output) = (io::stdin().lock(), io::stdout().lock());
    loop {
        let mut texts = Vec::new();
        while texts.len() < size {
            match read_entry(&mut input)? {
                entry if entry.is_empty() => break,
                entry => texts.push(entry),
            }
        }
        if texts.is_empty() {
            break;
        }
        output.write_all(ledger.append(&texts)?.as_bytes())?;
        output.flush()?;
    }
    ledger.checkpoint()
}
