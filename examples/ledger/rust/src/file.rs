//! The file of a ledger (`docs/ledger.md`).

use crate::book::{Answer, Book};
use crate::entry::{self, Entry, Refused};
use crate::sqlite::{Base, Failed, Value};
use std::error::Error;
use std::fs::File;

const TABLES: [&str; 5] = [
    "CREATE TABLE ledger(format INTEGER, edition INTEGER, checkpoint INTEGER) STRICT",
    "CREATE TABLE batch(place INTEGER PRIMARY KEY, first INTEGER, entries TEXT) STRICT",
    "CREATE TABLE balance(key TEXT PRIMARY KEY, value INTEGER) STRICT, WITHOUT ROWID",
    "CREATE TABLE request(id TEXT PRIMARY KEY, place INTEGER, answer TEXT) STRICT, WITHOUT ROWID",
    "INSERT INTO ledger VALUES (1, 2, 0)",
];

extern "C" {
    fn flock(file: i32, operation: i32) -> i32;
}
const EXCLUSIVE_OR_FAIL: i32 = 2 | 4;

pub struct Ledger {
    base: Base,
    book: Book,
    _lock: File,
}

/// The accepted entries of a commit, their ids with the answers, and the line that answers each entry.
struct Commit {
    place: i64,
    first: i64,
    accepted: String,
    answers: String,
}

impl Ledger {
    /// Opens a file alone, and makes durable what it holds before anything is answered by it.
    pub fn open(path: &str) -> Result<Ledger, Box<dyn Error>> {
        let base = Base::open(path)?;
        base.run("PRAGMA journal_mode = WAL", &[])?;
        base.run("PRAGMA synchronous = FULL", &[])?;
        let lock = locked(&base, path)?;
        base.run("BEGIN IMMEDIATE", &[])?;
        if base.number("SELECT count(*) FROM sqlite_master")? == 0 {
            TABLES.iter().try_for_each(|sql| base.run(sql, &[]).map(drop))?;
        }
        base.run("COMMIT", &[])?;
        if base.number("PRAGMA wal_checkpoint(RESTART)")? != 0 || base.number("SELECT format FROM ledger")? != 1 {
            return Err("it is no ledger, or a reader keeps its log".into());
        }
        let checkpoint = base.number("SELECT checkpoint FROM ledger")?;
        let rows = base.run("SELECT key, value FROM balance ORDER BY key", &[])?;
        let store = rows.iter().map(|row| (row[0].text(), row[1].number()));
        let book = Book::open(base.number("SELECT edition FROM ledger")?, store, checkpoint)?;
        let mut ledger = Ledger { base, book, _lock: lock };
        ledger.replay(checkpoint)?;
        Ok(ledger)
    }

    /// Runs what is behind the checkpoint, and of what is before it the definitions.
    fn replay(&mut self, checkpoint: i64) -> Result<(), Box<dyn Error>> {
        for row in self.base.run("SELECT first, entries FROM batch ORDER BY place", &[])? {
            let mut next = row[0].number();
            for text in entry::split(row[1].text()) {
                let (_, text) = entry::take_id(text).map_err(|why| why.0)?;
                let entry = entry::read(&text).map_err(|why| why.0)?;
                let is_definition = matches!(entry, Entry::Definition { .. });
                if is_definition || next > checkpoint {
                    self.book.run(entry, false)?.map_err(|why| why.0)?;
                }
                next += i64::from(!is_definition);
            }
        }
        Ok(())
    }

    /// Stores entries in one commit, and returns the lines that answer them. After an error the machine may be ahead of the
    /// file: open it again.
    pub fn append(&mut self, texts: &[String]) -> Result<String, Box<dyn Error>> {
        let place = self.base.number("SELECT coalesce(max(place), 0) + 1 FROM batch")?;
        let first = i64::from(self.book.machine.top()) + 1;
        let mut commit = Commit { place, first, accepted: String::new(), answers: String::new() };
        self.base.run("BEGIN IMMEDIATE", &[])?;
        for text in texts {
            self.take(&mut commit, text)?;
        }
        if !commit.accepted.is_empty() {
            let row = [commit.place.into(), commit.first.into(), commit.accepted.as_str().into()];
            self.base.run("INSERT INTO batch VALUES (?, ?, ?)", &row)?;
        }
        self.base.run("COMMIT", &[])?;
        Ok(commit.answers)
    }

    fn take(&mut self, commit: &mut Commit, text: &str) -> Result<(), Box<dyn Error>> {
        let (id, answer) = match entry::take_id(text) {
            Ok((id, lines)) => (id, self.answer(commit, text, id, &lines)?),
            Err(why) => (None, Err(why)),
        };
        if let Some(id) = id {
            commit.answers += &format!("#{id} ");
        }
        commit.answers += &answer.unwrap_or_else(|Refused(line)| line);
        commit.answers += "\n";
        Ok(())
    }

    /// The answer to an entry with these lines without its id. One that ran before isn't run again.
    fn answer(&mut self, commit: &mut Commit, text: &str, id: Option<&str>, lines: &str) -> Result<Answer, Box<dyn Error>> {
        let first = match id {
            Some(id) => self.first(commit, id)?,
            None => None,
        };
        if let Some((answer, _)) = first.as_ref().filter(|(_, known)| known == text) {
            return Ok(Ok(answer.clone()));
        }
        let answer = match entry::read(lines) {
            Ok(entry) => self.book.run(entry, first.is_some())?,
            Err(why) => Err(why),
        };
        if let Ok(line) = &answer {
            commit.accepted += text;
            if let Some(id) = id {
                let row = [id.into(), commit.place.into(), line.as_str().into()];
                self.base.run("INSERT INTO request VALUES (?, ?, ?)", &row)?;
            }
        }
        Ok(answer)
    }

    /// The answer to the first entry with an id, and its text; that is empty if its batch is in an archive, which this
    /// program doesn't read.
    fn first(&self, commit: &Commit, id: &str) -> Result<Option<(String, String)>, Failed> {
        let sql = "SELECT answer, place, entries FROM request LEFT JOIN batch USING (place) WHERE id = ?";
        let rows = self.base.run(sql, &[id.into()])?;
        Ok(rows.first().map(|row| {
            let batch = if row[1].number() == commit.place { &commit.accepted } else { row[2].text() };
            let is_its = |text: &&str| matches!(entry::take_id(text), Ok((Some(known), _)) if known == id);
            (row[0].text().to_owned(), entry::split(batch).find(is_its).unwrap_or("").to_owned())
        }))
    }

    /// Writes every row; Python's ledger writes those that changed.
    pub fn checkpoint(&mut self) -> Result<(), Box<dyn Error>> {
        let top = self.book.machine.top();
        let store = self.book.machine.store_rows(top)?;
        self.base.run("BEGIN IMMEDIATE", &[])?;
        self.base.run("DELETE FROM balance", &[])?;
        for (key, value) in &store {
            self.base.run("INSERT INTO balance VALUES (?, ?)", &[key.into(), Value::Number(value)])?;
        }
        self.base.run("UPDATE ledger SET checkpoint = ?", &[i64::from(top).into()])?;
        self.base.run("COMMIT", &[])?;
        Ok(())
    }
}

/// A lock on the database's log, as other ledgers have: SQLite has none on it.
fn locked(base: &Base, path: &str) -> Result<File, Box<dyn Error>> {
    use std::os::fd::AsRawFd;
    base.number("SELECT count(*) FROM sqlite_master")?;
    let file = File::options().read(true).write(true).open(format!("{path}-wal"))?;
    // SAFETY: the file is open.
    if unsafe { flock(file.as_raw_fd(), EXCLUSIVE_OR_FAIL) } != 0 {
        return Err("another ledger has the file".into());
    }
    Ok(file)
}
