//! The machine that has run a ledger's entries, and its procedures.

use crate::entry::{value_of, Entry, Refused};
use bohm::{Calls, Edition, Machine, Procedure, Replies};
use std::collections::HashMap;
use std::error::Error;

struct Definition {
    procedure: Procedure,
    keys: usize,
    values: usize,
}

pub struct Book {
    pub machine: Machine,
    /// A list that tests calls that don't run.
    calls: Calls,
    definitions: HashMap<String, Definition>,
    edition: i64,
}

/// An entry's answer, or why it is refused.
pub type Answer = Result<String, Refused>;

impl Book {
    /// Begins with the store after the transaction with a sequence number, which is below 2^32.
    pub fn open<'a>(edition: i64, store: impl Iterator<Item = (&'a str, i64)>, top: i64) -> Result<Book, Box<dyn Error>> {
        let machine = Machine::open_rows(store, u32::try_from(top)?)?;
        let calls = machine.calls(if edition == 1 { Edition::One } else { Edition::Two })?;
        Ok(Book { machine, calls, definitions: HashMap::new(), edition })
    }

    /// Runs an entry. A barred one isn't run: its id is another entry's, and it is refused for that if for nothing else.
    pub fn run(&mut self, entry: Entry<'_>, is_barred: bool) -> Result<Answer, Box<dyn Error>> {
        match entry {
            Entry::Definition { name, text } => self.define(name, text, is_barred),
            Entry::Call { name, arguments } => self.call(name, &arguments, is_barred),
            Entry::Transaction { text } => self.transact(text, is_barred),
        }
    }

    fn define(&mut self, name: &str, text: &str, is_barred: bool) -> Result<Answer, Box<dyn Error>> {
        if !text.is_empty() && !text.starts_with(&format!("procedure {}\n", self.edition)) {
            return Ok(Err(Refused::because("line 1")));
        }
        let procedure = match Procedure::prepare(text) {
            Ok(procedure) => procedure,
            Err(bohm::Error::Refused(report)) => return Ok(Err(Refused(report.lines().take(1).collect()))),
            Err(error) => return Err(error.into()),
        };
        if is_barred {
            return Ok(Err(Refused::because("id")));
        }
        let count = |word| text.lines().filter(|line| line.starts_with(word)).count();
        self.definitions.insert(name.to_owned(), Definition { procedure, keys: count("key "), values: count("value ") });
        Ok(Ok(format!("defined {name}")))
    }

    fn call(&mut self, name: &str, arguments: &[&str], is_barred: bool) -> Result<Answer, Box<dyn Error>> {
        let Some(definition) = self.definitions.get(name) else { return Ok(Err(Refused::because("procedure"))) };
        if arguments.len() != definition.keys + definition.values {
            return Ok(Err(Refused::because("arguments")));
        }
        let (keys, words) = arguments.split_at(definition.keys);
        let Some(values) = words.iter().map(|word| value_of(word)).collect::<Option<Vec<_>>>() else {
            return Ok(Err(Refused::because("value")));
        };
        let ran = if is_barred {
            let pushed = self.calls.push(&definition.procedure, keys, &values);
            self.calls.clear();
            pushed.map(|()| Err(Refused::because("id")))
        } else {
            self.machine.call(&definition.procedure, keys, &values).map(|reply| Ok(reply.to_string()))
        };
        match ran {
            Err(bohm::Error::NoKey) => Ok(Err(Refused::because("key"))),
            answer => Ok(answer?),
        }
    }

    fn transact(&mut self, text: &str, is_barred: bool) -> Result<Answer, Box<dyn Error>> {
        let log = format!("log {}\n{text}", self.edition);
        let ran = if is_barred { bohm::answer(log).map(|_| None) } else { self.machine.apply(log).map(Some) };
        match ran {
            Ok(replies) => Ok(replies.map(|replies| line_of(&replies)).ok_or_else(|| Refused::because("id"))),
            Err(bohm::Error::Refused(line)) => Ok(Err(Refused(without_head(line)))),
            Err(error) => Err(error.into()),
        }
    }
}

fn line_of(replies: &Replies) -> String {
    replies.to_string().trim_end().to_owned()
}

/// A refusal by an entry's line: the log's first line isn't the entry's.
fn without_head(line: String) -> String {
    match line.strip_prefix("refused: line ").and_then(|number| number.parse::<u64>().ok()) {
        Some(number) => format!("refused: line {}", number - 1),
        None => line,
    }
}
