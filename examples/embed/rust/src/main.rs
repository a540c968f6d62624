//! A ledger in a Rust program, like `ledger.c`.
use bohm::Machine;
use std::error::Error;
use std::io::{stdout, Write};
use std::{env, fs};

/// The parts of a log: the first line with the store, and each transaction's lines.
fn split(log: &str) -> (&str, Vec<&str>) {
    let first = log.find("\ntxn\n").map_or(log.len(), |at| at + 1);
    let (store, txns) = log.split_at(first);
    (store, txns.split_inclusive("\nend\n").collect())
}

/// Checks that each balance at a past timestamp is the one in that timestamp's store.
fn check_balances(ledger: &Machine, ts: u32) -> Result<(), bohm::Error> {
    for (key, value) in &ledger.store_rows(ts)? {
        assert_eq!(ledger.value_at(key, ts)?, Some(value));
    }
    Ok(())
}

fn main() -> Result<(), Box<dyn Error>> {
    let words: Vec<_> = env::args().collect();
    let log = fs::read_to_string(words.get(1).ok_or("usage: ledger LOG SIZE")?)?;
    let size: usize = words.get(2).ok_or("usage: ledger LOG SIZE")?.parse()?;
    let (store, txns) = split(&log);
    let mut ledger = Machine::open(store, 0)?;
    let mut second = None;
    let mut out = stdout().lock();
    let segments = txns.chunks(size);
    let half = segments.len() / 2;
    for (number, txns) in segments.enumerate() {
        let segment = [&log[..6], &txns.concat()].concat();
        let replies = ledger.apply(&segment)?;
        write!(out, "{replies}")?;
        if let Some(second) = &mut second {
            assert_eq!(Machine::apply(second, &segment)?, replies);
        } else if number == half {
            let top = ledger.top();
            second = Some(Machine::open_rows(&ledger.store_rows(top)?, top)?);
        }
    }
    let top = ledger.top();
    if let Some(second) = &second {
        assert_eq!(second.digest(top)?, ledger.digest(top)?);
    }
    for ts in [0, top / 2, top] {
        check_balances(&ledger, ts)?;
    }
    ledger.trim(top)?;
    assert_eq!(ledger.floor(), top);
    write!(out, "--\n{}", &ledger.store_at(top)?.as_str()[6..])?;
    Ok(())
}
