//! Prepares procedures for tests/reports, as reports.c does.
use bohm::{Error, Procedure};
use std::io::{stdin, stdout, Write};

fn bytes_of(digits: &str) -> Result<Vec<u8>, std::num::ParseIntError> {
    (0..digits.len() / 2).map(|at| u8::from_str_radix(&digits[2 * at..2 * at + 2], 16)).collect()
}

/// The lines of a procedure's statements.
fn statements(procedure: &Procedure) -> Result<String, Error> {
    let (mut lines, mut number) = (String::new(), 1);
    while let Some(found) = procedure.statement(number)? {
        assert_eq!(found.to_string(), found.text.as_str());
        lines += &format!("{number} {} {found}\n", found.line);
        number += 1;
    }
    for none in [0, 1000, u32::MAX] {
        assert!(procedure.statement(none)?.is_none(), "a statement that isn't there");
    }
    Ok(lines)
}

fn main() -> Result<(), Box<dyn std::error::Error>> {
    let mut out = stdout().lock();
    for line in stdin().lines() {
        match Procedure::prepare(bytes_of(&line?)?) {
            Ok(procedure) => writeln!(out, "{}--", statements(&procedure)?)?,
            Err(Error::Refused(report)) => writeln!(out, "refused\n{report}\n--")?,
            Err(error) => return Err(error.into()),
        }
    }
    Ok(())
}
