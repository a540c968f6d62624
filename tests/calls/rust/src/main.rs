//! Runs the calls of a script of tests/procedures: `calls < SCRIPT` writes their answer. Calls name their keys by handles and
//! by texts in turn. In turn a segment runs as a list, is a text that a second machine applies, and runs call by call. The
//! machine is compacted now and then.
use bohm::{Calls, Edition, KeyHandle, Machine, Procedure};
use std::collections::HashMap;
use std::error::Error;
use std::io::{stdin, stdout, Write};

/// The arguments of a line: the number of the procedure, keys and values.
fn arguments(rest: &str) -> Result<(usize, Vec<&str>, Vec<i64>), Box<dyn Error>> {
    let mut words = rest.split(' ');
    let number = words.next().ok_or("a number")?.parse()?;
    let keys = words.next().ok_or("a number of keys")?.parse()?;
    let keys: Vec<_> = words.by_ref().take(keys).collect();
    let values = words.skip(1).map(str::parse).collect::<Result<_, _>>()?;
    Ok((number, keys, values))
}

/// The handles of these keys, each of which is looked up once.
fn handles(calls: &mut Calls, known: &mut HashMap<String, KeyHandle>, keys: &[&str]) -> Result<Vec<KeyHandle>, bohm::Error> {
    let mut found = Vec::new();
    for &key in keys {
        if !known.contains_key(key) {
            known.insert(key.to_owned(), calls.key(key)?);
        }
        found.push(known[key]);
    }
    Ok(found)
}

/// A call of a segment: the number of the procedure, keys and values.
type Pushed = (usize, Vec<String>, Vec<i64>);

/// Runs calls one by one, and returns the replies' lines.
fn run_singly(machine: &mut Machine, procedures: &[Procedure], pushed: &[Pushed]) -> Result<String, bohm::Error> {
    let mut lines = String::new();
    for (place, (number, keys, values)) in pushed.iter().enumerate() {
        let reply = if place % 2 == 0 {
            machine.call(&procedures[*number], keys, values)?
        } else {
            let named = keys.iter().map(|key| machine.key(key)).collect::<Result<Vec<_>, _>>()?;
            machine.call_named(&procedures[*number], &named, values)?
        };
        lines += &format!("{reply}\n");
    }
    Ok(lines)
}

fn main() -> Result<(), Box<dyn Error>> {
    let (mut store, mut text) = (String::new(), String::new());
    let (mut procedures, mut out) = (Vec::new(), stdout().lock());
    let (mut machine, mut calls, mut known) = (None, Calls::new(Edition::Two)?, HashMap::new());
    let (mut second, mut pushed, mut segment) = (None, Vec::<Pushed>::new(), 0);
    let mut edition = Edition::Two;
    for line in stdin().lines() {
        let line = line?;
        let (word, rest) = line.split_once(' ').unwrap_or((&line, ""));
        match word {
            "edition" if rest == "1" => edition = Edition::One,
            "store" => store += &format!("{rest}\n"),
            "line" => text += &format!("{rest}\n"),
            "prepare" => {
                if machine.is_none() {
                    let opened = machine.insert(Machine::open(&store, 0)?);
                    second = Some(Machine::open_rows(&opened.store_rows(0)?, 0)?);
                    if edition == Edition::One {
                        // A list of edition 2 has its own names.
                        calls = opened.calls(edition)?;
                    }
                }
                procedures.push(Procedure::prepare(std::mem::take(&mut text))?);
            }
            "push" => {
                let (number, keys, values) = arguments(rest)?;
                if calls.len() % 2 == 0 {
                    let named = handles(&mut calls, &mut known, &keys)?;
                    calls.push_named(&procedures[number], &named, &values)?;
                } else {
                    calls.push(&procedures[number], &keys, &values)?;
                }
                pushed.push((number, keys.into_iter().map(String::from).collect(), values));
            }
            "run" => {
                let (machine, second) = (machine.as_mut().ok_or("no procedure")?, second.as_mut().ok_or("no procedure")?);
                let told = second.apply(calls.text()?)?.to_string();
                let lines = if segment % 3 < 2 { machine.run(&calls)?.to_string() } else { run_singly(machine, &procedures, &pushed)? };
                write!(out, "{}", if segment % 3 == 1 { told } else { lines })?;
                if segment % 3 > 0 {
                    machine.compact()?;
                }
                segment += 1;
                pushed.clear();
                calls.clear();
            }
            _ => (),
        }
    }
    let machine = machine.ok_or("no procedure")?;
    let top = machine.top();
    let snapshot = machine.store_at(top)?;
    assert_eq!(Machine::open(&snapshot, top)?.digest(top)?, machine.digest(top)?);
    assert_eq!(second.ok_or("no procedure")?.digest(top)?, machine.digest(top)?);
    let stranger = Calls::new(Edition::One)?.key("a")?;
    let refused = calls.push_named(&procedures[0], &[stranger], &[]);
    assert_eq!(refused, Err(bohm::Error::OtherOwner), "another list's handle is taken");
    write!(out, "--\n{}", &snapshot.as_str()[6..])?;
    Ok(())
}
