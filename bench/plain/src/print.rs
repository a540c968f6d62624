//! The text of the answer.

use crate::log::{Columns, Log};
use crate::names::Name;
use crate::run::{Answer, Cell, Reason, Reply};

const DIGITS: [[u8; 2]; 100] = {
    let mut digits = [[0; 2]; 100];
    let mut number = 0;
    while number < 100 {
        digits[number] = [b'0' + (number / 10) as u8, b'0' + (number % 10) as u8];
        number += 1;
    }
    digits
};

fn push_number(out: &mut Vec<u8>, value: i64) {
    let mut text = [0; 20];
    let mut at = text.len();
    let mut left = value.unsigned_abs();
    while left >= 100 {
        at -= 2;
        text[at..at + 2].copy_from_slice(&DIGITS[(left % 100) as usize]);
        left /= 100;
    }
    if left >= 10 {
        at -= 2;
        text[at..at + 2].copy_from_slice(&DIGITS[left as usize]);
    } else {
        at -= 1;
        text[at] = b'0' + left as u8;
    }
    if value < 0 {
        at -= 1;
        text[at] = b'-';
    }
    out.extend_from_slice(&text[at..]);
}

/// The number of a reply as text, which is incremented in place.
struct Counter {
    text: [u8; 8],
    from: usize,
}

impl Counter {
    fn new(number: usize) -> Counter {
        let (mut text, mut from, mut left) = ([b'0'; 8], 8, number);
        while left > 0 {
            from -= 1;
            text[from] = b'0' + (left % 10) as u8;
            left /= 10;
        }
        Counter { text, from: from.min(7) }
    }

    fn step(&mut self) {
        let mut at = 7;
        while self.text[at] == b'9' {
            self.text[at] = b'0';
            at -= 1;
        }
        self.text[at] += 1;
        self.from = self.from.min(at);
    }

    fn text(&self) -> &[u8] {
        &self.text[self.from..]
    }
}

fn push_reply(out: &mut Vec<u8>, number: &[u8], reply: Reply, shows: &[i64]) {
    out.extend_from_slice(number);
    match reply {
        Reply::Commit => {
            out.extend_from_slice(b" commit");
            for value in shows {
                out.push(b' ');
                push_number(out, *value);
            }
        }
        Reply::Abort(reason, statement) => {
            out.extend_from_slice(match reason {
                Reason::Need => b" abort need ",
                Reason::Fail => b" abort fail ",
                Reason::Absent => b" abort absent ",
                Reason::Range => b" abort range ",
            });
            push_number(out, i64::from(statement));
        }
    }
    out.push(b'\n');
}

/// The numbers of all keys in the order of their names. The keys of the starting store are already in order.
pub fn in_order(names: &[Name], stored: usize) -> Vec<u32> {
    let mut fresh: Vec<u32> = (stored as u32..names.len() as u32).collect();
    fresh.sort_unstable_by_key(|key| names[*key as usize]);
    let mut all = Vec::with_capacity(names.len());
    let mut next = 0;
    for key in fresh {
        while next < stored && names[next] < names[key as usize] {
            all.push(next as u32);
            next += 1;
        }
        all.push(key);
    }
    all.extend(next as u32..stored as u32);
    all
}

/// The line between the replies and the store.
pub const BETWEEN: &[u8] = b"--\n";

pub fn print(log: &Log, answer: &Answer) -> Vec<u8> {
    let names = log.names.all();
    // Capacity for usual answers; others grow when they need it.
    let mut out = Vec::with_capacity(18 * log.txns.len() + 8 * answer.shows.len() + 16 * names.len() + 64);
    print_replies(&mut out, &log.txns, 0, &answer.replies, &answer.shows);
    out.extend_from_slice(BETWEEN);
    print_entries(&mut out, &in_order(names, log.store.len()), names, &answer.cells);
    out
}

/// The replies of transactions that follow this many others.
pub fn print_replies(out: &mut Vec<u8>, txns: &Columns, before: usize, replies: &[Reply], shows: &[i64]) {
    let mut counter = Counter::new(before);
    for (index, reply) in replies.iter().enumerate() {
        counter.step();
        push_reply(out, counter.text(), *reply, &shows[txns.shows(index)..txns.shows(index + 1)]);
    }
}

/// The values of these keys in the final store.
pub fn print_entries(out: &mut Vec<u8>, keys: &[u32], names: &[Name], cells: &[Cell]) {
    for key in keys {
        let cell = cells[*key as usize];
        if cell.present {
            let (bytes, size) = names[*key as usize].bytes();
            out.extend_from_slice(&bytes[..size]);
            out.push(b' ');
            push_number(out, cell.value);
            out.push(b'\n');
        }
    }
}
