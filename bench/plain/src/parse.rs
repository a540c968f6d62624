//! Parses the text into a log, in one pass, with the exact first bad line.

use crate::draft::Draft;
use crate::fault::Fault;
use crate::log::{Act, Columns, Comparison, Edition, Log};
use crate::names::{Name, Numbers};
use crate::text::{Text, Window};

const fn four(word: &[u8; 4]) -> u32 {
    u32::from_be_bytes(*word)
}
const TXN: u32 = four(b"txn\n");
const END: u32 = four(b"end\n");
const SET: u32 = four(b"set ");
const NEED: u32 = four(b"need");
const SHOW: u32 = four(b"show");
const LET: u32 = four(b"let ");
const DROP: u32 = four(b"drop");
const FAIL: u32 = four(b"fail");

/// The token that ends a sum.
enum Stop {
    Line,
    When,
    Compare(Comparison),
}

pub struct Parser<'a> {
    text: Window<'a>,
    at: usize,
    /// Where the line that is being read begins.
    line: usize,
    draft: &'a mut Draft,
}

/// Parses the whole log. The window is read line by line for the head and the store, then transaction by
/// transaction; a part that the window cuts off is read again when more bytes have been read.
pub fn parse(text: &mut Text) -> Result<Log, Fault> {
    read_log(text, false).map(|(log, _)| log)
}

/// The head and the store; also returns where the first transaction begins, or the window ends.
pub fn parse_store(text: &mut Text) -> Result<(Log, usize), Fault> {
    let (mut log, at) = read_log(text, true)?;
    log.names.index();
    Ok((log, at))
}

fn read_log(text: &mut Text, is_store: bool) -> Result<(Log, usize), Fault> {
    let (mut log, mut draft, mut at) = (Log::new(), Draft::new(), 0);
    loop {
        let mut parser = Parser::new(text.window(), at, &mut draft);
        let from = if is_store { parser.entries(&mut log) } else { parser.parts(&mut log) };
        let line = parser.line;
        if is_store && log.edition.is_some() && starts_txn(text.window(), from) {
            return Ok((log, from));
        }
        if text.read_on(from)? > 0 {
            log.txns.reopen();
            at = 0;
        } else if text.window().len() == 0 && log.edition.is_some() {
            return Ok((log, 0));
        } else {
            return Err(match bad_line(text.window(), line - from, true) {
                Some(line) => Fault::Line(log.lines() + line),
                None => Fault::Short,
            });
        }
    }
}

/// Whether the line that begins at `at` is `txn`.
#[inline(always)]
fn starts_txn(text: Window, at: usize) -> bool {
    (text.word(at) >> 32) as u32 == TXN
}

/// The number of the line that begins at `line`, from 1; none if the text ends within it.
pub fn bad_line(text: Window, line: usize, is_last: bool) -> Option<usize> {
    let (before, behind) = text.bytes().split_at(line);
    let is_short = is_last && !behind.contains(&b'\n');
    (!is_short).then(|| before.iter().filter(|byte| **byte == b'\n').count() + 1)
}

impl<'a> Parser<'a> {
    /// A parser that continues at `at`, where a line begins.
    pub fn new(text: Window<'a>, at: usize, draft: &'a mut Draft) -> Parser<'a> {
        Parser { text, at, line: at, draft }
    }

    /// Reads all transactions of a window that ends with one; the error is where the first bad line
    /// begins.
    pub fn txns(&mut self, txns: &mut Columns, names: &mut impl Numbers) -> Result<(), usize> {
        while self.at < self.text.len() {
            self.line = self.at;
            self.txn(txns, names).ok_or(self.line)?;
        }
        Ok(())
    }

    /// Reads all parts that are complete in the window; returns where the first other one begins.
    fn parts(&mut self, log: &mut Log) -> usize {
        let mut from = self.at;
        while from < self.text.len() && self.part(log).is_some() {
            from = self.at;
        }
        from
    }

    /// The same for the head and the store.
    fn entries(&mut self, log: &mut Log) -> usize {
        let mut from = self.at;
        while from < self.text.len() && !(log.edition.is_some() && starts_txn(self.text, from)) {
            self.line = from;
            let part = if log.edition.is_some() { self.entry(log) } else { self.head(log) };
            if part.is_none() {
                break;
            }
            from = self.at;
        }
        from
    }

    /// Reads the head, a line of the store, or a transaction.
    #[inline(always)]
    fn part(&mut self, log: &mut Log) -> Option<()> {
        self.line = self.at;
        if log.txns.len() > 0 {
            self.txn(&mut log.txns, &mut log.names)
        } else if log.edition.is_none() {
            self.head(log)
        } else if starts_txn(self.text, self.at) {
            log.names.index();
            self.txn(&mut log.txns, &mut log.names)
        } else {
            self.entry(log)
        }
    }

    #[inline(always)]
    fn byte(&self) -> u8 {
        self.text.byte(self.at)
    }

    #[inline(always)]
    fn next_four(&self) -> u32 {
        (self.text.word(self.at) >> 32) as u32
    }

    #[inline(always)]
    fn eat(&mut self, byte: u8) -> Option<()> {
        (self.byte() == byte).then(|| self.at += 1)
    }

    /// Expects these bytes, at most eight.
    #[inline(always)]
    fn eat_all<const N: usize>(&mut self, bytes: &[u8; N]) -> Option<()> {
        let wanted = bytes.iter().fold(0u64, |word, byte| word << 8 | u64::from(*byte));
        (self.text.word(self.at) >> (64 - 8 * N) == wanted).then(|| self.at += N)
    }

    #[inline(always)]
    fn name(&mut self) -> Option<Name> {
        let (name, end) = Name::scan(self.text, self.at)?;
        self.at = end;
        Some(name)
    }

    /// A number of digits, without leading zeros.
    #[inline(always)]
    fn whole(&mut self, limit: u64) -> Option<u64> {
        let from = self.at;
        let mut number = 0u64;
        loop {
            let digit = self.byte().wrapping_sub(b'0');
            if digit > 9 {
                break;
            }
            // A number of more than 19 digits is refused below.
            number = number.wrapping_mul(10).wrapping_add(u64::from(digit));
            self.at += 1;
        }
        let sound = match self.at - from {
            0 => false,
            1 => true,
            count => count <= 19 && self.text.byte(from) != b'0' && number <= limit,
        };
        sound.then_some(number)
    }

    #[inline(always)]
    fn term(&mut self, txns: &mut Columns, minus: bool) -> Option<()> {
        let first = self.byte();
        if first.is_ascii_digit() {
            let number = self.whole(i64::MAX as u64)?;
            if minus && number == 0 {
                return None;
            }
            self.draft.literal(txns, minus, number);
        } else if first == b'$' {
            self.at = self.draft.local(txns, minus, self.text, self.at + 1)?;
        } else {
            self.at = self.draft.read(txns, minus, self.text, self.at)?;
        }
        Some(())
    }

    #[inline(always)]
    fn sum(&mut self, txns: &mut Columns) -> Option<Stop> {
        self.draft.open_sum();
        let stop = self.terms(txns)?;
        self.draft.close_sum();
        Some(stop)
    }

    #[inline(always)]
    fn terms(&mut self, txns: &mut Columns) -> Option<Stop> {
        let minus = self.eat(b'-').is_some();
        self.term(txns, minus)?;
        loop {
            let [first, sign, second, ..] = self.text.word(self.at).to_be_bytes();
            if first == b'\n' {
                self.at += 1;
                return Some(Stop::Line);
            }
            // There is no branch on which of the two signs it is, since that couldn't be predicted.
            if !matches!(sign, b'+' | b'-') || first != b' ' || second != b' ' {
                return self.stop();
            }
            self.at += 3;
            self.term(txns, sign == b'-')?;
        }
    }

    /// A comparison or `when`, with the spaces around it.
    #[inline]
    fn stop(&mut self) -> Option<Stop> {
        self.eat(b' ')?;
        let first = self.byte();
        if first == b'w' {
            self.eat_all(b"when ")?;
            return Some(Stop::When);
        }
        self.at += 1;
        let wide = first != b'=' && self.eat(b'=').is_some();
        self.eat(b' ')?;
        Some(Stop::Compare(match (first, wide) {
            (b'<', false) => Comparison::Less,
            (b'<', true) => Comparison::AtMost,
            (b'=', _) => Comparison::Equal,
            (b'>', true) => Comparison::AtLeast,
            (b'>', false) => Comparison::More,
            _ => return None,
        }))
    }

    /// A sum to the end of the line.
    #[inline(always)]
    fn last_sum(&mut self, txns: &mut Columns) -> Option<()> {
        matches!(self.sum(txns)?, Stop::Line).then_some(())
    }

    /// A comparison to the end of the line.
    #[inline(always)]
    fn condition(&mut self, txns: &mut Columns) -> Option<()> {
        let Stop::Compare(comparison) = self.sum(txns)? else {
            return None;
        };
        self.draft.compare(comparison);
        self.last_sum(txns)
    }

    #[inline(always)]
    fn set(&mut self, txns: &mut Columns) -> Option<()> {
        self.at = self.draft.target(Act::Put, self.text, self.at)?;
        self.eat_all(b" = ")?;
        match self.sum(txns)? {
            Stop::Line => Some(()),
            Stop::When => {
                self.draft.guard();
                self.condition(txns)
            }
            Stop::Compare(_) => None,
        }
    }

    /// A `need` after its first word.
    #[inline(always)]
    fn need(&mut self, txns: &mut Columns) -> Option<()> {
        let word = self.text.word(self.at);
        let has = (word >> 32) as u32 == four(b"has ");
        if has || word >> 40 == u64::from(four(b"\0no ")) {
            // A key follows before the line's end; else `has` and `no` are themselves keys.
            let from = self.at + if has { 4 } else { 3 };
            if let Some((name, end)) = Name::scan(self.text, from)
                && self.text.byte(end) == b'\n'
            {
                self.at = end + 1;
                self.draft.test(if has { Act::Has } else { Act::Lacks }, &name);
                return Some(());
            }
        }
        self.draft.open(Act::Need);
        self.condition(txns)
    }

    fn bind(&mut self, txns: &mut Columns) -> Option<()> {
        self.eat(b'$')?;
        let from = self.at;
        let name = self.name()?;
        let size = self.at - from;
        self.eat_all(b" = ")?;
        self.draft.open(Act::Bind);
        self.last_sum(txns)?;
        // Its own sum doesn't see the local.
        self.draft.bind(name, size);
        Some(())
    }

    /// A line of the body; false for its `end`.
    #[inline(always)]
    fn statement(&mut self, txns: &mut Columns) -> Option<bool> {
        let word = self.next_four();
        self.at += 4;
        match word {
            SET => self.set(txns)?,
            END => return Some(false),
            NEED => {
                self.eat(b' ')?;
                self.need(txns)?;
            }
            SHOW => {
                self.eat(b' ')?;
                self.draft.open(Act::Show);
                self.last_sum(txns)?;
            }
            LET => self.bind(txns)?,
            DROP => {
                self.eat(b' ')?;
                self.at = self.draft.target(Act::Drop, self.text, self.at)?;
                self.eat(b'\n')?;
            }
            FAIL => {
                self.eat(b'\n')?;
                self.draft.open(Act::Fail);
            }
            _ => return None,
        }
        self.draft.close_statement(txns);
        Some(true)
    }

    #[inline(always)]
    fn txn(&mut self, txns: &mut Columns, names: &mut impl Numbers) -> Option<()> {
        self.draft.clear();
        self.eat_all(b"txn\n")?;
        self.line = self.at;
        self.eat_all(b"reads")?;
        while self.eat(b' ').is_some() {
            let from = self.at;
            let name = self.name()?;
            self.draft.declare_read(name, self.at - from);
        }
        self.eat(b'\n')?;
        self.line = self.at;
        self.eat_all(b"writes")?;
        while self.eat(b' ').is_some() {
            let from = self.at;
            let name = self.name()?;
            self.draft.declare_write(name, self.at - from);
        }
        self.eat(b'\n')?;
        self.draft.match_writes();
        self.line = self.at;
        while self.statement(txns)? {
            self.line = self.at;
        }
        self.draft.close(txns, names);
        Some(())
    }

    fn entry(&mut self, log: &mut Log) -> Option<()> {
        let name = self.name()?;
        self.eat(b' ')?;
        let minus = self.eat(b'-').is_some();
        let number = self.whole(i64::MAX as u64 + u64::from(minus))?;
        if minus && number == 0 {
            return None;
        }
        self.eat(b'\n')?;
        let value = if minus { (number as i64).wrapping_neg() } else { number as i64 };
        log.names.push(name);
        log.store.push(value);
        Some(())
    }

    fn head(&mut self, log: &mut Log) -> Option<()> {
        self.eat_all(b"log ")?;
        let edition = self.byte();
        self.at += 1;
        self.eat(b'\n')?;
        log.edition = match edition {
            b'1' => Some(Edition::One),
            b'2' => Some(Edition::Two),
            _ => return None,
        };
        Some(())
    }
}
