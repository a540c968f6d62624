//! The effect of a transaction, and the log run one transaction after another.

use crate::log::{
    Act, Columns, Comparison, Log, MOST_KEYS, NOWHERE, REGISTERS, Source, Statement, Term, Txn,
};

#[derive(Clone, Copy)]
#[repr(u8)]
pub enum Reason {
    Need,
    Fail,
    Absent,
    Range,
}

#[derive(Clone, Copy)]
pub enum Reply {
    /// Its shown values are where its log says.
    Commit,
    /// The reason, and the statement from 1.
    Abort(Reason, u8),
}

#[derive(Clone, Copy, Default)]
pub struct Cell {
    pub value: i64,
    pub present: bool,
}

/// Evaluates one transaction at a time.
pub struct Machine {
    registers: [i64; REGISTERS],
    /// The reads that are missing, a bit for each.
    missing: u32,
    /// The cells that were set or dropped, and which ones, a bit for each.
    cells: [Cell; MOST_KEYS],
    performed: u32,
    shows: [i64; MOST_KEYS],
    shown: usize,
}

impl Machine {
    pub fn new() -> Machine {
        Machine {
            registers: [0; REGISTERS],
            missing: 0,
            cells: [Cell::default(); MOST_KEYS],
            performed: 0,
            shows: [0; MOST_KEYS],
            shown: 0,
        }
    }

    /// Starts a transaction, before its reads.
    #[inline(always)]
    pub fn clear(&mut self) {
        self.missing = 0;
    }

    #[inline(always)]
    pub fn read(&mut self, place: usize, cell: Cell) {
        self.registers[place] = cell.value;
        self.missing |= u32::from(!cell.present) << place;
    }

    /// The cell of a read that was passed in.
    #[inline(always)]
    pub fn cell(&self, place: usize) -> Cell {
        Cell { value: self.registers[place], present: self.missing >> place & 1 == 0 }
    }

    /// The cell that the transaction leaves at a write, unless that wasn't performed.
    #[inline(always)]
    pub fn written(&self, place: usize) -> Option<Cell> {
        (self.performed >> place & 1 == 1).then(|| self.cells[place])
    }

    pub fn shows(&self) -> &[i64] {
        &self.shows[..self.shown]
    }

    /// Runs the body on the reads that were passed in.
    #[inline(always)]
    pub fn run(&mut self, txn: &Txn, sees_writes: bool) -> Reply {
        self.performed = 0;
        self.shown = 0;
        let mut terms = txn.terms;
        for (index, statement) in txn.body.iter().enumerate() {
            if let Err(reason) = self.perform(statement, &mut terms, txn, sees_writes) {
                return Reply::Abort(reason, index as u8 + 1);
            }
        }
        Reply::Commit
    }

    #[inline(always)]
    fn perform(
        &mut self,
        statement: &Statement,
        terms: &mut &[Term],
        txn: &Txn,
        sees_writes: bool,
    ) -> Result<(), Reason> {
        let place = usize::from(statement.place);
        match statement.act {
            Act::Put => {
                let value = self.sum(take(terms, statement.terms[0]), txn.large)?;
                self.write(place, Cell { value, present: true }, txn, sees_writes);
            }
            Act::Need => {
                if !self.holds(statement, terms, txn.large)? {
                    return Err(Reason::Need);
                }
            }
            Act::Bind => self.registers[place] = self.sum(take(terms, statement.terms[0]), txn.large)?,
            Act::Show => {
                self.shows[self.shown] = self.sum(take(terms, statement.terms[0]), txn.large)?;
                self.shown += 1;
            }
            Act::PutWhen => {
                let sum = take(terms, statement.terms[0]);
                if self.holds(statement, terms, txn.large)? {
                    let value = self.sum(sum, txn.large)?;
                    self.write(place, Cell { value, present: true }, txn, sees_writes);
                }
            }
            Act::Drop => self.write(place, Cell::default(), txn, sees_writes),
            Act::Has | Act::Lacks => {
                if self.cell(place).present != (statement.act == Act::Has) {
                    return Err(Reason::Need);
                }
            }
            Act::Fail => return Err(Reason::Fail),
        }
        Ok(())
    }

    #[inline(always)]
    fn write(&mut self, place: usize, cell: Cell, txn: &Txn, sees_writes: bool) {
        self.cells[place] = cell;
        self.performed |= 1 << place;
        if sees_writes && txn.own[place] != NOWHERE {
            let read = usize::from(txn.own[place]);
            self.missing &= !(1 << read);
            self.read(read, cell);
        }
    }

    #[inline(always)]
    fn holds(&self, statement: &Statement, terms: &mut &[Term], large: &[u64]) -> Result<bool, Reason> {
        let left = self.sum(take(terms, statement.terms[1]), large)?;
        let right = self.sum(take(terms, statement.terms[2]), large)?;
        Ok(match statement.comparison {
            Comparison::Less => left < right,
            Comparison::AtMost => left <= right,
            Comparison::Equal => left == right,
            Comparison::AtLeast => left >= right,
            Comparison::More => left > right,
        })
    }

    #[inline(always)]
    fn sum(&self, terms: &[Term], large: &[u64]) -> Result<i64, Reason> {
        let is_missing = |term: &Term| term.source == Source::Read && self.missing >> term.value & 1 == 1;
        if self.missing != 0 && terms.iter().any(is_missing) {
            return Err(Reason::Absent);
        }
        let total = terms.iter().fold(0i128, |total, term| {
            let value = match term.source {
                Source::Small => i64::from(term.value),
                Source::Large => large[usize::from(term.value)] as i64,
                _ => self.registers[usize::from(term.value)],
            };
            let value = i128::from(value);
            total + if term.minus { -value } else { value }
        });
        i64::try_from(total).map_err(|_| Reason::Range)
    }
}

/// The first `count` of the terms, which are taken from them.
#[inline(always)]
fn take<'a>(terms: &mut &'a [Term], count: u8) -> &'a [Term] {
    let (first, others) = terms.split_at(usize::from(count));
    *terms = others;
    first
}

/// Whether the transaction commits on every store, with the same cells.
pub fn is_sure(txn: &Txn) -> bool {
    let (mut terms, mut targets) = (txn.terms, 0u32);
    let machine = Machine::new();
    for statement in txn.body {
        match statement.act {
            Act::Put | Act::Drop => targets |= 1 << statement.place,
            Act::Show => {}
            _ => return false,
        }
        let sum = take(&mut terms, statement.terms[0]);
        if sum.iter().any(|term| term.source > Source::Large) || machine.sum(sum, txn.large).is_err() {
            return false;
        }
    }
    targets.count_ones() as usize == txn.writes.len()
}

/// The result of a log: the replies, the shown values where the log says, and a cell for each key.
pub struct Answer {
    pub replies: Vec<Reply>,
    pub shows: Vec<i64>,
    pub cells: Vec<Cell>,
}

/// A cell for each key, as the starting store has them.
pub fn starting_cells(log: &Log) -> Vec<Cell> {
    let mut cells = vec![Cell::default(); log.names.all().len()];
    for (cell, value) in cells.iter_mut().zip(&log.store) {
        *cell = Cell { value: *value, present: true };
    }
    cells
}

pub fn serial(log: &Log) -> Answer {
    let mut cells = starting_cells(log);
    let mut shows = vec![0; log.txns.shows(log.txns.len())];
    let replies = run_all(&log.txns, log.sees_writes(), &mut cells, &mut shows, |key| key);
    Answer { replies, shows, cells }
}

/// Runs one transaction after another. A key's cell is the one with the index that `number` gives; shown values
/// go where the columns say.
#[inline(always)]
pub fn run_all(
    txns: &Columns,
    sees_writes: bool,
    cells: &mut [Cell],
    shows: &mut [i64],
    number: impl Fn(u32) -> u32,
) -> Vec<Reply> {
    let mut machine = Machine::new();
    let run = |index| {
        let txn = txns.txn(index);
        machine.clear();
        for (place, key) in txn.reads.iter().enumerate() {
            machine.read(place, cells[number(*key) as usize]);
        }
        let reply = machine.run(&txn, sees_writes);
        if let Reply::Commit = reply {
            for (place, key) in txn.writes.iter().enumerate() {
                if let Some(cell) = machine.written(place) {
                    cells[number(*key) as usize] = cell;
                }
            }
            shows[txns.shows(index)..txns.shows(index + 1)].copy_from_slice(machine.shows());
        }
        reply
    };
    (0..txns.len()).map(run).collect()
}
