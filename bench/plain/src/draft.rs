//! The transaction that is being read: the names that it declares and binds, and its current statement.
//! Terms and statements go to their columns at once, declared keys when the transaction is closed: they are
//! numbered together, so that cache misses in the table of names overlap.

use crate::log::{
    Act, Columns, Comparison, MOST_KEYS, MOST_STATEMENTS, MOST_TERMS, NOWHERE, Source, Statement, Term,
};
use crate::names::{Known, Name, Numbers, glimpse};
use crate::text::Window;

pub struct Draft {
    reads: Vec<Known>,
    writes: Vec<Known>,
    /// For each write its index among the reads, or `NOWHERE`.
    own: Vec<u8>,
    locals: Vec<Known>,
    /// By a local's `glance`: the transaction that last bound such a local, and the local's index.
    bound: [(u32, u8); 256],
    txn: u32,
    /// The indices of the read and of the write that are expected next.
    next_read: usize,
    next_write: usize,
    /// By a name's `glance`: its index among the reads when it was last looked up, perhaps in another
    /// transaction.
    places: [u8; 256],
    statement: Statement,
    /// Which of the statement's sums is being read, from 1, and how many of its terms are kept.
    sum: usize,
    terms: usize,
    shows: u32,
    large: usize,
}

const NONE: Statement =
    Statement { act: Act::Fail, comparison: Comparison::Equal, place: NOWHERE, terms: [0; 3] };

impl Draft {
    pub fn new() -> Draft {
        Draft {
            reads: Vec::new(),
            writes: Vec::new(),
            own: Vec::new(),
            locals: Vec::new(),
            bound: [(0, 0); 256],
            txn: 0,
            next_read: 0,
            next_write: 0,
            places: [0; 256],
            statement: NONE,
            sum: 0,
            terms: 0,
            shows: 0,
            large: 0,
        }
    }

    #[inline(always)]
    pub fn clear(&mut self) {
        self.reads.clear();
        self.writes.clear();
        self.own.clear();
        self.locals.clear();
        self.txn += 1;
        self.next_read = 0;
        self.next_write = 0;
        self.shows = 0;
        self.large = 0;
    }

    #[inline(always)]
    pub fn declare_read(&mut self, name: Name, size: usize) {
        self.reads.push(Known { name, size });
    }

    #[inline(always)]
    pub fn declare_write(&mut self, name: Name, size: usize) {
        self.writes.push(Known { name, size });
    }

    /// Finds the writes among the reads. If either aren't in rising order, the check refuses the transaction.
    #[inline(always)]
    pub fn match_writes(&mut self) {
        let mut read = 0;
        for write in &self.writes {
            while read < self.reads.len() && self.reads[read].name < write.name {
                read += 1;
            }
            let found = read < self.reads.len() && self.reads[read].name == write.name;
            self.own.push(if found { read.min(usize::from(NOWHERE)) as u8 } else { NOWHERE });
        }
    }

    #[inline(always)]
    pub fn open(&mut self, act: Act) {
        self.statement = Statement { act, ..NONE };
        // The sides of a comparison are the second and the third sum.
        self.sum = usize::from(act == Act::Need);
    }

    #[inline(always)]
    pub fn open_sum(&mut self) {
        self.sum += 1;
        self.terms = 0;
    }

    #[inline(always)]
    pub fn close_sum(&mut self) {
        self.statement.terms[self.sum - 1] = self.terms as u8;
    }

    /// Notes that the sum was that of a guarded `set`.
    pub fn guard(&mut self) {
        self.statement.act = Act::PutWhen;
    }

    #[inline(always)]
    pub fn compare(&mut self, comparison: Comparison) {
        self.statement.comparison = comparison;
    }

    /// Adds a `need has` or a `need no`.
    pub fn test(&mut self, act: Act, name: &Name) {
        self.open(act);
        self.statement.place = self.place_of_read(name);
    }

    /// Binds the local, unless it is bound already.
    pub fn bind(&mut self, name: Name, size: usize) {
        let index = self.locals.len();
        // A transaction with more locals has too many statements.
        if index < MOST_STATEMENTS && self.index_of_local(&name).is_none() {
            self.statement.place = (MOST_KEYS + index) as u8;
            self.bound[Name::glance(name.first_word())] = (self.txn, index as u8);
            self.locals.push(Known { name, size });
        }
    }

    fn index_of_local(&self, name: &Name) -> Option<usize> {
        let (txn, index) = self.bound[Name::glance(name.first_word())];
        if txn != self.txn {
            return None;
        }
        if self.locals[usize::from(index)].name == *name {
            return Some(usize::from(index));
        }
        self.locals.iter().position(|local| local.name == *name)
    }

    #[inline(always)]
    fn push(&mut self, txns: &mut Columns, term: Term) {
        if self.terms <= MOST_TERMS {
            self.terms += 1;
            txns.terms.push(term);
        } else if let Some(last) = txns.terms.last_mut() {
            // The statement is refused for its worst term, or for the length of the sum.
            if term.source > last.source {
                *last = term;
            }
        }
    }

    #[inline(always)]
    pub fn literal(&mut self, txns: &mut Columns, minus: bool, number: u64) {
        if let Ok(value) = u16::try_from(number) {
            self.push(txns, Term { source: Source::Small, minus, value });
        } else {
            txns.large.push(number);
            self.large += 1;
            // A checked transaction has fewer large literals than 65,536.
            self.push(txns, Term { source: Source::Large, minus, value: (self.large - 1) as u16 });
        }
    }

    /// Reads the local whose name begins at `at`; returns where it ends.
    #[inline(always)]
    pub fn local(&mut self, txns: &mut Columns, minus: bool, text: Window, at: usize) -> Option<usize> {
        let (index, end) = match self.glimpsed_local(text, at) {
            Some(found) => found,
            None => {
                let (name, end) = Name::scan(text, at)?;
                match self.index_of_local(&name) {
                    Some(index) => (index, end),
                    None => {
                        self.push(txns, Term { source: Source::Unbound, minus, value: 0 });
                        return Some(end);
                    }
                }
            }
        };
        self.push(txns, Term { source: Source::Local, minus, value: (MOST_KEYS + index) as u16 });
        Some(end)
    }

    /// A local of less than eight bytes that is the last one with its `glance`, and where it ends.
    #[inline(always)]
    fn glimpsed_local(&self, text: Window, at: usize) -> Option<(usize, usize)> {
        let (word, size) = glimpse(text, at)?;
        let (txn, index) = self.bound[Name::glance(word)];
        let index = usize::from(index);
        (txn == self.txn && self.locals[index].name.first_word() == word).then_some((index, at + size))
    }

    /// Reads the key whose name begins at `at`; returns where it ends.
    #[inline(always)]
    pub fn read(&mut self, txns: &mut Columns, minus: bool, text: Window, at: usize) -> Option<usize> {
        let (place, end) = match self.glimpsed_read(text, at) {
            Some(found) => found,
            None => {
                let (name, end) = Name::scan(text, at)?;
                (usize::from(self.place_of_read(&name)), end)
            }
        };
        self.next_read = place + 1;
        let source = if place == usize::from(NOWHERE) { Source::Unread } else { Source::Read };
        self.push(txns, Term { source, minus, value: place as u16 });
        Some(end)
    }

    /// The read that is expected next, or one of less than eight bytes, and where it ends. The text is
    /// compared in place: no name is made from it.
    #[inline(always)]
    fn glimpsed_read(&mut self, text: Window, at: usize) -> Option<(usize, usize)> {
        let reads = &self.reads[..self.reads.len().min(MOST_KEYS)];
        let Some((word, size)) = glimpse(text, at) else {
            let expected = reads.get(self.next_read)?;
            return expected.stands(text, at).then_some((self.next_read, at + expected.size));
        };
        let is_it = |read: &Known| read.name.first_word() == word;
        let is = |place: usize| reads.get(place).is_some_and(is_it);
        if is(self.next_read) {
            return Some((self.next_read, at + size));
        }
        let last = &mut self.places[Name::glance(word)];
        if !is(usize::from(*last)) {
            *last = reads.iter().position(is_it)? as u8;
        }
        Some((usize::from(*last), at + size))
    }

    /// The key's index among the reads; it looks at as many as a checked transaction can have.
    fn place_of_read(&self, name: &Name) -> u8 {
        let reads = &self.reads[..self.reads.len().min(MOST_KEYS)];
        reads.iter().position(|read| read.name == *name).map_or(NOWHERE, |place| place as u8)
    }

    /// Opens a `set` or a `drop` of the key whose name begins at `at`; returns where it ends.
    #[inline(always)]
    pub fn target(&mut self, act: Act, text: Window, at: usize) -> Option<usize> {
        self.open(act);
        let count = self.writes.len().min(MOST_KEYS);
        let mut found = self.next_write;
        if found >= count || !self.writes[found].stands(text, at) {
            let stands = |write: &Known| write.stands(text, at);
            match self.writes[..count].iter().position(stands) {
                Some(place) => found = place,
                None => return Some(Name::scan(text, at)?.1),
            }
        }
        self.statement.place = found as u8;
        self.next_write = if found + 1 < count { found + 1 } else { 0 };
        // A written key is usually read in its own sum.
        if self.own[found] != NOWHERE {
            self.next_read = usize::from(self.own[found]);
        }
        Some(at + self.writes[found].size)
    }

    #[inline(always)]
    pub fn close_statement(&mut self, txns: &mut Columns) {
        self.shows += u32::from(self.statement.act == Act::Show);
        txns.body.push(self.statement);
    }

    #[inline(always)]
    pub fn close(&mut self, txns: &mut Columns, names: &mut impl Numbers) {
        let first = txns.reads.len();
        for read in &self.reads {
            txns.reads.push(names.number(&read.name));
        }
        for (write, own) in self.writes.iter().zip(&self.own) {
            let key = match *own {
                NOWHERE => names.number(&write.name),
                place => txns.reads[first + usize::from(place)],
            };
            txns.writes.push(key);
        }
        txns.own.extend_from_slice(&self.own);
        txns.close(self.shows);
    }
}
