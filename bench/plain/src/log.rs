//! A log as flat columns that its transactions share. A transaction's part of a column begins where its head
//! says, and ends where that of the next one begins; after the last head is one more, for its end.

use crate::names::Names;

/// The limits of a checked transaction.
pub const MOST_KEYS: usize = 16;
pub const MOST_STATEMENTS: usize = 64;
pub const MOST_TERMS: usize = 16;

/// The registers of a running transaction: the values of its reads first, then those of its locals.
pub const REGISTERS: usize = MOST_KEYS + MOST_STATEMENTS;

/// The index of a name that isn't declared, or isn't bound.
pub const NOWHERE: u8 = u8::MAX;

#[derive(Clone, Copy, PartialEq, Eq, PartialOrd, Ord)]
#[repr(u8)]
pub enum Source {
    /// A literal below 65,536.
    Small,
    /// A literal, by its index among the large literals of its transaction.
    Large,
    /// A declared read, by its index.
    Read,
    /// A local that is bound, by its register.
    Local,
    /// A local that no earlier statement binds.
    Unbound,
    /// A key that isn't among the reads.
    Unread,
}

#[derive(Clone, Copy)]
pub struct Term {
    pub source: Source,
    pub minus: bool,
    pub value: u16,
}

#[derive(Clone, Copy, PartialEq, Eq)]
#[repr(u8)]
pub enum Act {
    Bind,
    Need,
    Has,
    Lacks,
    Put,
    PutWhen,
    Drop,
    Show,
    Fail,
}

#[derive(Clone, Copy, PartialEq, Eq)]
#[repr(u8)]
pub enum Comparison {
    Less,
    AtMost,
    Equal,
    AtLeast,
    More,
}

/// A statement. The terms of its sums follow each other: first the sum of a `set`, a `let` or a `show`, then
/// the two sides of a comparison. For a sum that is too long the parser keeps one term more than the limit.
#[derive(Clone, Copy)]
pub struct Statement {
    pub act: Act,
    pub comparison: Comparison,
    /// For a `set` or `drop` the index among the writes, for `has` or `no` among the reads, for `let` the
    /// register.
    pub place: u8,
    pub terms: [u8; 3],
}

#[derive(Clone, Copy, Default)]
struct Head {
    reads: u32,
    writes: u32,
    body: u32,
    terms: u32,
    large: u32,
    shows: u32,
}

#[derive(Clone, Copy, PartialEq, Eq)]
pub enum Edition {
    One,
    /// A body sees its own writes.
    Two,
}

/// Transactions as columns.
pub struct Columns {
    heads: Vec<Head>,
    pub reads: Vec<u32>,
    pub writes: Vec<u32>,
    /// For each write its index among the reads, or `NOWHERE`.
    pub own: Vec<u8>,
    pub body: Vec<Statement>,
    pub terms: Vec<Term>,
    pub large: Vec<u64>,
    shows: u32,
}

pub struct Log {
    /// None before the head is read.
    pub edition: Option<Edition>,
    pub names: Names,
    /// The values of the starting store. Its keys have the first numbers, in the order of their lines.
    pub store: Vec<i64>,
    pub txns: Columns,
}

/// One transaction.
#[derive(Clone, Copy)]
pub struct Txn<'a> {
    pub reads: &'a [u32],
    pub writes: &'a [u32],
    pub own: &'a [u8],
    pub body: &'a [Statement],
    pub terms: &'a [Term],
    pub large: &'a [u64],
}

impl Log {
    pub fn new() -> Log {
        Log { edition: None, names: Names::new(), store: Vec::new(), txns: Columns::new() }
    }

    /// Whether a body sees its own writes.
    pub fn sees_writes(&self) -> bool {
        self.edition == Some(Edition::Two)
    }

    /// How many lines its text has.
    pub fn lines(&self) -> usize {
        usize::from(self.edition.is_some()) + self.store.len() + self.txns.lines()
    }
}

impl Columns {
    pub fn new() -> Columns {
        Columns {
            heads: vec![Head::default()],
            reads: Vec::new(),
            writes: Vec::new(),
            own: Vec::new(),
            body: Vec::new(),
            terms: Vec::new(),
            large: Vec::new(),
            shows: 0,
        }
    }

    /// How many transactions there are.
    pub fn len(&self) -> usize {
        self.heads.len() - 1
    }

    /// How many lines their text has.
    pub fn lines(&self) -> usize {
        4 * self.len() + self.heads.last().map_or(0, |head| head.body as usize)
    }

    /// Removes all transactions, and keeps the capacity.
    pub fn clear(&mut self) {
        self.heads.truncate(1);
        self.reads.clear();
        self.writes.clear();
        self.own.clear();
        self.body.clear();
        self.terms.clear();
        self.large.clear();
        self.shows = 0;
    }

    /// Removes everything after the last transaction.
    pub fn reopen(&mut self) {
        let head = self.heads.last().copied().unwrap_or_default();
        self.body.truncate(head.body as usize);
        self.terms.truncate(head.terms as usize);
        self.large.truncate(head.large as usize);
    }

    /// Closes a transaction from the columns' contents after the last one, with this many `show`s.
    #[inline(always)]
    pub fn close(&mut self, shows: u32) {
        self.shows += shows;
        self.heads.push(Head {
            reads: self.reads.len() as u32,
            writes: self.writes.len() as u32,
            body: self.body.len() as u32,
            terms: self.terms.len() as u32,
            large: self.large.len() as u32,
            shows: self.shows,
        });
    }

    #[inline(always)]
    pub fn txn(&self, index: usize) -> Txn<'_> {
        let [from, to] = *self.heads[index..].first_chunk().expect("a head behind the last transaction");
        let (first_write, end_of_writes) = (from.writes as usize, to.writes as usize);
        Txn {
            reads: &self.reads[from.reads as usize..to.reads as usize],
            writes: &self.writes[first_write..end_of_writes],
            own: &self.own[first_write..end_of_writes],
            body: &self.body[from.body as usize..to.body as usize],
            terms: &self.terms[from.terms as usize..to.terms as usize],
            large: &self.large[from.large as usize..to.large as usize],
        }
    }

    /// The declared keys of a transaction, its reads and its writes.
    #[inline(always)]
    pub fn declared(&self, index: usize) -> (&[u32], &[u32]) {
        let ((reads, writes), (end_of_reads, end_of_writes)) =
            (self.accesses(index), self.accesses(index + 1));
        (&self.reads[reads..end_of_reads], &self.writes[writes..end_of_writes])
    }

    /// Where the reads and the writes of a transaction begin; also for the end.
    #[inline(always)]
    pub fn accesses(&self, index: usize) -> (usize, usize) {
        (self.heads[index].reads as usize, self.heads[index].writes as usize)
    }

    /// Where the shown values of a transaction begin, if it commits; also for the end.
    #[inline(always)]
    pub fn shows(&self, index: usize) -> usize {
        self.heads[index].shows as usize
    }
}
