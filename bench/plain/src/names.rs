//! Names as four words, and numbers for them.

use crate::text::Window;
use std::hash::{BuildHasher, RandomState};

/// A name of up to 32 bytes, big-endian and padded with zeros: names are ordered as their words.
#[derive(Clone, Copy, Default, Eq, PartialOrd, Ord)]
pub struct Name([u64; 4]);

impl PartialEq for Name {
    #[inline(always)]
    fn eq(&self, other: &Name) -> bool {
        // A first word that ends in a zero is the whole name.
        self.0[0] == other.0[0] && (self.0[0] & 255 == 0 || self.0[1..] == other.0[1..])
    }
}

const LOW: u64 = 0x0101_0101_0101_0101;
const HIGH: u64 = 0x8080_8080_8080_8080;

/// The top bit of each byte that can't be in a name.
#[inline(always)]
fn strange(word: u64) -> u64 {
    let seven = word & !HIGH;
    let from = |first: u8| seven + LOW * (0x80 - u64::from(first));
    let letter = from(b'a') & !from(b'z' + 1);
    let digit = from(b'0') & !from(b'9' + 1);
    let line = from(b'_') & !from(b'_' + 1);
    (!(letter | digit | line) | word) & HIGH
}

/// The first `count` bytes of a word, of which it has at least one.
#[inline(always)]
fn front(word: u64, count: usize) -> u64 {
    word & (u64::MAX << (64 - 8 * count))
}

impl Name {
    /// The name that begins at `at`, and where it ends.
    #[inline(always)]
    pub fn scan(text: Window, at: usize) -> Option<(Name, usize)> {
        let word = text.word(at);
        if !((word >> 56) as u8).is_ascii_lowercase() {
            return None;
        }
        let others = strange(word);
        if others == 0 {
            return Name::scan_on(text, at);
        }
        let count = others.leading_zeros() as usize / 8;
        Some((Name([front(word, count), 0, 0, 0]), at + count))
    }

    /// The same for a name of at least eight bytes.
    fn scan_on(text: Window, at: usize) -> Option<(Name, usize)> {
        let mut words = [0; 4];
        for (number, place) in words.iter_mut().enumerate() {
            let word = text.word(at + 8 * number);
            let count = strange(word).leading_zeros() as usize / 8;
            if count == 0 {
                return Some((Name(words), at + 8 * number));
            }
            *place = front(word, count);
            if count < 8 {
                return Some((Name(words), at + 8 * number + count));
            }
        }
        (strange(text.word(at + 32)) >> 63 == 1).then_some((Name(words), at + 32))
    }

    #[inline(always)]
    pub fn first_word(&self) -> u64 {
        self.0[0]
    }

    /// A number below 256 that is the same for names with the same first word.
    #[inline(always)]
    pub fn glance(first_word: u64) -> usize {
        (first_word.wrapping_mul(0x9e37_79b9_7f4a_7c15) >> 56) as usize
    }

    pub fn bytes(&self) -> ([u8; 32], usize) {
        let mut bytes = [0; 32];
        for (number, word) in self.0.iter().enumerate() {
            bytes[8 * number..8 * number + 8].copy_from_slice(&word.to_be_bytes());
        }
        let size = bytes.iter().position(|byte| *byte == 0).unwrap_or(32);
        (bytes, size)
    }
}

/// A name that may occur again, with its size: it is recognized in the text without parsing a name there.
#[derive(Clone, Copy)]
pub struct Known {
    pub name: Name,
    pub size: usize,
}

impl Known {
    /// Whether the name is at `at`, followed by a space or a newline.
    #[inline(always)]
    pub fn stands(&self, text: Window, at: usize) -> bool {
        if self.size <= 8 {
            (text.word(at) ^ self.name.0[0]) >> (64 - 8 * self.size) == 0 && text.byte(at + self.size) <= b' '
        } else {
            self.stands_on(text, at)
        }
    }

    fn stands_on(&self, text: Window, at: usize) -> bool {
        let differs = |number: usize| {
            let count = self.size.saturating_sub(8 * number).min(8);
            count > 0 && (text.word(at + 8 * number) ^ self.name.0[number]) >> (64 - 8 * count) != 0
        };
        !(0..4).any(differs) && text.byte(at + self.size) <= b' '
    }
}

/// The bytes before the next space or newline, if they are fewer than eight: as the first word of a name, and
/// their count. They may be no name, but then this is the first word of none.
#[inline(always)]
pub fn glimpse(text: Window, at: usize) -> Option<(u64, usize)> {
    let word = text.word(at);
    // The top bit of each byte up to a space; a byte before it may be counted too, if no name contains that
    // byte.
    let ends = word.wrapping_sub(LOW * 0x21) & !word & HIGH;
    let bits = ends.leading_zeros();
    (bits < 64).then(|| (word & !(u64::MAX >> bits), bits as usize / 8))
}

#[derive(Clone, Copy)]
struct Slot {
    first: u64,
    number: u32,
}

const FREE: Slot = Slot { first: 0, number: 0 };

/// Names, numbered in order of arrival: a hash table with open addressing, at most half full. Its hash has a
/// new seed in each run, so that no log can choose names that collide.
pub struct Names {
    table: Vec<Slot>,
    shift: u32,
    seed: u64,
    names: Vec<Name>,
    /// How many of the names are in the table.
    indexed: usize,
}

impl Names {
    pub fn new() -> Names {
        let mut names = Names {
            table: Vec::new(),
            shift: 0,
            seed: RandomState::new().hash_one(0u64),
            names: Vec::new(),
            indexed: 0,
        };
        names.rebuild(12);
        names
    }

    pub fn all(&self) -> &[Name] {
        &self.names
    }

    pub fn into_all(self) -> Vec<Name> {
        self.names
    }

    #[inline(always)]
    fn home(&self, name: &Name) -> usize {
        let mut hash = fold(self.seed, name.0[0]);
        if name.0[1] != 0 {
            hash = fold(fold(fold(hash, name.0[1]), name.0[2]), name.0[3]);
        }
        (hash >> self.shift) as usize
    }

    /// The name's number, if it has one.
    #[inline(always)]
    pub fn find(&self, name: &Name) -> Option<u32> {
        let mask = self.table.len() - 1;
        let mut at = self.home(name);
        loop {
            let slot = self.table[at & mask];
            if slot.first == name.0[0] && (slot.first & 255 == 0 || self.names[slot.number as usize] == *name)
            {
                return Some(slot.number);
            }
            if slot.first == 0 {
                return None;
            }
            at += 1;
        }
    }

    /// Gives a new name the next number. The name can't be found before `index`.
    #[inline(always)]
    pub fn push(&mut self, name: Name) {
        self.names.push(name);
    }

    /// Makes all names findable: one table of the final size is cheaper than one that grows with them.
    pub fn index(&mut self) {
        if self.indexed < self.names.len() {
            let slots = (2 * self.names.len()).next_power_of_two().max(self.table.len());
            self.rebuild(slots.trailing_zeros());
        }
    }

    #[inline(never)]
    fn add(&mut self, at: usize, name: &Name) -> u32 {
        let number = self.names.len() as u32;
        self.table[at] = Slot { first: name.0[0], number };
        self.names.push(*name);
        self.indexed += 1;
        if self.names.len() * 2 > self.table.len() {
            self.rebuild(65 - self.shift);
        }
        number
    }

    /// Rebuilds the table with this many bits.
    fn rebuild(&mut self, bits: u32) {
        self.shift = 64 - bits;
        self.table = vec![FREE; 1 << bits];
        self.indexed = self.names.len();
        let mask = self.table.len() - 1;
        for (number, name) in self.names.iter().enumerate() {
            let mut at = self.home(name);
            while self.table[at & mask].first != 0 {
                at += 1;
            }
            self.table[at & mask] = Slot { first: name.0[0], number: number as u32 };
        }
    }
}

/// Gives names numbers.
pub trait Numbers {
    /// The name's number; a new name gets the next one.
    fn number(&mut self, name: &Name) -> u32;
}

impl Numbers for Names {
    #[inline(always)]
    fn number(&mut self, name: &Name) -> u32 {
        let mask = self.table.len() - 1;
        let mut at = self.home(name);
        loop {
            let slot = self.table[at & mask];
            if slot.first == name.0[0] && (slot.first & 255 == 0 || self.names[slot.number as usize] == *name)
            {
                return slot.number;
            }
            // A name's first word is never 0.
            if slot.first == 0 {
                return self.add(at & mask, name);
            }
            at += 1;
        }
    }
}

/// Names that threads share and none adds to, followed by those that one thread met first.
pub struct Layered<'a> {
    pub shared: &'a Names,
    pub own: Names,
}

impl Layered<'_> {
    pub fn name(&self, number: u32) -> &Name {
        let (shared, own) = (&self.shared.names, &self.own.names);
        shared.get(number as usize).unwrap_or_else(|| &own[number as usize - shared.len()])
    }
}

impl Numbers for Layered<'_> {
    #[inline(always)]
    fn number(&mut self, name: &Name) -> u32 {
        match self.shared.find(name) {
            Some(number) => number,
            None => self.shared.names.len() as u32 + self.own.number(name),
        }
    }
}

/// Both halves of the product, folded together.
#[inline(always)]
fn fold(hash: u64, word: u64) -> u64 {
    let product = u128::from(hash ^ word) * 0x9e37_79b9_7f4a_7c15;
    product as u64 ^ (product >> 64) as u64
}
