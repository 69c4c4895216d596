//! Queries, written from document 01's words alone: which bytes are one, and where it is true. Nothing of ours is used.
//!
//! The bytes are not read from the left: they are cut at what binds weakest, and the parts are cut again. How many marks are open at once
//! is how deep they stand in each other, so it is counted when all is read.
use crate::maps::dense::Dense;
use std::ops::Range;

/// The most bytes.
pub const BYTES: usize = 64;

/// The most `!` and `(` that are open at once.
pub const OPEN: usize = 16;

pub enum Query {
    /// The instants where a map, which is B or else A, holds a value.
    Atom(bool, u8),
    Not(Box<Query>),
    Group(Box<Query>),
    All(Vec<Query>),
    Any(Vec<Query>),
}

/// The parts between the marks that stand in no parentheses. Nothing if the parentheses are no pairs.
fn cut(bytes: &[u8], mark: u8) -> Option<Vec<&[u8]>> {
    let (mut parts, mut from, mut inside) = (Vec::new(), 0, 0usize);
    for (i, &byte) in bytes.iter().enumerate() {
        match byte {
            b'(' => inside += 1,
            b')' => inside = inside.checked_sub(1)?,
            _ if byte == mark && inside == 0 => {
                parts.push(&bytes[from..i]);
                from = i + 1;
            }
            _ => {}
        }
    }
    parts.push(&bytes[from..]);
    (inside == 0).then_some(parts)
}

/// `|` binds weakest.
fn any(bytes: &[u8]) -> Option<Query> {
    let parts = cut(bytes, b'|')?.into_iter().map(all);
    parts.collect::<Option<_>>().map(Query::Any)
}

fn all(bytes: &[u8]) -> Option<Query> {
    let parts = cut(bytes, b'&')?.into_iter().map(one);
    parts.collect::<Option<_>>().map(Query::All)
}

/// What stands between `&` and `|`.
fn one(bytes: &[u8]) -> Option<Query> {
    match bytes {
        [b'!', rest @ ..] => Some(Query::Not(Box::new(one(rest)?))),
        [b'(', inner @ .., b')'] => Some(Query::Group(Box::new(any(inner)?))),
        [map @ (b'A' | b'B'), digit @ b'0'..=b'9'] => Some(Query::Atom(*map == b'B', digit - b'0')),
        _ => None,
    }
}

/// What the bytes spell, of any length and with any number of open marks.
pub fn spelt(bytes: &[u8]) -> Option<Query> {
    any(bytes)
}

/// The query that the bytes are, if they are one.
pub fn query(bytes: &[u8]) -> Option<Query> {
    if !(1..=BYTES).contains(&bytes.len()) {
        return None;
    }
    spelt(bytes).filter(|query| query.open() <= OPEN)
}

impl Query {
    /// The most marks that are open at once. A `!` is open until its operand ends.
    pub fn open(&self) -> usize {
        match self {
            Query::Atom(..) => 0,
            Query::Not(operand) | Query::Group(operand) => 1 + operand.open(),
            Query::All(parts) | Query::Any(parts) => {
                parts.iter().map(Query::open).max().unwrap_or(0)
            }
        }
    }

    /// Whether it is true at an instant, by what the two maps hold there.
    pub fn holds(&self, a: Option<u8>, b: Option<u8>) -> bool {
        match self {
            Query::Atom(of_b, value) => (if *of_b { b } else { a }) == Some(*value),
            Query::Not(operand) => !operand.holds(a, b),
            Query::Group(operand) => operand.holds(a, b),
            Query::All(parts) => parts.iter().all(|part| part.holds(a, b)),
            Query::Any(parts) => parts.iter().any(|part| part.holds(a, b)),
        }
    }

    /// The true cells of a window.
    pub fn result(&self, a: &Dense, b: &Dense, window: Range<usize>) -> Dense {
        let mut result = Dense::empty(a.count());
        for cell in window {
            if self.holds(a.holds(cell), b.holds(cell)) {
                result.give(cell..cell + 1, Some(0));
            }
        }
        result
    }
}
