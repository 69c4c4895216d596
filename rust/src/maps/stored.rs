//! A map as it is stored, and lists as they are lent.
use super::kind::{Entry, Kind};
use crate::ffi::{Applied, Count, Gaps, Map, Range, Told, PLACES};
use std::fmt::{Debug, Formatter, Result};

impl Map {
    pub const EMPTY: Map = Map {
        count: 0,
        starts: [0; PLACES],
        ends: [0; PLACES],
        values: [0; PLACES],
    };

    /// The entries in the first places, and 0 in the others: what every edit has to leave.
    pub fn of(entries: &[Entry]) -> Self {
        let mut map = Map::EMPTY;
        map.count = entries.len();
        for (i, &entry) in entries.iter().enumerate() {
            map.put(i, entry);
        }
        map
    }

    pub fn put(&mut self, place: usize, ((start, end), value): Entry) {
        self.starts[place] = start;
        self.ends[place] = end;
        self.values[place] = value;
    }

    pub fn at(&self, place: usize) -> Entry {
        ((self.starts[place], self.ends[place]), self.values[place])
    }
}

/// Told are the ranges, and the unused places that are not 0.
impl Debug for Map {
    fn fmt(&self, f: &mut Formatter) -> Result {
        write!(f, "{} ranges", self.count)?;
        for place in 0..PLACES {
            let ((start, end), value) = self.at(place);
            let used = place < self.count;
            if used || (start, end, value) != (0, 0, 0) {
                let mark = if used { "" } else { "unused place " };
                write!(f, ", {mark}{place}: {start} to {end} > {value}")?;
            }
        }
        Ok(())
    }
}

pub fn told(yes: bool) -> Told {
    Told {
        answer: 0,
        yes: yes.into(),
    }
}

/// Document 01's answer for an entry that is there, or is not.
pub fn range_of(found: Option<Entry>) -> Range {
    let answer = if found.is_some() { 0 } else { 5 };
    let ((start, end), value) = found.unwrap_or(((0, 0), 0));
    Range {
        answer,
        start,
        end,
        value,
    }
}

/// A lent list, in the middle of places that nobody may touch.
#[derive(Clone, PartialEq, Eq, Debug)]
pub struct Lent {
    places: Vec<i64>,
    length: usize,
}

impl Lent {
    const BESIDE: usize = 2;

    /// Each place holds a number of its own, which no test writes.
    pub fn new(length: usize) -> Self {
        let mark = |i| 0x5AA5_0000_F00D_0000 + i as i64;
        Lent {
            places: (0..length + 2 * Self::BESIDE).map(mark).collect(),
            length,
        }
    }

    /// The list with other numbers in its first places.
    pub fn with(mut self, keys: impl Iterator<Item = i64>) -> Self {
        for (place, key) in self.list().iter_mut().zip(keys) {
            *place = key;
        }
        self
    }

    fn list(&mut self) -> &mut [i64] {
        &mut self.places[Self::BESIDE..][..self.length]
    }
}

/// What a function that writes ranges answers, and what it leaves in the two lists.
pub type Written = (Count, Lent, Lent);

/// Lends two lists of these lengths.
pub fn lend(
    lengths: (usize, usize),
    write: impl FnOnce(&mut [i64], &mut [i64]) -> Count,
) -> Written {
    let (mut starts, mut ends) = (Lent::new(lengths.0), Lent::new(lengths.1));
    let count = write(starts.list(), ends.list());
    (count, starts, ends)
}

pub fn written(
    gaps: Gaps,
    m: &mut Map,
    (start, end): (i64, i64),
    lengths: (usize, usize),
) -> Written {
    lend(lengths, |s, e| {
        // SAFETY: the lists are there, and the map is well formed or the function checks it.
        unsafe {
            gaps(
                m,
                start,
                end,
                s.as_mut_ptr(),
                s.len(),
                e.as_mut_ptr(),
                e.len(),
            )
        }
    })
}

/// The lists with the ranges in their first places, or a refusal and the lists as they were.
pub fn writing(ranges: &[(i64, i64)], lengths: (usize, usize)) -> Written {
    let (starts, ends) = (Lent::new(lengths.0), Lent::new(lengths.1));
    let count = ranges.len();
    if lengths.0.min(lengths.1) < count {
        return (
            Count {
                answer: 3,
                count: 0,
            },
            starts,
            ends,
        );
    }
    (
        Count { answer: 0, count },
        starts.with(ranges.iter().map(|r| r.0)),
        ends.with(ranges.iter().map(|r| r.1)),
    )
}

pub fn refused(answer: u8, lengths: (usize, usize)) -> Written {
    let count = Count { answer, count: 0 };
    (count, Lent::new(lengths.0), Lent::new(lengths.1))
}

/// Lengths of the two lent lists, for a result of so many ranges.
pub type Lengths = fn(usize) -> Vec<(usize, usize)>;

pub fn just_right(right: usize) -> Vec<(usize, usize)> {
    vec![(right, right)]
}

/// Just right, and one too few or too many in one list.
pub fn around(right: usize) -> Vec<(usize, usize)> {
    let mut lengths = vec![(right, right), (right + 1, right), (right, right + 1)];
    if let Some(short) = right.checked_sub(1) {
        lengths.extend([(short, right), (right, short)]);
    }
    lengths
}

/// Every length of each list from 0 to two more than are needed.
pub fn every(right: usize) -> Vec<(usize, usize)> {
    let lengths = 0..right + 3;
    let of_ends = |starts| lengths.clone().map(move |ends| (starts, ends));
    lengths.clone().flat_map(of_ends).collect()
}

/// Bulk insert of entries in three lists, which may be cut short.
#[derive(Clone, PartialEq, Eq, Debug)]
pub struct Lists {
    pub starts: Vec<i64>,
    pub ends: Vec<i64>,
    pub values: Vec<u8>,
}

impl Lists {
    pub fn of(entries: &[Entry]) -> Self {
        Lists {
            starts: entries.iter().map(|entry| entry.0 .0).collect(),
            ends: entries.iter().map(|entry| entry.0 .1).collect(),
            values: entries.iter().map(|entry| entry.1).collect(),
        }
    }

    pub fn insert_into<K: Kind>(&self, m: &mut Map) -> Applied {
        // SAFETY: the lists are there, and the function checks the map.
        unsafe {
            (K::OURS.extend)(
                m,
                self.starts.as_ptr(),
                self.starts.len(),
                self.ends.as_ptr(),
                self.ends.len(),
                self.values.as_ptr(),
                self.values.len(),
            )
        }
    }
}
