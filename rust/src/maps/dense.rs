//! The dense model: a map as an array that says what each cell holds. It knows nothing of ranges, sorting or joining.
use super::kind::{Ends, Entry, Kind};
use super::random::Random;
use crate::ffi::PLACES;
use std::ops::Range;

/// Cells that lie side by side: cell i has the keys from `bounds[i]` up to `bounds[i + 1]`.
pub struct Cells {
    bounds: Vec<i128>,
}

impl Cells {
    /// Cells of one key each.
    fn from(first: i128, cells: usize) -> Self {
        Cells {
            bounds: (first..=first + cells as i128).collect(),
        }
    }

    /// At small keys, around 0.
    pub fn small(cells: usize) -> Self {
        Cells::from(-(cells as i128 / 2), cells)
    }

    /// From the least key on.
    pub fn lowest(cells: usize) -> Self {
        Cells::from(i64::MIN.into(), cells)
    }

    /// Up to the greatest key.
    pub fn highest<K: Kind>(cells: usize) -> Self {
        Cells::from(K::BEYOND - cells as i128, cells)
    }

    /// At both ends: one cell between them has all the keys that the others leave.
    pub fn both<K: Kind>(cells: usize) -> Self {
        let (low, high) = (cells.div_ceil(2), cells / 2 + 1);
        let low = (0..low).map(|i| i128::from(i64::MIN) + i as i128);
        let high = (0..high).rev().map(|i| K::BEYOND - i as i128);
        Cells {
            bounds: low.chain(high).collect(),
        }
    }

    /// From each of these keys to the next.
    pub fn between(keys: &[i64]) -> Self {
        Cells {
            bounds: keys.iter().map(|&key| key.into()).collect(),
        }
    }

    /// Cells of one key to so many each, from a random key on. All of them together have fewer than 2^33 keys.
    pub fn random(random: &mut Random, cells: usize, most: usize) -> Self {
        let mut bound = i128::from(i64::MIN) + ((random.below(1 << 31) as i128) << 33);
        let mut next = || {
            bound += 1 + random.below(most) as i128;
            bound
        };
        Cells {
            bounds: (0..=cells).map(|_| next()).collect(),
        }
    }

    pub fn count(&self) -> usize {
        self.bounds.len() - 1
    }

    /// How many keys a cell has.
    pub fn keys_in(&self, cell: usize) -> u128 {
        (self.bounds[cell + 1] - self.bounds[cell]) as u128
    }

    /// The range that has the keys of the cells from `from` up to `to`: it is valid if from < to.
    pub fn range<K: Kind>(&self, from: usize, to: usize) -> Option<Ends> {
        K::ends(self.bounds[from], self.bounds[to])
    }

    /// Every pair of bounds that is a start and an end, with the cells between; half of them are empty or reversed.
    pub fn ranges<K: Kind>(&self) -> Vec<(Ends, Range<usize>)> {
        let bounds = 0..self.bounds.len();
        let pairs = bounds
            .clone()
            .flat_map(|from| bounds.clone().map(move |to| (from, to)));
        pairs
            .filter_map(|(from, to)| Some((self.range::<K>(from, to)?, from..to)))
            .collect()
    }

    /// Both sides of each bound: the first and the last key of each cell, and the keys beside them all.
    pub fn keys(&self) -> Vec<i64> {
        let mut keys: Vec<i128> = self.bounds.iter().flat_map(|&b| [b - 1, b]).collect();
        keys.dedup();
        keys.iter().filter_map(|&key| key.try_into().ok()).collect()
    }

    /// The cell that has the key.
    pub fn cell_of(&self, key: i64) -> Option<usize> {
        let after = self.bounds.partition_point(|&b| b <= key.into());
        (1..self.bounds.len()).contains(&after).then(|| after - 1)
    }
}

/// What each cell holds.
#[derive(Clone, PartialEq, Eq)]
pub struct Dense(Vec<Option<u8>>);

impl Dense {
    pub fn empty(cells: usize) -> Self {
        Dense(vec![None; cells])
    }

    /// The states of so many cells with the values 0, 1 and 2, as far as the kind has them, are numbered:
    /// a digit for each cell.
    pub fn states<K: Kind>(cells: usize) -> impl Iterator<Item = Self> {
        let base = 1 + K::VALUES.min(3);
        let held = |digit| (digit as u8).checked_sub(1);
        let digit = move |number: usize, cell| number / base.pow(cell) % base;
        let state = move |number| (0..cells as u32).map(|i| held(digit(number, i))).collect();
        (0..base.pow(cells as u32)).map(move |number| Dense(state(number)))
    }

    /// By random edits, a map of so many ranges as there are places at most.
    pub fn random(
        random: &mut Random,
        cells: usize,
        mut value: impl FnMut(&mut Random) -> u8,
    ) -> Self {
        let mut dense = Dense::empty(cells);
        let most = 1 + random.below(6);
        for _ in 0..1 + random.below(2 * cells) {
            let from = random.below(cells);
            let to = (from + 1 + random.below(most)).min(cells);
            let new = random.once_in(2).then(|| value(random));
            dense.give(from..to, new);
        }
        let runs = dense.runs();
        for (run, _) in runs.into_iter().skip(PLACES) {
            dense.give(run, None);
        }
        dense
    }

    pub fn give(&mut self, part: Range<usize>, new: Option<u8>) {
        self.0[part].fill(new);
    }

    pub fn count(&self) -> usize {
        self.0.len()
    }

    pub fn holds(&self, cell: usize) -> Option<u8> {
        self.0[cell]
    }

    pub fn covers(&self, cell: usize) -> bool {
        self.holds(cell).is_some()
    }

    /// The part of the cells as maximal stretches that hold the same.
    fn stretches(&self, part: Range<usize>) -> Vec<(Range<usize>, Option<u8>)> {
        let mut stretches = Vec::new();
        let mut from = part.start;
        for to in part.start + 1..=part.end {
            if to == part.end || self.0[to] != self.0[from] {
                stretches.push((from..to, self.0[from]));
                from = to;
            }
        }
        stretches
    }

    /// The maximal stretches that hold a value: the ranges of the map.
    pub fn runs(&self) -> Vec<(Range<usize>, u8)> {
        let stretches = self.stretches(0..self.0.len()).into_iter();
        stretches
            .filter_map(|(run, held)| Some((run, held?)))
            .collect()
    }

    /// The maximal stretches of a part that hold nothing.
    pub fn gaps(&self, part: Range<usize>) -> Vec<Range<usize>> {
        let stretches = self.stretches(part).into_iter();
        stretches
            .filter_map(|(gap, held)| held.is_none().then_some(gap))
            .collect()
    }
}

/// Ranges of cells as ranges of keys.
pub fn as_ends<K: Kind>(cells: &Cells, part: &Range<usize>) -> Ends {
    cells
        .range::<K>(part.start, part.end)
        .expect("cells that are there have keys")
}

pub fn entries<K: Kind>(cells: &Cells, dense: &Dense) -> Vec<Entry> {
    let runs = dense.runs().into_iter();
    runs.map(|(run, value)| (as_ends::<K>(cells, &run), value))
        .collect()
}
