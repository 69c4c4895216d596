//! Long random histories that run into the limit of PLACES ranges.
use super::dense::{as_ends, entries, Cells, Dense};
use super::kind::{shown, Ends, Entry, Kind};
use super::random::Random;
use super::stored::{range_of, writing, written};
use super::{doors, Size, TOO_MANY};
use crate::ffi::{Map, Stretch, PLACES};
use crate::report::Report;
use crate::shown::Key;
use std::ops::Range;

/// Random edits of a kind: they want more ranges than there are places, though equal neighbours are joined.
struct Edits {
    cells: usize,
    /// Cells of most edits.
    most: usize,
    /// One in so many edits removes.
    removes: usize,
}

/// In a set all neighbours are equal, so its edits are shorter, and more of them remove.
fn edits_of<K: Kind>() -> Edits {
    if K::VALUES > 1 {
        Edits {
            cells: 2400,
            most: 3,
            removes: 5,
        }
    } else {
        Edits {
            cells: 4800,
            most: 1,
            removes: 3,
        }
    }
}

struct History<'a, K: Kind> {
    cells: &'a Cells,
    random: Random,
    /// The values that the edits give.
    values: usize,
    dense: Dense,
    entries: Vec<Entry>,
    rust: K::Rust,
    map: Map,
    refused: u64,
    taken_when_full: u64,
}

impl<'a, K: Kind> History<'a, K> {
    fn new(cells: &'a Cells, values: usize, seed: u64) -> Self {
        History {
            cells,
            random: Random::new(seed),
            values,
            dense: Dense::empty(cells.count()),
            entries: Vec::new(),
            rust: K::Rust::default(),
            map: (K::OURS.new)(),
            refused: 0,
            taken_when_full: 0,
        }
    }

    /// Mostly a few cells, so that the map fills up, and now and then many.
    fn random_part(&mut self) -> Range<usize> {
        let cells = self.cells.count();
        let most = match self.random.below(500) {
            0 => cells,
            1..20 => 40,
            _ => edits_of::<K>().most,
        };
        let from = self.random.below(cells);
        let to = from + 1 + self.random.below(most);
        from..to.min(cells)
    }

    fn random_new(&mut self) -> Option<u8> {
        let remove = self.random.once_in(edits_of::<K>().removes);
        let value = K::value(self.random.below(self.values));
        (!remove).then_some(value)
    }

    /// One edit of all three. Whether it is refused is judged on the map that it would leave.
    fn step(&mut self, report: &mut Report) {
        let (part, new) = (self.random_part(), self.random_new());
        let r = as_ends::<K>(self.cells, &part);
        let count = self.map.count;
        let input = format_args!("{new:?} over {}, {count} ranges", shown::<K>(r));

        let mut rust = self.rust.clone();
        K::rust_edit(&mut rust, r, new);
        let mut dense = self.dense.clone();
        dense.give(part, new);
        let left = entries::<K>(self.cells, &dense);
        report.same(
            format_args!("rangemap, {input}"),
            &K::rust_entries(&rust),
            &left,
        );

        let full = count == PLACES;
        let expected = if K::rust_len(&rust) > PLACES { 2 } else { 0 };
        if expected == 2 {
            report.known(input, TOO_MANY);
            self.refused += 1;
        } else {
            (self.rust, self.dense, self.entries) = (rust, dense, left);
            self.taken_when_full += u64::from(full);
        }
        let before = self.map.clone();
        let stored = Map::of(&self.entries);
        for (door, edit) in doors::<K>() {
            let input = format_args!("{door}{input}");
            self.map = before.clone();
            report.same(input, edit(&mut self.map, r, new), expected);
            report.same(input, &self.map, &stored);
        }
        let formed = (K::OURS.well_formed)(&mut self.map);
        report.same(format_args!("well formed, {input}"), formed, 1);
    }

    fn ask_key(&mut self, report: &mut Report) {
        let cell = self.random.below(self.cells.count());
        let (key, _) = as_ends::<K>(self.cells, &(cell..cell + 1));
        let expected = range_of(K::rust_get(&self.rust, key));
        let input = format_args!("get {}", Key(key));
        let ours = (K::OURS.get)(&mut self.map, key);
        report.same(input, ours, expected);
        if let Some(inner) = K::OURS.inner {
            // SAFETY: the map is well formed.
            let ours = unsafe { (inner.get)(&mut self.map, key) };
            report.same(format_args!("unchecked door, {input}"), ours, expected);
        }
    }

    fn random_range(&mut self) -> Ends {
        let from = self.random.below(self.cells.count());
        let to = from + 1 + self.random.below(self.cells.count() - from);
        as_ends::<K>(self.cells, &(from..to))
    }

    fn ask_range(&mut self, report: &mut Report) {
        let r = self.random_range();
        let met = K::rust_overlapping(&self.rust, r);
        let first = self
            .entries
            .iter()
            .position(|entry| met.first() == Some(entry));
        let expected = Stretch {
            answer: 0,
            place: first.unwrap_or(0),
            count: met.len(),
        };
        let ours = (K::OURS.overlapping)(&mut self.map, r.0, r.1);
        report.same(
            format_args!("overlapping {}", shown::<K>(r)),
            ours,
            expected,
        );
    }

    /// Lists that are just long enough, and lists one place too short.
    fn ask_gaps(&mut self, report: &mut Report) {
        let r = self.random_range();
        let gaps = K::rust_gaps(&self.rust, r);
        let input = format_args!("gaps {}", shown::<K>(r));
        for short in 0..=gaps.len().min(1) {
            let lengths = (gaps.len() + 1, gaps.len() - short);
            let expected = writing(&gaps, lengths);
            let ours = written(K::OURS.gaps, &mut self.map, r, lengths);
            report.same(input, &ours, &expected);
            if let Some(inner) = K::OURS.inner {
                let ours = written(inner.gaps, &mut self.map, r, lengths);
                report.same(format_args!("unchecked door, {input}"), &ours, &expected);
            }
        }
    }

    fn run(&mut self, report: &mut Report, edits: usize) {
        for _ in 0..edits {
            self.step(report);
            self.ask_key(report);
            self.ask_range(report);
            self.ask_gaps(report);
        }
        // Else the history does not show what it is for.
        report.same(
            format_args!("some edit was refused"),
            self.refused > 0,
            true,
        );
        let taken = self.taken_when_full > 0;
        report.same(format_args!("a full map took some edit"), taken, true);
        report.note(format_args!(
            "{} of {edits} edits refused, {} taken by a full map",
            self.refused, self.taken_when_full
        ));
    }
}

/// Few values, so that much is joined, and all of them.
const VALUES: [usize; 2] = [3, 256];

pub fn compare<K: Kind>(report: &mut Report, size: &Size) {
    let cells = edits_of::<K>().cells;
    let placed = [
        ("at small keys", Cells::small(cells)),
        ("at the least key", Cells::lowest(cells)),
        ("at the greatest key", Cells::highest::<K>(cells)),
        ("at both ends", Cells::both::<K>(cells)),
    ];
    for (i, (name, cells)) in placed.into_iter().enumerate() {
        let values = VALUES[i % 2];
        report.part(format!("{}, a history {name}", K::NAME));
        History::<K>::new(&cells, values, i as u64 + 1).run(report, size.edits);
    }
}
