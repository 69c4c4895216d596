//! Every state over a few cells, with every edit and every question over these cells.
use super::dense::{as_ends, entries, Cells, Dense};
use super::kind::{of, shown, Ends, Entry, Kind};
use super::stored::{range_of, refused, told, writing, written};
use super::{agree, doors, panics, Placed, Size};
use super::{EDIT_REFUSED, GAPS_REFUSED, OVERLAPPING_REFUSED, OVERLAPPING_REFUSED_FOUND};
use crate::ffi::{Count, Map, Stretch, Told, PLACES};
use crate::report::Report;
use crate::shown::Key;
use std::ops::Range;

/// One state: of the model, of rangemap and of ours.
struct State<'a, K: Kind> {
    cells: &'a Cells,
    dense: Dense,
    entries: Vec<Entry>,
    rust: K::Rust,
    map: Map,
}

impl<'a, K: Kind> State<'a, K> {
    fn new(cells: &'a Cells, dense: Dense) -> Self {
        let entries = entries::<K>(cells, &dense);
        State {
            cells,
            rust: K::rust_of(&entries),
            map: Map::of(&entries),
            dense,
            entries,
        }
    }

    /// The entry that has the key, by the model.
    fn held_at(&self, key: i64) -> Option<Entry> {
        let cell = self.cells.cell_of(key)?;
        self.dense.holds(cell)?;
        let runs = self.dense.runs();
        let place = runs.iter().position(|(run, _)| run.contains(&cell));
        place.map(|place| self.entries[place])
    }

    /// The places whose entries have a cell of the part, by the model.
    fn met(&self, part: &Range<usize>) -> Stretch {
        let runs = self.dense.runs();
        let meets = |run: &Range<usize>| run.clone().any(|cell| part.contains(&cell));
        let first = runs.iter().position(|(run, _)| meets(run));
        Stretch {
            answer: 0,
            place: first.unwrap_or(0),
            count: runs.iter().filter(|(run, _)| meets(run)).count(),
        }
    }

    /// The part of the places that rangemap's entries are.
    fn stretch_of(&self, found: &[Entry]) -> Stretch {
        let Some(first) = found.first() else {
            return Stretch {
                answer: 0,
                place: 0,
                count: 0,
            };
        };
        let place = self.entries.iter().position(|entry| entry == first);
        let place = place.expect("what rangemap yields is stored");
        assert_eq!(found, &self.entries[place..][..found.len()]);
        Stretch {
            answer: 0,
            place,
            count: found.len(),
        }
    }
}

fn compare_whole<K: Kind>(report: &mut Report, state: &mut State<K>) {
    let (ours, map, rust) = (K::OURS, &mut state.map, &state.rust);
    let entries = &state.entries;
    let count = |count| Count { answer: 0, count };
    let of = of::<K>(entries);
    agree(
        report,
        format_args!("is_empty of {of}"),
        (ours.is_empty)(map),
        told(K::rust_is_empty(rust)),
        told(entries.is_empty()),
    );
    agree(
        report,
        format_args!("len of {of}"),
        (ours.len)(map),
        count(K::rust_len(rust)),
        count(entries.len()),
    );
    agree(
        report,
        format_args!("first of {of}"),
        (ours.first)(map),
        range_of(K::rust_first(rust)),
        range_of(entries.first().copied()),
    );
    agree(
        report,
        format_args!("last of {of}"),
        (ours.last)(map),
        range_of(K::rust_last(rust)),
        range_of(entries.last().copied()),
    );
}

/// Every place that is used, the next two, and places far off.
fn compare_places<K: Kind>(report: &mut Report, state: &mut State<K>) {
    let rust = K::rust_entries(&state.rust);
    let far = [PLACES - 1, PLACES, PLACES + 1, usize::MAX];
    for place in (0..state.entries.len() + 2).chain(far) {
        agree(
            report,
            format_args!("range_at {place} of {}", of::<K>(&state.entries)),
            (K::OURS.range_at)(&mut state.map, place),
            range_of(rust.get(place).copied()),
            range_of(state.entries.get(place).copied()),
        );
    }
}

fn compare_key<K: Kind>(report: &mut Report, state: &mut State<K>, key: i64) {
    let held = state.held_at(key);
    let (map, rust) = (&mut state.map, &state.rust);
    let (of, shown) = (of::<K>(&state.entries), Key(key));
    let found = range_of(K::rust_get(rust, key));
    agree(
        report,
        format_args!("get {shown} of {of}"),
        (K::OURS.get)(map, key),
        found,
        range_of(held),
    );
    if let Some(inner) = K::OURS.inner {
        report.same(
            format_args!("get, unchecked door, {shown} of {of}"),
            // SAFETY: the map is well formed.
            unsafe { (inner.get)(map, key) },
            range_of(held),
        );
    }
    agree(
        report,
        format_args!("contains {shown} of {of}"),
        (K::OURS.contains)(map, key),
        told(K::rust_contains(rust, key)),
        told(held.is_some()),
    );
}

fn compare_met<K: Kind>(report: &mut Report, state: &mut State<K>, r: Ends, part: &Range<usize>) {
    let found = state.stretch_of(&K::rust_overlapping(&state.rust, r));
    let any = K::rust_overlaps(&state.rust, r);
    let met = state.met(part);
    let map = &mut state.map;
    let (of, shown) = (of::<K>(&state.entries), shown::<K>(r));
    agree(
        report,
        format_args!("overlapping {shown} of {of}"),
        (K::OURS.overlapping)(map, r.0, r.1),
        found,
        met,
    );
    agree(
        report,
        format_args!("overlaps {shown} of {of}"),
        (K::OURS.overlaps)(map, r.0, r.1),
        told(any),
        told(met.count > 0),
    );
}

/// An empty or reversed query: 1, whatever the Rust finds.
fn compare_met_refused<K: Kind>(report: &mut Report, state: &mut State<K>, r: Ends) {
    let map = &mut state.map;
    let (of, shown) = (of::<K>(&state.entries), shown::<K>(r));
    let none = Stretch {
        answer: 1,
        place: 0,
        count: 0,
    };
    let input = format_args!("overlapping {shown} of {of}");
    report.same(input, (K::OURS.overlapping)(map, r.0, r.1), none);
    let no = Told { answer: 1, yes: 0 };
    let input = format_args!("overlaps {shown} of {of}");
    report.same(input, (K::OURS.overlaps)(map, r.0, r.1), no);

    let found = !K::rust_overlapping(&state.rust, r).is_empty();
    report.same(input, K::rust_overlaps(&state.rust, r), found);
    let known = if found {
        OVERLAPPING_REFUSED_FOUND
    } else {
        OVERLAPPING_REFUSED
    };
    report.known(input, known);
}

/// Lengths of the two lent lists: just right, one too few in either or in both, more than enough, and none.
fn lengths(count: usize) -> Vec<(usize, usize)> {
    let mut lengths = vec![
        (count, count),
        (count + 1, count),
        (count, count + 2),
        (0, 0),
    ];
    if let Some(short) = count.checked_sub(1) {
        lengths.extend([
            (short, count),
            (count, short),
            (count + 1, short),
            (short, short),
        ]);
    }
    lengths
}

fn compare_gaps<K: Kind>(report: &mut Report, state: &mut State<K>, r: Ends, part: &Range<usize>) {
    let gaps = state.dense.gaps(part.clone());
    let gaps: Vec<Ends> = gaps
        .iter()
        .map(|gap| as_ends::<K>(state.cells, gap))
        .collect();
    let (of, shown) = (of::<K>(&state.entries), shown::<K>(r));
    let rust = K::rust_gaps(&state.rust, r);
    report.same(
        format_args!("rangemap's gaps {shown} of {of}"),
        &rust,
        &gaps,
    );
    for lengths in lengths(gaps.len()) {
        let input = format_args!("gaps {shown} of {of} into {lengths:?} places");
        let expected = writing(&gaps, lengths);
        let ours = written(K::OURS.gaps, &mut state.map, r, lengths);
        report.same(input, &ours, &expected);
        if let Some(inner) = K::OURS.inner {
            let ours = written(inner.gaps, &mut state.map, r, lengths);
            report.same(format_args!("unchecked door, {input}"), &ours, &expected);
        }
    }
}

fn compare_gaps_refused<K: Kind>(report: &mut Report, state: &mut State<K>, r: Ends) {
    let (of, shown) = (of::<K>(&state.entries), shown::<K>(r));
    let input = format_args!("gaps {shown} of {of}");
    for lengths in [(0, 0), (1, 0), (2, 2)] {
        let ours = written(K::OURS.gaps, &mut state.map, r, lengths);
        report.same(input, ours, refused(1, lengths));
        if let Some(inner) = K::OURS.inner {
            let ours = written(inner.gaps, &mut state.map, r, lengths);
            report.same(
                format_args!("unchecked door, {input}"),
                ours,
                refused(1, lengths),
            );
        }
    }
    let rust = K::rust_gaps(&state.rust, r);
    report.same(format_args!("rangemap's {input}"), rust, Vec::new());
    report.known(input, GAPS_REFUSED);
}

fn compare_questions<K: Kind>(report: &mut Report, state: &mut State<K>, placed: &Placed) {
    compare_whole(report, state);
    compare_places(report, state);
    for &key in &placed.keys {
        compare_key(report, state, key);
    }
    for (r, part) in &placed.ranges {
        if part.start < part.end {
            compare_met(report, state, *r, part);
            compare_gaps(report, state, *r, part);
        } else {
            compare_met_refused(report, state, *r);
            compare_gaps_refused(report, state, *r);
        }
    }
    let of = of::<K>(&state.entries);
    let input = format_args!("{of} after the questions");
    report.same(input, &state.map, &Map::of(&state.entries));
}

/// The edit through both doors: the answer, and the whole map that it leaves.
fn compare_ours<K: Kind>(
    report: &mut Report,
    state: &State<K>,
    r: Ends,
    new: Option<u8>,
    answer: u8,
    left: &Map,
) {
    let input = format_args!(
        "{new:?} over {} in {}",
        shown::<K>(r),
        of::<K>(&state.entries)
    );
    for (door, edit) in doors::<K>() {
        let mut map = state.map.clone();
        report.same(
            format_args!("{door}{input}"),
            edit(&mut map, r, new),
            answer,
        );
        report.same(format_args!("{door}{input}"), &map, left);
        let formed = (K::OURS.well_formed)(&mut map);
        report.same(format_args!("{door}{input}, well formed"), formed, 1);
    }
}

fn compare_edit<K: Kind>(
    report: &mut Report,
    state: &State<K>,
    r: Ends,
    part: &Range<usize>,
    new: Option<u8>,
) {
    let mut dense = state.dense.clone();
    dense.give(part.clone(), new);
    let expected = entries::<K>(state.cells, &dense);
    let mut rust = state.rust.clone();
    K::rust_edit(&mut rust, r, new);
    let of = of::<K>(&state.entries);
    let input = format_args!("rangemap, {new:?} over {} in {of}", shown::<K>(r));
    report.same(input, &K::rust_entries(&rust), &expected);
    compare_ours(report, state, r, new, 0, &Map::of(&expected));
}

/// An empty or reversed range: 1 and no change, where the Rust panics and leaves its map too.
fn compare_edit_refused<K: Kind>(report: &mut Report, state: &State<K>, r: Ends, new: Option<u8>) {
    compare_ours(report, state, r, new, 1, &state.map);
    let mut rust = state.rust.clone();
    let panicked = panics(|| K::rust_edit(&mut rust, r, new));
    let of = of::<K>(&state.entries);
    let input = format_args!("rangemap, {new:?} over {} in {of}", shown::<K>(r));
    report.same(input, panicked, true);
    report.same(input, rust == state.rust, true);
    report.known(input, EDIT_REFUSED);
}

fn compare_clear<K: Kind>(report: &mut Report, state: &State<K>) {
    let input = format_args!("clear {}", of::<K>(&state.entries));
    let mut map = state.map.clone();
    (K::OURS.clear)(&mut map);
    report.same(input, &map, &Map::EMPTY);
    let mut rust = state.rust.clone();
    K::rust_clear(&mut rust);
    report.same(input, K::rust_entries(&rust), Vec::new());
}

fn compare_edits<K: Kind>(report: &mut Report, state: &State<K>, placed: &Placed) {
    compare_clear(report, state);
    for (r, part) in &placed.ranges {
        let values = 0..K::VALUES.min(3);
        for new in std::iter::once(None).chain(values.map(|value| Some(K::value(value)))) {
            if part.start < part.end {
                compare_edit(report, state, *r, part, new);
            } else {
                compare_edit_refused(report, state, *r, new);
            }
        }
    }
}

pub fn compare<K: Kind>(report: &mut Report, size: &Size) {
    for placed in Placed::all::<K>(size.cells) {
        let name = |what| format!("{}, {} cells {}, {what}", K::NAME, size.cells, placed.name);
        report.part(name("questions"));
        for dense in Dense::states::<K>(size.cells) {
            let mut state = State::<K>::new(&placed.cells, dense);
            compare_questions(report, &mut state, &placed);
        }
        report.part(name("edits"));
        for dense in Dense::states::<K>(size.cells) {
            let state = State::<K>::new(&placed.cells, dense);
            compare_edits(report, &state, &placed);
        }
    }
}
