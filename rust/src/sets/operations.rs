//! Module 4: intersection and union of two sets into two lent lists. Beside them, how many keys a set covers.
use super::kind::SetKind;
use super::Size;
use crate::ffi::{Combine, Map, Total, PLACES};
use crate::maps::damaged::{each_damaged, span};
use crate::maps::dense::{as_ends, entries, Cells, Dense};
use crate::maps::kind::{of, Ends, Entry};
use crate::maps::random::Random;
use crate::maps::stored::{around, every, just_right, lend, refused, writing, Lengths, Written};
use crate::maps::{agree, Placed};
use crate::report::Report;
use std::ops::Range;

/// A set: of the model, of rangemap and of ours.
struct State<K: SetKind> {
    dense: Dense,
    entries: Vec<Entry>,
    rust: K::Rust,
    map: Map,
}

impl<K: SetKind> State<K> {
    fn new(cells: &Cells, dense: Dense) -> Self {
        let entries = entries::<K>(cells, &dense);
        State {
            rust: K::rust_of(&entries),
            map: Map::of(&entries),
            dense,
            entries,
        }
    }
}

/// The stretches of the cells that are held, each cut where two neighbours are not joined.
fn stretches(
    cells: usize,
    held: impl Fn(usize) -> bool,
    joined: impl Fn(usize, usize) -> bool,
) -> Vec<Range<usize>> {
    let mut stretches: Vec<Range<usize>> = Vec::new();
    for cell in (0..cells).filter(|&cell| held(cell)) {
        match stretches.last_mut() {
            Some(last) if last.end == cell && joined(cell - 1, cell) => last.end += 1,
            _ => stretches.push(cell..cell + 1),
        }
    }
    stretches
}

/// Document 01: the common points as maximal ranges.
fn common_cells(a: &Dense, b: &Dense) -> Vec<Range<usize>> {
    let held = |cell| a.covers(cell) && b.covers(cell);
    stretches(a.count(), held, |_, _| true)
}

/// Document 01: two neighbouring points lie in one range exactly when one range of an input holds both.
fn united_cells(a: &Dense, b: &Dense) -> Vec<Range<usize>> {
    let held = |cell| a.covers(cell) || b.covers(cell);
    let joined = |one, next| [a, b].iter().any(|m| m.covers(one) && m.covers(next));
    stretches(a.count(), held, joined)
}

/// One of the two operations: ours, rangemap's and the model's.
struct Operation<K: SetKind> {
    name: &'static str,
    ours: Combine,
    rust: fn(&K::Rust, &K::Rust) -> Vec<Ends>,
    model: fn(&Dense, &Dense) -> Vec<Range<usize>>,
}

fn operations<K: SetKind>() -> [Operation<K>; 2] {
    [
        Operation {
            name: "intersection",
            ours: K::OPERATIONS.intersection,
            rust: K::rust_intersection,
            model: common_cells,
        },
        Operation {
            name: "union",
            ours: K::OPERATIONS.union,
            rust: K::rust_union,
            model: united_cells,
        },
    ]
}

fn combined(
    combine: Combine,
    first: &mut Map,
    second: &mut Map,
    lengths: (usize, usize),
) -> Written {
    lend(lengths, |s, e| {
        // SAFETY: the lists are there, and the function checks the sets.
        unsafe {
            combine(
                first,
                second,
                s.as_mut_ptr(),
                s.len(),
                e.as_mut_ptr(),
                e.len(),
            )
        }
    })
}

fn compare_pair<K: SetKind>(
    report: &mut Report,
    cells: &Cells,
    (a, first): (&State<K>, &mut Map),
    (b, second): (&State<K>, &mut Map),
    lengths: Lengths,
) {
    let (of_a, of_b) = (of::<K>(&a.entries), of::<K>(&b.entries));
    for operation in operations::<K>() {
        let input = format_args!("{} of {of_a} and {of_b}", operation.name);
        let model = (operation.model)(&a.dense, &b.dense);
        let model: Vec<Ends> = model.iter().map(|part| as_ends::<K>(cells, part)).collect();
        let rust = (operation.rust)(&a.rust, &b.rust);
        report.same(format_args!("rangemap, {input}"), &rust, &model);
        for lengths in lengths(model.len()) {
            let ours = combined(operation.ours, first, second, lengths);
            let input = format_args!("{input} into {lengths:?} places");
            report.same(input, ours, writing(&model, lengths));
        }
    }
    report.same(format_args!("{of_a} after {of_b}"), &*first, &a.map);
    report.same(format_args!("{of_b} after {of_a}"), &*second, &b.map);
}

fn compare_all<K: SetKind>(
    report: &mut Report,
    cells: &Cells,
    states: &[State<K>],
    lengths: Lengths,
) {
    for a in states {
        let mut first = a.map.clone();
        for b in states {
            let mut second = b.map.clone();
            compare_pair(report, cells, (a, &mut first), (b, &mut second), lengths);
        }
    }
}

/// Every pair of sets over so many cells.
fn compare_pairs<K: SetKind>(report: &mut Report, count: usize, what: &str, lengths: Lengths) {
    for placed in Placed::all::<K>(count) {
        let name = format!("{}, pairs over {count} cells {}", K::NAME, placed.name);
        report.part(format!("{name}, intersection and union into {what}"));
        let states = Dense::states::<K>(count).map(|dense| State::new(&placed.cells, dense));
        let states: Vec<State<K>> = states.collect();
        compare_all(report, &placed.cells, &states, lengths);
    }
}

/// So many cells that two full sets need not have a key in common.
const CELLS: usize = 4 * PLACES + 2;

/// The sets that make the longest results, and some that meet everything or nothing.
fn long_sets() -> Vec<Dense> {
    // A part of the cells again and again, as often as a set has places.
    let repeated = |first: usize, length: usize, step: usize| {
        let mut dense = Dense::empty(CELLS);
        for place in 0..PLACES {
            let from = first + step * place;
            dense.give(from..from + length, Some(0));
        }
        dense
    };
    let mut whole = Dense::empty(CELLS);
    whole.give(0..CELLS, Some(0));
    vec![
        Dense::empty(CELLS),
        whole,
        // Every fourth cell: with the next of them, 1024 ranges that touch or not.
        repeated(0, 1, 4),
        repeated(1, 1, 4),
        repeated(2, 1, 4),
        // Three of four cells, cut at two places: 1023 common ranges.
        repeated(0, 3, 4),
        repeated(2, 3, 4),
        repeated(1, 2, 4),
        repeated(0, 1, 2),
        repeated(1, 1, 2),
    ]
}

fn random_set(random: &mut Random) -> Dense {
    Dense::random(random, CELLS, |_| 0)
}

fn compare_long<K: SetKind>(report: &mut Report, pairs: usize) {
    let placed = [
        Cells::small(CELLS),
        Cells::lowest(CELLS),
        Cells::highest::<K>(CELLS),
        Cells::both::<K>(CELLS),
    ];
    report.part(format!("{}, intersection and union of long sets", K::NAME));
    let (mut longest, mut most_common) = (0, 0);
    for cells in &placed {
        let states = long_sets().into_iter().map(|m| State::<K>::new(cells, m));
        let states: Vec<State<K>> = states.collect();
        compare_all(report, cells, &states, around);
        for a in &states {
            for b in &states {
                longest = longest.max(K::rust_union(&a.rust, &b.rust).len());
                most_common = most_common.max(K::rust_intersection(&a.rust, &b.rust).len());
            }
        }
    }
    // Else the sets do not show what they are for: a result can be longer than a set.
    let longest = (longest, most_common);
    let expected = (2 * PLACES, 2 * PLACES - 1);
    report.same(format_args!("the longest results"), longest, expected);

    report.part(format!(
        "{}, intersection and union of random sets",
        K::NAME
    ));
    let mut random = Random::new(29);
    for i in 0..pairs {
        let cells = &placed[i % placed.len()];
        let a = State::<K>::new(cells, random_set(&mut random));
        let b = State::<K>::new(cells, random_set(&mut random));
        let (mut first, mut second) = (a.map.clone(), b.map.clone());
        compare_pair(report, cells, (&a, &mut first), (&b, &mut second), around);
    }
}

/// A damaged set first, second, and both times: 4, and all memory as it was.
fn compare_damaged<K: SetKind>(report: &mut Report) {
    report.part(format!(
        "{}, intersection, union and total of damaged ones",
        K::NAME
    ));
    let good = Map::of(&[(K::ends(0, 12).expect("small keys"), 0)]);
    each_damaged::<K>(|name, damaged| {
        for (which, a, b) in [
            ("first", damaged, &good),
            ("second", &good, damaged),
            ("both", damaged, damaged),
        ] {
            let (mut first, mut second) = (a.clone(), b.clone());
            for operation in operations::<K>() {
                for lengths in [(0, 0), (3, 2), (1100, 1100)] {
                    let input = format_args!("{}, {which}: {name}", operation.name);
                    let ours = combined(operation.ours, &mut first, &mut second, lengths);
                    report.same(input, ours, refused(4, lengths));
                }
            }
            let input = format_args!("{which}: {name}");
            report.same(input, &first, a);
            report.same(input, &second, b);
        }
        let mut map = damaged.clone();
        let none = Total {
            answer: 4,
            total: 0,
        };
        let input = format_args!("total: {name}");
        report.same(input, (K::OPERATIONS.total)(&mut map), none);
        report.same(input, &map, damaged);
    });
}

/// Document 01's answer for so many keys.
fn total_of(keys: u128) -> Total {
    let total = u64::try_from(keys);
    Total {
        answer: if total.is_ok() { 0 } else { 9 },
        total: total.unwrap_or(0),
    }
}

/// Beside the keys of rangemap's ranges, and of the model's cells.
fn compare_total<K: SetKind>(report: &mut Report, cells: &Cells, dense: Dense) -> Total {
    let mut state = State::<K>::new(cells, dense);
    let rust = K::rust_entries(&state.rust);
    let rust = rust.iter().map(|entry| span::<K>(entry.0));
    let rust = rust.map(|(from, to)| (to - from) as u128).sum();
    let covered = (0..cells.count()).filter(|&cell| state.dense.covers(cell));
    let model = covered.map(|cell| cells.keys_in(cell)).sum();
    let input = format_args!("total of {}", of::<K>(&state.entries));
    let ours = (K::OPERATIONS.total)(&mut state.map);
    agree(report, input, ours, total_of(rust), total_of(model));
    report.same(input, &state.map, &Map::of(&state.entries));
    ours
}

fn compare_totals<K: SetKind>(report: &mut Report, count: usize, sets: usize) {
    report.part(format!("{}, totals", K::NAME));
    let mut over = 0;
    for placed in Placed::all::<K>(count) {
        for dense in Dense::states::<K>(count) {
            let total = compare_total::<K>(report, &placed.cells, dense);
            over += usize::from(total.answer == 9);
        }
    }
    let mut random = Random::new(31);
    for dense in long_sets() {
        compare_total::<K>(report, &Cells::small(CELLS), dense.clone());
        compare_total::<K>(report, &Cells::lowest(CELLS), dense);
    }
    for _ in 0..sets {
        let dense = random_set(&mut random);
        compare_total::<K>(report, &Cells::both::<K>(CELLS), dense);
    }
    // Only the full inclusive range has more keys than a u64 counts.
    let full = usize::from(K::valid((0, 0)));
    report.same(format_args!("totals over 2^64 - 1"), over, full);
}

pub fn compare<K: SetKind>(report: &mut Report, size: &Size) {
    compare_pairs::<K>(
        report,
        size.each_length_cells,
        "lists of every length",
        every,
    );
    compare_pairs::<K>(report, size.combined_cells, "lists just right", just_right);
    compare_long::<K>(report, size.long_pairs);
    compare_damaged::<K>(report);
    compare_totals::<K>(report, size.combined_cells, size.long_pairs);
}
