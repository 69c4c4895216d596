//! Modules 2 and 3: maps of half-open and of inclusive ranges. Ours are compared with rangemap and with a dense model.
//! All that a set has too is compared for any kind of map or set.
mod bulk;
pub mod damaged;
pub mod dense;
mod histories;
pub mod kind;
mod pairs;
pub mod random;
mod replay;
mod states;
pub mod stored;

use crate::ffi::Map;
use crate::report::Report;
use dense::Cells;
use kind::{Ends, HalfOpen, Inclusive, Kind};
use rangemap::RangeInclusiveMap;
use std::cell::Cell;
use std::cmp::Ordering;
use std::fmt::{Arguments, Debug};
use std::ops::Range;
use std::panic::{catch_unwind, set_hook, take_hook, AssertUnwindSafe};

const OVERLAPPING_REFUSED: &str =
    "overlapping or overlaps, with an empty or reversed range: 1, the Rust finds nothing";
const OVERLAPPING_REFUSED_FOUND: &str =
    "overlapping or overlaps, with an empty or reversed range: 1, the Rust finds a range";
const GAPS_REFUSED: &str = "gaps, with an empty or reversed range: 1, the Rust finds none";
const EDIT_REFUSED: &str =
    "insert or remove, with an empty or reversed range: 1, the Rust panics and keeps its map";
const BULK_REFUSED: &str =
    "bulk insert, with an empty or reversed range: 1 and the count, the Rust panics and keeps the earlier entries";
const TOO_MANY: &str = "more ranges than places: 2, the Rust has no limit";
const EXHAUSTED: &str =
    "an exhausted RangeInclusive cannot be written, the Rust stores it and does not find its key";
pub const KNOWN: [&str; 7] = [
    OVERLAPPING_REFUSED,
    OVERLAPPING_REFUSED_FOUND,
    GAPS_REFUSED,
    EDIT_REFUSED,
    BULK_REFUSED,
    TOO_MANY,
    EXHAUSTED,
];

/// How much is compared.
pub struct Size {
    /// Cells of the states that are edited and asked.
    pub cells: usize,
    /// Cells of the states that are compared in pairs.
    pub paired_cells: usize,
    /// Edits of a random history.
    pub edits: usize,
    /// Random lists of a bulk insert.
    pub lists: usize,
    /// Places of the maps that are only checked.
    pub checked_places: u32,
}

/// In a few seconds.
pub const SHORT: Size = Size {
    cells: 4,
    paired_cells: 3,
    edits: 5_000,
    lists: 100,
    checked_places: 2,
};

/// In a few minutes.
pub const FULL: Size = Size {
    cells: 7,
    paired_cells: 4,
    edits: 100_000,
    lists: 2000,
    checked_places: 3,
};

/// Cells at one of the places that matter, and what can be asked of them.
pub struct Placed {
    pub name: &'static str,
    pub cells: Cells,
    pub keys: Vec<i64>,
    pub ranges: Vec<(Ends, Range<usize>)>,
}

impl Placed {
    fn new<K: Kind>(name: &'static str, cells: Cells) -> Self {
        Placed {
            name,
            keys: cells.keys(),
            ranges: cells.ranges::<K>(),
            cells,
        }
    }

    pub fn all<K: Kind>(cells: usize) -> [Self; 4] {
        [
            Placed::new::<K>("at small keys", Cells::small(cells)),
            Placed::new::<K>("at the least key", Cells::lowest(cells)),
            Placed::new::<K>("at the greatest key", Cells::highest::<K>(cells)),
            Placed::new::<K>("at both ends", Cells::both::<K>(cells)),
        ]
    }
}

/// Compares ours with the model, and rangemap with the model.
pub fn agree<T: PartialEq + Debug + Copy>(
    report: &mut Report,
    input: Arguments,
    ours: T,
    rust: T,
    model: T,
) {
    report.same(input, ours, model);
    report.same(format_args!("rangemap, {input}"), rust, model);
}

/// An edit gives the range a value, or none.
pub type Edit = fn(&mut Map, Ends, Option<u8>) -> u8;

pub fn edit<K: Kind>(m: &mut Map, r: Ends, new: Option<u8>) -> u8 {
    match new {
        Some(value) => (K::OURS.insert)(m, r.0, r.1, value),
        None => (K::OURS.remove)(m, r.0, r.1),
    }
}

/// Only for a well-formed map.
pub fn edit_unchecked<K: Kind>(m: &mut Map, r: Ends, new: Option<u8>) -> u8 {
    let inner = K::OURS.inner.expect("only maps have unchecked doors");
    // SAFETY: every caller lends a map that an edit left, or one of good entries.
    unsafe {
        match new {
            Some(value) => (inner.insert)(m, r.0, r.1, value),
            None => (inner.remove)(m, r.0, r.1),
        }
    }
}

/// The doors of an edit, by name: sets have only one.
fn doors<K: Kind>() -> Vec<(&'static str, Edit)> {
    let mut doors: Vec<(&'static str, Edit)> = vec![("", edit::<K>)];
    if K::OURS.inner.is_some() {
        doors.push(("unchecked door, ", edit_unchecked::<K>));
    }
    doors
}

thread_local! {
    static EXPECTED: Cell<bool> = const { Cell::new(false) };
}

/// Panics that are asked for are not told; any other is.
pub fn quiet_expected_panics() {
    let told = take_hook();
    set_hook(Box::new(move |panic| {
        if !EXPECTED.get() {
            told(panic);
        }
    }));
}

/// Whether rangemap panics there.
fn panics(ask: impl FnOnce()) -> bool {
    EXPECTED.set(true);
    let panicked = catch_unwind(AssertUnwindSafe(ask)).is_err();
    EXPECTED.set(false);
    panicked
}

/// All that a map and a set both have.
pub fn compare_kind<K: Kind>(report: &mut Report, size: &Size) {
    states::compare::<K>(report, size);
    pairs::compare::<K>(report, size);
    histories::compare::<K>(report, size);
    bulk::compare::<K>(report, size.lists);
    damaged::compare::<K>(report, size);
}

pub fn compare(report: &mut Report, size: &Size) {
    compare_kind::<HalfOpen>(report, size);
    compare_kind::<Inclusive>(report, size);
    compare_exhausted(report);
}

/// The steps with which crates/test_maps begins anew, with an empty map of a kind.
const ANEW_HALF_OPEN: &str = "H . . .\n";
const ANEW_INCLUSIVE: &str = "I . . .\n";

/// What crates/test_maps has to print.
pub fn replay() -> String {
    let steps = include_str!("../../crates/test_maps/stdin");
    let steps = steps.strip_prefix(ANEW_HALF_OPEN).expect("half-open first");
    let (half_open, inclusive) = steps.split_once(ANEW_INCLUSIVE).expect("both kinds");
    let half_open = replay::replay::<HalfOpen>(half_open);
    let inclusive = replay::replay::<Inclusive>(inclusive);
    format!("half-open maps\n{half_open}inclusive maps\n{inclusive}")
}

/// What only Rust can make: a range that was iterated to its end has its ends still, and no key.
fn compare_exhausted(report: &mut Report) {
    report.part("inclusive map, an exhausted range".to_string());
    let mut exhausted = 5..=5;
    exhausted.next();
    let rust = RangeInclusiveMap::from([(exhausted, 1u8)]);
    let plain = RangeInclusiveMap::from([(5..=5, 1u8)]);
    let input = format_args!("an exhausted 5..=5");
    report.same(input, rust.len(), 1);
    report.same(input, rust.get(&5), None);
    report.same(input, rust == plain, false);
    report.same(input, rust.cmp(&plain), Ordering::Equal);

    // Ours has only the two ends, and so stores 5..=5.
    let mut map = Map::EMPTY;
    report.same(input, edit::<Inclusive>(&mut map, (5, 5), Some(1)), 0);
    let found = (Inclusive::OURS.get)(&mut map, 5);
    report.same(input, found, stored::range_of(Some(((5, 5), 1))));
    report.known(input, EXHAUSTED);
}
