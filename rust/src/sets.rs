//! Modules 4 and 5: sets of half-open and of inclusive ranges. What a map has too is compared as the maps are.
pub mod kind;
mod operations;
mod replay;

use crate::maps::kind::{HalfOpen, Inclusive};
use crate::maps::{self, compare_kind};
use crate::report::Report;
use kind::{Set, SetKind};

/// How much is compared.
pub struct Size {
    /// Of what a map has too.
    shared: maps::Size,
    /// Cells of the sets that are combined into lists of every length.
    each_length_cells: usize,
    /// Cells of the sets that are combined into lists of the right length, and totalled.
    combined_cells: usize,
    /// Random pairs of long sets.
    long_pairs: usize,
}

/// In a few seconds. A cell of a set has two states, a cell of a map four.
pub const SHORT: Size = Size {
    shared: maps::Size {
        cells: 6,
        paired_cells: 6,
        edits: 5_000,
        lists: 100,
        checked_places: 2,
    },
    each_length_cells: 5,
    combined_cells: 8,
    long_pairs: 200,
};

/// In some minutes.
pub const FULL: Size = Size {
    shared: maps::Size {
        cells: 10,
        paired_cells: 8,
        edits: 30_000,
        lists: 2000,
        checked_places: 3,
    },
    each_length_cells: 8,
    combined_cells: 9,
    long_pairs: 10_000,
};

fn compare_sets<K: SetKind>(report: &mut Report, size: &Size) {
    compare_kind::<K>(report, &size.shared);
    operations::compare::<K>(report, size);
}

pub fn compare(report: &mut Report, size: &Size) {
    compare_sets::<Set<HalfOpen>>(report, size);
    compare_sets::<Set<Inclusive>>(report, size);
}

/// What crates/test_set has to print.
pub fn replay() -> String {
    replay::replay::<Set<HalfOpen>, Set<Inclusive>>()
}
