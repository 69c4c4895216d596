//! The two kinds of set: our functions of each, and rangemap's type. A set is a map whose values are all 0.
use crate::ffi::{self, Functions, Operations};
use crate::maps::kind::{Ends, Entry, HalfOpen, Inclusive, Kind};
use rangemap::{RangeInclusiveSet, RangeSet};
use std::marker::PhantomData;
use std::ops::{Range, RangeInclusive};

/// The sets with the ranges of a kind of map.
pub struct Set<K>(PhantomData<K>);

/// What only sets have.
pub trait SetKind: Kind {
    const OPERATIONS: &'static Operations;

    fn rust_each_in_both(m: &Self::Rust, other: &Self::Rust, each: impl FnMut(Ends));
    fn rust_each_in_either(m: &Self::Rust, other: &Self::Rust, each: impl FnMut(Ends));

    fn rust_intersection(m: &Self::Rust, other: &Self::Rust) -> Vec<Ends> {
        let mut ranges = Vec::new();
        Self::rust_each_in_both(m, other, |r| ranges.push(r));
        ranges
    }

    fn rust_union(m: &Self::Rust, other: &Self::Rust) -> Vec<Ends> {
        let mut ranges = Vec::new();
        Self::rust_each_in_either(m, other, |r| ranges.push(r));
        ranges
    }
}

/// The two types of rangemap have the same functions. `$range` makes a range, `$ends` takes one apart.
macro_rules! set_kind {
    ($map:ty, $name:literal, $ours:expr, $operations:expr, $set:ty, $range:expr, $ends:expr) => {
        impl Kind for Set<$map> {
            const NAME: &'static str = $name;
            const DOTS: &'static str = <$map>::DOTS;
            const VALUES: usize = 1;
            const BEYOND: i128 = <$map>::BEYOND;
            const OURS: &'static Functions = $ours;

            fn ends(from: i128, to: i128) -> Option<Ends> {
                <$map>::ends(from, to)
            }

            fn valid(r: Ends) -> bool {
                <$map>::valid(r)
            }

            type Rust = $set;

            fn rust_entries(m: &$set) -> Vec<Entry> {
                m.iter().map(|r| ($ends(r), 0)).collect()
            }

            fn rust_len(m: &$set) -> usize {
                m.len()
            }

            fn rust_is_empty(m: &$set) -> bool {
                m.is_empty()
            }

            fn rust_first(m: &$set) -> Option<Entry> {
                m.first().map(|r| ($ends(r), 0))
            }

            fn rust_last(m: &$set) -> Option<Entry> {
                m.last().map(|r| ($ends(r), 0))
            }

            fn rust_get(m: &$set, key: i64) -> Option<Entry> {
                m.get(&key).map(|r| ($ends(r), 0))
            }

            fn rust_contains(m: &$set, key: i64) -> bool {
                m.contains(&key)
            }

            fn rust_iter_overlapping(m: &$set, r: Ends) -> impl Iterator<Item = Entry> + '_ {
                m.overlapping($range(r)).map(|r| ($ends(r), 0))
            }

            fn rust_overlaps(m: &$set, r: Ends) -> bool {
                m.overlaps(&$range(r))
            }

            fn rust_each_gap(m: &$set, r: Ends, each: impl FnMut(Ends)) {
                m.gaps(&$range(r)).map(|r| $ends(&r)).for_each(each);
            }

            fn rust_insert(m: &mut $set, r: Ends, _value: u8) {
                m.insert($range(r));
            }

            fn rust_remove(m: &mut $set, r: Ends) {
                m.remove($range(r));
            }

            fn rust_clear(m: &mut $set) {
                m.clear();
            }

            fn rust_extend(m: &mut $set, entries: &[Entry]) {
                m.extend(entries.iter().map(|&(r, _)| $range(r)));
            }
        }

        impl SetKind for Set<$map> {
            const OPERATIONS: &'static Operations = $operations;

            fn rust_each_in_both(m: &$set, other: &$set, each: impl FnMut(Ends)) {
                m.intersection(other).map(|r| $ends(&r)).for_each(each);
            }

            fn rust_each_in_either(m: &$set, other: &$set, each: impl FnMut(Ends)) {
                m.union(other).map(|r| $ends(&r)).for_each(each);
            }
        }
    };
}

set_kind!(
    HalfOpen,
    "half-open set",
    &ffi::RANGE_SET,
    &ffi::RANGE_SET_OPERATIONS,
    RangeSet<i64>,
    |r: Ends| r.0..r.1,
    |r: &Range<i64>| (r.start, r.end)
);

set_kind!(
    Inclusive,
    "inclusive set",
    &ffi::RANGE_INCLUSIVE_SET,
    &ffi::RANGE_INCLUSIVE_SET_OPERATIONS,
    RangeInclusiveSet<i64>,
    |r: Ends| r.0..=r.1,
    |r: &RangeInclusive<i64>| (*r.start(), *r.end())
);
