//! What a kind of map or set is, and the two kinds of map: our functions of each, and rangemap's type.
use crate::ffi::{self, Functions};
use crate::shown::Shown;
use rangemap::{RangeInclusiveMap, RangeMap};
use std::fmt::{Display, Formatter, Result};
use std::marker::PhantomData;
use std::ops::{Range, RangeInclusive};

/// A start and an end, of either kind.
pub type Ends = (i64, i64);

/// A range and its value.
pub type Entry = (Ends, u8);

pub trait Kind: 'static {
    const NAME: &'static str;
    const DOTS: &'static str;
    /// How many values a range can have: all, or only 0 in a set.
    const VALUES: usize;
    /// No range has a key from here on. Greater than any i64 where the greatest key can be in a range.
    const BEYOND: i128;
    const OURS: &'static Functions;

    /// The range of the keys from `from` up to `to`, without `to` itself, if both its ends are i64.
    fn ends(from: i128, to: i128) -> Option<Ends>;
    fn valid(r: Ends) -> bool;

    /// A value for the number: another for each where there are many.
    fn value(number: usize) -> u8 {
        (number % Self::VALUES) as u8
    }

    /// rangemap's type.
    type Rust: Clone + Default + Ord;
    fn rust_entries(m: &Self::Rust) -> Vec<Entry>;
    fn rust_len(m: &Self::Rust) -> usize;
    fn rust_is_empty(m: &Self::Rust) -> bool;
    fn rust_first(m: &Self::Rust) -> Option<Entry>;
    fn rust_last(m: &Self::Rust) -> Option<Entry>;
    fn rust_get(m: &Self::Rust, key: i64) -> Option<Entry>;
    fn rust_contains(m: &Self::Rust, key: i64) -> bool;
    fn rust_iter_overlapping(m: &Self::Rust, r: Ends) -> impl Iterator<Item = Entry> + '_;
    fn rust_overlaps(m: &Self::Rust, r: Ends) -> bool;
    fn rust_each_gap(m: &Self::Rust, r: Ends, each: impl FnMut(Ends));
    fn rust_insert(m: &mut Self::Rust, r: Ends, value: u8);
    fn rust_remove(m: &mut Self::Rust, r: Ends);
    fn rust_clear(m: &mut Self::Rust);
    fn rust_extend(m: &mut Self::Rust, entries: &[Entry]);

    fn rust_overlapping(m: &Self::Rust, r: Ends) -> Vec<Entry> {
        Self::rust_iter_overlapping(m, r).collect()
    }

    fn rust_gaps(m: &Self::Rust, r: Ends) -> Vec<Ends> {
        let mut gaps = Vec::new();
        Self::rust_each_gap(m, r, |gap| gaps.push(gap));
        gaps
    }

    /// An edit gives the range a value, or none.
    fn rust_edit(m: &mut Self::Rust, r: Ends, new: Option<u8>) {
        match new {
            Some(value) => Self::rust_insert(m, r, value),
            None => Self::rust_remove(m, r),
        }
    }

    fn rust_of(entries: &[Entry]) -> Self::Rust {
        let mut rust = Self::Rust::default();
        for &(r, value) in entries {
            Self::rust_insert(&mut rust, r, value);
        }
        rust
    }
}

pub struct HalfOpen;
pub struct Inclusive;

/// The two types of rangemap have the same functions. `$range` makes a range, `$ends` takes one apart.
/// What the bench times is inline, since a caller's own code would have it so.
macro_rules! rust_map {
    ($map:ty, $range:expr, $ends:expr) => {
        type Rust = $map;

        fn rust_entries(m: &$map) -> Vec<Entry> {
            m.iter().map(|(r, &value)| ($ends(r), value)).collect()
        }

        fn rust_len(m: &$map) -> usize {
            m.len()
        }

        fn rust_is_empty(m: &$map) -> bool {
            m.is_empty()
        }

        fn rust_first(m: &$map) -> Option<Entry> {
            m.first_range_value().map(|(r, &value)| ($ends(r), value))
        }

        fn rust_last(m: &$map) -> Option<Entry> {
            m.last_range_value().map(|(r, &value)| ($ends(r), value))
        }

        #[inline]
        fn rust_get(m: &$map, key: i64) -> Option<Entry> {
            m.get_key_value(&key).map(|(r, &value)| ($ends(r), value))
        }

        fn rust_contains(m: &$map, key: i64) -> bool {
            m.contains_key(&key)
        }

        #[inline]
        fn rust_iter_overlapping(m: &$map, r: Ends) -> impl Iterator<Item = Entry> + '_ {
            let found = m.overlapping($range(r));
            found.map(|(r, &value)| ($ends(r), value))
        }

        fn rust_overlaps(m: &$map, r: Ends) -> bool {
            m.overlaps(&$range(r))
        }

        fn rust_each_gap(m: &$map, r: Ends, each: impl FnMut(Ends)) {
            m.gaps(&$range(r)).map(|r| $ends(&r)).for_each(each);
        }

        #[inline]
        fn rust_insert(m: &mut $map, r: Ends, value: u8) {
            m.insert($range(r), value);
        }

        #[inline]
        fn rust_remove(m: &mut $map, r: Ends) {
            m.remove($range(r));
        }

        fn rust_clear(m: &mut $map) {
            m.clear();
        }

        fn rust_extend(m: &mut $map, entries: &[Entry]) {
            m.extend(entries.iter().map(|&(r, value)| ($range(r), value)));
        }
    };
}

impl Kind for HalfOpen {
    const NAME: &'static str = "half-open map";
    const DOTS: &'static str = "..";
    const VALUES: usize = 256;
    const BEYOND: i128 = i64::MAX as i128;
    const OURS: &'static Functions = &ffi::RANGE_MAP;

    fn ends(from: i128, to: i128) -> Option<Ends> {
        Some((from.try_into().ok()?, to.try_into().ok()?))
    }

    fn valid(r: Ends) -> bool {
        r.0 < r.1
    }

    rust_map!(
        RangeMap<i64, u8>,
        |r: Ends| r.0..r.1,
        |r: &Range<i64>| (r.start, r.end)
    );
}

impl Kind for Inclusive {
    const NAME: &'static str = "inclusive map";
    const DOTS: &'static str = "..=";
    const VALUES: usize = 256;
    const BEYOND: i128 = i64::MAX as i128 + 1;
    const OURS: &'static Functions = &ffi::RANGE_INCLUSIVE_MAP;

    fn ends(from: i128, to: i128) -> Option<Ends> {
        Some((from.try_into().ok()?, (to - 1).try_into().ok()?))
    }

    fn valid(r: Ends) -> bool {
        r.0 <= r.1
    }

    rust_map!(
        RangeInclusiveMap<i64, u8>,
        |r: Ends| r.0..=r.1,
        |r: &RangeInclusive<i64>| (*r.start(), *r.end())
    );
}

/// A range of a kind as Rust writes it.
pub fn shown<K: Kind>(r: Ends) -> Shown {
    Shown(K::DOTS, r)
}

/// A map or a set as document 01 writes it: range>value, in order. A set has only 0 for values.
pub struct Of<'a, K>(&'a [Entry], PhantomData<K>);

impl<K: Kind> Display for Of<'_, K> {
    fn fmt(&self, f: &mut Formatter) -> Result {
        f.write_str("{")?;
        for (i, &(r, value)) in self.0.iter().enumerate() {
            let comma = if i == 0 { "" } else { ", " };
            write!(f, "{comma}{}>{value}", shown::<K>(r))?;
        }
        f.write_str("}")
    }
}

pub fn of<K: Kind>(entries: &[Entry]) -> Of<'_, K> {
    Of(entries, PhantomData)
}
