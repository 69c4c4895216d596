//! Intersection and union of two sets, which have one door that checks both.
use crate::lists::Lists;
use crate::logs::random_entries;
use crate::pairs::{race_pairs, Way, PAIRS};
use crate::{maps, tell_one, Wanted};
use beside_rust::ffi::{Combine, Map};
use beside_rust::sets::kind::SetKind;
use std::hint::black_box;

/// Ranges of each of the two sets that are combined.
const RANGES: usize = 500;

impl Lists {
    fn combine_by(&mut self, combine: Combine, m: &mut Map, other: &mut Map) -> usize {
        self.write(|starts, starts_length, ends, ends_length| {
            let (m, other) = (black_box(m), black_box(other));
            // SAFETY: the lists are there.
            unsafe { combine(m, other, starts, starts_length, ends, ends_length) }
        })
    }

    fn intersect_by_rust<K: SetKind>(&mut self, m: &K::Rust, other: &K::Rust) -> usize {
        self.put_all(|lists, count| {
            K::rust_each_in_both(black_box(m), black_box(other), |r| lists.put(count, r));
        })
    }

    fn unite_by_rust<K: SetKind>(&mut self, m: &K::Rust, other: &K::Rust) -> usize {
        self.put_all(|lists, count| {
            K::rust_each_in_either(black_box(m), black_box(other), |r| lists.put(count, r));
        })
    }
}

fn race_combined<K: SetKind>(
    pairs: usize,
    name: &str,
    combine: Combine,
    by_rust: fn(&mut Lists, &K::Rust, &K::Rust) -> usize,
) -> (String, f64) {
    let ours =
        |lists: &mut Lists, m: &mut Map, other: &mut Map| lists.combine_by(combine, m, other);
    let times = race_pairs::<K, 2>(
        pairs,
        |seed| random_entries::<K>(RANGES, seed, |_| 0),
        [Way::Ours(&ours), Way::Rust(&by_rust)],
    );
    let what = format!(
        "{}, {name} at {RANGES} ranges, {pairs} pairs in turn",
        K::NAME
    );
    let ratio = tell_one(&what, times, "rangemap");
    (format!("{what}, ratio"), ratio)
}

pub fn race_sets<K: SetKind>(wanted: &mut Vec<Wanted>) {
    maps::race_checks::<K>();
    let ours = K::OPERATIONS;
    for pairs in [1, PAIRS] {
        let both = [
            race_combined::<K>(
                pairs,
                "intersection",
                ours.intersection,
                Lists::intersect_by_rust::<K>,
            ),
            race_combined::<K>(pairs, "union", ours.union, Lists::unite_by_rust::<K>),
        ];
        if pairs == PAIRS {
            wanted.extend(both.map(|(what, got)| Wanted {
                what,
                most: 0.5,
                got,
            }));
        }
    }
}
