//! One map: lookups, edits, gaps and the check.
use crate::lists::Lists;
use crate::logs::{Log, CALLS, STEP};
use crate::{race, tell, Wanted, GAPS_RANGES, RANGES};
use beside_rust::ffi::{Gaps, Inner, Map, Range, PLACES};
use beside_rust::maps::kind::{Ends, Entry, Kind};
use beside_rust::maps::{edit, edit_unchecked, Edit};
use std::hint::black_box;

/// All that is found, in one number, so that no lookup can be left out.
fn sum_of(keys: &[i64], mut get: impl FnMut(i64) -> Option<Entry>) -> i64 {
    let mut sum = 0;
    for &key in black_box(keys) {
        if let Some(((start, end), value)) = get(key) {
            sum += start + end + i64::from(value);
        }
    }
    black_box(sum)
}

fn entry_of(found: Range) -> Option<Entry> {
    (found.answer == 0).then_some(((found.start, found.end), found.value))
}

pub fn inner_doors<K: Kind>() -> Inner {
    K::OURS.inner.expect("a map has unchecked doors")
}

fn race_lookups_of<K: Kind>(what: &str, log: &Log, keys: &[i64]) {
    let rust = K::rust_of(&log.entries);
    let (mut map, mut lent) = (Map::of(&log.entries), Map::of(&log.entries));
    // SAFETY: the map is well formed.
    let inner = |m: &mut Map, key| unsafe { (inner_doors::<K>().get)(m, key) };
    let checked = |m: &mut Map, key| (K::OURS.get)(m, key);

    let sum = sum_of(keys, |key| K::rust_get(&rust, key));
    assert_eq!(sum, sum_of(keys, |key| entry_of(inner(&mut map, key))));
    assert_eq!(sum, sum_of(keys, |key| entry_of(checked(&mut map, key))));

    let times = race(
        CALLS,
        [
            &mut || {
                sum_of(keys, |key| entry_of(inner(&mut map, key)));
            },
            &mut || {
                sum_of(keys, |key| entry_of(checked(&mut lent, key)));
            },
            &mut || {
                sum_of(keys, |key| K::rust_get(&rust, key));
            },
        ],
    );
    tell(&format!("{}, {what} at {}", K::NAME, log.name), times);
}

pub fn race_lookups<K: Kind>(log: &Log) {
    race_lookups_of::<K>("lookup", log, &log.random_keys(11));
}

pub fn race_ascending<K: Kind>(log: &Log) {
    race_lookups_of::<K>("lookup of ascending keys", log, &log.ascending_keys());
}

/// One key gets a value that no entry has, and then what it had before: a split and a join, or a range more and one less.
struct Undone {
    range: Ends,
    undo: Option<u8>,
}

const NEW: u8 = 255;

fn undone<K: Kind>(rust: &K::Rust, keys: &[i64]) -> Vec<Undone> {
    let edit = |&key: &i64| Undone {
        range: K::ends(key.into(), i128::from(key) + 1).expect("small keys"),
        undo: K::rust_get(rust, key).map(|entry| entry.1),
    };
    keys.iter().map(edit).collect()
}

fn edit_all<M>(m: &mut M, edits: &[Undone], mut edit: impl FnMut(&mut M, Ends, Option<u8>)) {
    for one in black_box(edits) {
        edit(m, one.range, Some(NEW));
        edit(m, one.range, one.undo);
    }
    black_box(m);
}

/// An edit that none of these maps refuses.
pub fn good(edit: Edit) -> impl Fn(&mut Map, Ends, Option<u8>) {
    move |m, r, new| assert_eq!(edit(m, r, new), 0)
}

/// What was raced, and the times.
pub fn race_edits<K: Kind>(log: &Log) -> (String, [f64; 3]) {
    let entries = &log.entries;
    let mut rust = K::rust_of(entries);
    let edits = undone::<K>(&rust, &log.random_keys(13));
    let (mut map, mut lent) = (Map::of(entries), Map::of(entries));
    let times = race(
        2 * CALLS,
        [
            &mut || edit_all(&mut map, &edits, good(edit_unchecked::<K>)),
            &mut || edit_all(&mut lent, &edits, good(edit::<K>)),
            &mut || edit_all(&mut rust, &edits, |m, r, new| K::rust_edit(m, r, new)),
        ],
    );
    // Each edit was undone.
    let before = Map::of(entries);
    assert!(map == before && lent == before && K::rust_entries(&rust) == *entries);

    let what = format!("{}, edit at {}", K::NAME, log.name);
    tell(&what, times);
    (what, times)
}

pub fn race_edits_wanted<K: Kind>(log: &Log, wanted: &mut Vec<Wanted>) {
    let (what, times) = race_edits::<K>(log);
    wanted.push(Wanted {
        what: format!("{what}, unchecked door, ratio"),
        most: 1.5,
        got: times[0] / times[2],
    });
}

impl Lists {
    pub fn gaps_by(&mut self, gaps: Gaps, m: &mut Map, r: Ends) -> usize {
        self.write(|starts, starts_length, ends, ends_length| {
            let m = black_box(m);
            // SAFETY: the lists are there, and the map is well formed.
            unsafe { gaps(m, r.0, r.1, starts, starts_length, ends, ends_length) }
        })
    }

    pub fn gaps_by_rust<K: Kind>(&mut self, m: &K::Rust, r: Ends) -> usize {
        self.put_all(|lists, count| {
            K::rust_each_gap(black_box(m), r, |gap| lists.put(count, gap));
        })
    }
}

pub fn race_gaps<K: Kind>(wanted: &mut Vec<Wanted>) {
    const CALLS: usize = 200;
    let entries = Log::apart::<K>(GAPS_RANGES).entries;
    let rust = K::rust_of(&entries);
    let mut map = Map::of(&entries);
    let mut lent = map.clone();
    let r = K::ends(-5, STEP * GAPS_RANGES as i128).expect("small keys");

    let (mut one, mut other, mut rusts) = (Lists::EMPTY, Lists::EMPTY, Lists::EMPTY);
    let times = race(
        CALLS,
        [
            &mut || {
                for _ in 0..CALLS {
                    one.gaps_by(inner_doors::<K>().gaps, &mut map, r);
                }
            },
            &mut || {
                for _ in 0..CALLS {
                    other.gaps_by(K::OURS.gaps, &mut lent, r);
                }
            },
            &mut || {
                for _ in 0..CALLS {
                    rusts.gaps_by_rust::<K>(&rust, r);
                }
            },
        ],
    );
    let count = rusts.gaps_by_rust::<K>(&rust, r);
    assert_eq!(count, GAPS_RANGES + 1);
    assert!(one.same(&rusts, count) && other.same(&rusts, count));

    let what = format!("{}, gaps of {GAPS_RANGES} ranges", K::NAME);
    tell(&what, times);
    wanted.push(Wanted {
        what: format!("{what}, unchecked door, ratio"),
        most: 0.6,
        got: times[0] / times[2],
    });
}

/// Calls of a batch of checks.
const CHECKS: usize = 500;

fn check_all<K: Kind>(map: &mut Map) {
    for _ in 0..CHECKS {
        assert_eq!((K::OURS.well_formed)(black_box(map)), 1);
    }
}

/// The check alone, with so many ranges: what it is called, and nanoseconds a place.
pub fn race_checks<K: Kind>() -> [(String, f64); 3] {
    [0, RANGES, PLACES].map(|count| {
        let log = Log::apart::<K>(count);
        let mut map = Map::of(&log.entries);
        let [time] = race(CHECKS * PLACES, [&mut || check_all::<K>(&mut map)]);
        let what = format!("{}, the check at {}", K::NAME, log.name);
        println!("{what}: {time:.2} ns a place");
        (format!("{what}, ns a place"), time)
    })
}

/// All that rangemap's `overlapping` hands over, in one number, so that no range can be left out.
pub fn handed_over<K: Kind>(m: &K::Rust, r: Ends) -> i64 {
    let mut sum = 0;
    for ((start, end), value) in K::rust_iter_overlapping(black_box(m), black_box(r)) {
        sum += start + end + i64::from(value);
    }
    black_box(sum)
}

/// The check beside what rangemap, which has none, takes to hand all its ranges over.
pub fn race_check_beside<K: Kind>(log: &Log) {
    let mut map = Map::of(&log.entries);
    let rust = K::rust_of(&log.entries);
    let all = K::ends(0, STEP * log.entries.len() as i128).expect("small keys");
    let [time, rust_time] = race(
        CHECKS,
        [&mut || check_all::<K>(&mut map), &mut || {
            for _ in 0..CHECKS {
                handed_over::<K>(&rust, all);
            }
        }],
    );
    println!(
        "{}, the check at {}: {:.2} ns a place, ratio {:.2}; rangemap's overlapping hands all over in {rust_time:.1} ns",
        K::NAME,
        log.name,
        time / PLACES as f64,
        time / rust_time
    );
}
