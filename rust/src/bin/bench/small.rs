//! Maps of 20 ranges: the check, lookups, edits, and inserts and removals each for themselves.
use crate::logs::Log;
use crate::maps::{good, race_check_beside, race_edits, race_lookups};
use crate::{race, tell};
use beside_rust::ffi::Map;
use beside_rust::maps::kind::{Entry, Kind};
use beside_rust::maps::random::Random;
use beside_rust::maps::{edit, edit_unchecked};
use std::cell::RefCell;
use std::hint::black_box;

const RANGES: usize = 20;

/// Inserts and removals take a map from so many ranges to so many and back, 20 of them on the average.
const LEAST: usize = 10;
const MOST: usize = 30;

/// So many maps are edited one after the other, so that a batch is long beside the clock's grain.
const COPIES: usize = 5;

fn shuffle(entries: &mut [Entry], seed: u64) {
    let mut random = Random::new(seed);
    for i in (1..entries.len()).rev() {
        entries.swap(i, random.below(i + 1));
    }
}

/// Gives every entry's range its value, or none, in each of the maps.
fn edit_each<M>(
    maps: &RefCell<Vec<M>>,
    entries: &[Entry],
    new: fn(u8) -> Option<u8>,
    edit: impl Fn(&mut M, (i64, i64), Option<u8>),
) {
    for m in maps.borrow_mut().iter_mut() {
        for &(range, value) in black_box(entries) {
            edit(m, range, new(value));
        }
        black_box(m);
    }
}

fn race_inserts_and_removes<K: Kind>() {
    let mut kept = Log::apart::<K>(MOST).entries;
    shuffle(&mut kept, 23);
    let inserted = kept.split_off(LEAST);
    kept.sort();
    let mut removed = inserted.clone();
    shuffle(&mut removed, 29);

    let copies = || RefCell::new(vec![Map::of(&kept); COPIES]);
    let (map, lent) = (copies(), copies());
    let rust = RefCell::new(vec![K::rust_of(&kept); COPIES]);
    let times = race(
        COPIES * inserted.len(),
        [
            &mut || edit_each(&map, &inserted, Some, good(edit_unchecked::<K>)),
            &mut || edit_each(&lent, &inserted, Some, good(edit::<K>)),
            &mut || edit_each(&rust, &inserted, Some, |m, r, new| K::rust_edit(m, r, new)),
            &mut || edit_each(&map, &removed, |_| None, good(edit_unchecked::<K>)),
            &mut || edit_each(&lent, &removed, |_| None, good(edit::<K>)),
            &mut || {
                edit_each(
                    &rust,
                    &removed,
                    |_| None,
                    |m, r, new| K::rust_edit(m, r, new),
                )
            },
        ],
    );
    // What was inserted was removed.
    assert!(map == copies() && lent == copies());
    assert!(rust.borrow().iter().all(|m| K::rust_entries(m) == kept));

    let [inner, checked, rust, inner_remove, checked_remove, rust_remove] = times;
    let about = format!("at {LEAST} to {MOST} ranges");
    tell(
        &format!("{}, insert {about}", K::NAME),
        [inner, checked, rust],
    );
    let remove = [inner_remove, checked_remove, rust_remove];
    tell(&format!("{}, remove {about}", K::NAME), remove);
}

pub fn race_small<K: Kind>() {
    let log = Log::apart::<K>(RANGES);
    race_check_beside::<K>(&log);
    race_lookups::<K>(&log);
    race_edits::<K>(&log);
    race_inserts_and_removes::<K>();
}
