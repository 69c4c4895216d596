//! Questions about one day of a driver's log of 500 ranges, some 20 in each day: its gaps, its ranges, and what an instant holds.
use crate::lists::Lists;
use crate::logs::{Log, STEP};
use crate::maps::{handed_over, inner_doors, race_lookups};
use crate::{race, tell, tell_one};
use beside_rust::ffi::Map;
use beside_rust::maps::kind::{Ends, Kind};
use beside_rust::maps::random::Random;
use std::hint::black_box;

const RANGES: usize = 500;
const IN_A_DAY: usize = 20;

/// A call for each of so many days, in random order.
const CALLS: usize = 500;

/// Days begin and end within a range, as a driver's mostly do.
fn days<K: Kind>() -> Vec<Ends> {
    let mut random = Random::new(19);
    let length = STEP * IN_A_DAY as i128;
    let mut day = || {
        let start = length * random.below(RANGES / IN_A_DAY) as i128 + STEP / 4;
        K::ends(start, start + length).expect("small keys")
    };
    (0..CALLS).map(|_| day()).collect()
}

fn race_gaps<K: Kind>(log: &Log, days: &[Ends]) {
    let rust = K::rust_of(&log.entries);
    let (mut map, mut lent) = (Map::of(&log.entries), Map::of(&log.entries));
    let [mut one, mut other, mut rusts] = [const { Lists::EMPTY }; 3];
    let (inner, checked) = (inner_doors::<K>().gaps, K::OURS.gaps);
    for &day in days {
        let count = rusts.gaps_by_rust::<K>(&rust, day);
        assert_eq!(one.gaps_by(inner, &mut map, day), count);
        assert_eq!(other.gaps_by(checked, &mut lent, day), count);
        assert!(one.same(&rusts, count) && other.same(&rusts, count));
    }
    let times = race(
        CALLS,
        [
            &mut || {
                for &day in days {
                    one.gaps_by(inner, &mut map, day);
                }
            },
            &mut || {
                for &day in days {
                    other.gaps_by(checked, &mut lent, day);
                }
            },
            &mut || {
                for &day in days {
                    rusts.gaps_by_rust::<K>(&rust, day);
                }
            },
        ],
    );
    tell(
        &format!("{}, gaps of one day at {}", K::NAME, log.name),
        times,
    );
}

/// All that a caller takes from the places that ours names, in one number.
fn taken<K: Kind>(m: &mut Map, day: Ends) -> i64 {
    let found = (K::OURS.overlapping)(black_box(m), day.0, day.1);
    assert_eq!(found.answer, 0);
    let places = found.place..found.place + found.count;
    let starts: i64 = m.starts[places.clone()].iter().sum();
    let ends: i64 = m.ends[places.clone()].iter().sum();
    let values = m.values[places].iter().map(|&value| i64::from(value));
    black_box(starts + ends + values.sum::<i64>())
}

fn race_overlapping<K: Kind>(log: &Log, days: &[Ends]) {
    let rust = K::rust_of(&log.entries);
    let mut map = Map::of(&log.entries);
    for &day in days {
        let sum = handed_over::<K>(&rust, day);
        assert_eq!(taken::<K>(&mut map, day), sum);
    }
    let times = race(
        CALLS,
        [
            &mut || {
                for &day in days {
                    taken::<K>(&mut map, day);
                }
            },
            &mut || {
                for &day in days {
                    handed_over::<K>(&rust, day);
                }
            },
        ],
    );
    let what = format!(
        "{}, the ranges of one day at {}, checked door",
        K::NAME,
        log.name
    );
    tell_one(&what, times, "rangemap");
}

pub fn race_days<K: Kind>() {
    let log = Log::touching::<K>(RANGES);
    let days = days::<K>();
    race_gaps::<K>(&log, &days);
    race_overlapping::<K>(&log, &days);
    race_lookups::<K>(&log);
}
