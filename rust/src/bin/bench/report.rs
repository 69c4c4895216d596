//! A day's report at 500 ranges, all in one day, beside the time in which rangemap's `overlapping` hands the same ranges over.
use crate::{race, tell, Wanted};
use beside_rust::day_ffi::{range_map_day_report, range_map_day_report_unchecked, DayReport};
use beside_rust::ffi::Map;
use beside_rust::maps::random::Random;
use rangemap::RangeMap;
use std::hint::black_box;

const RANGES: usize = 500;
const CALLS: usize = 500;

/// 2024-11-03, Eastern: 90,000 seconds.
const START: i64 = 1_730_606_400;
const END: i64 = 1_730_696_400;

/// A range of 100 seconds in every 180, with a random status.
fn entries() -> Vec<((i64, i64), u8)> {
    let mut random = Random::new(3);
    let start = |i: usize| START + 180 * i as i64;
    (0..RANGES)
        .map(|i| ((start(i), start(i) + 100), 1 + random.below(4) as u8))
        .collect()
}

/// The seconds of each status, from what `overlapping` hands over.
fn sums(rust: &RangeMap<i64, u8>) -> [i64; 5] {
    let mut sums = [0; 5];
    for (range, &status) in rust.overlapping(START..END) {
        sums[usize::from(status)] += range.end.min(END) - range.start.max(START);
    }
    sums
}

/// All that `overlapping` hands over, in one number, so that no range can be left out.
/// Written for this one type: here the loop that serves any kind, `handed_over`, takes a third longer, which would flatter ours.
fn handed(rust: &RangeMap<i64, u8>) -> i64 {
    let mut sum = 0;
    for (range, &status) in rust.overlapping(black_box(START..END)) {
        sum += range.start + range.end + i64::from(status);
    }
    black_box(sum)
}

pub fn race_reports(wanted: &mut Vec<Wanted>) {
    let entries = entries();
    let rust: RangeMap<i64, u8> = entries.iter().map(|&((s, e), v)| (s..e, v)).collect();
    let (mut map, mut lent) = (Map::of(&entries), Map::of(&entries));
    // SAFETY: the map is well formed.
    let inner =
        |m: &mut Map| -> DayReport { unsafe { range_map_day_report_unchecked(m, 0, 2024, 11, 3) } };
    let checked = |m: &mut Map| range_map_day_report(m, 0, 2024, 11, 3);

    let sums = sums(&rust);
    for r in [inner(&mut map), checked(&mut map)] {
        let ours = [r.off_duty, r.sleeper_berth, r.driving, r.on_duty];
        assert!(r.answer == 0 && ours.map(i64::from) == sums[1..]);
    }

    let times = race(
        CALLS,
        [
            &mut || {
                for _ in 0..CALLS {
                    black_box(inner(black_box(&mut map)));
                }
            },
            &mut || {
                for _ in 0..CALLS {
                    black_box(checked(black_box(&mut lent)));
                }
            },
            &mut || {
                for _ in 0..CALLS {
                    handed(black_box(&rust));
                }
            },
        ],
    );
    let what = format!("a day's report at {RANGES} ranges");
    tell(&what, times);
    for (door, time) in [("unchecked door", times[0]), ("checked door", times[1])] {
        wanted.push(Wanted {
            what: format!("{what}, {door}, by what rangemap's overlapping takes, ratio"),
            most: 1.0,
            got: time / times[2],
        });
    }
}
