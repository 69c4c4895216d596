//! A day's report beside a count second by second.
//!
//! The day is worked out here again, by another algorithm. The map is edited at random by rangemap, and each edit is painted on a
//! list of the day's seconds besides; the report has to say what the list says. Each hour is held against the seconds in whole numbers.
use crate::day_ffi::{range_map_day_report, range_map_day_report_unchecked, DayReport};
use crate::ffi::{Map, PLACES};
use crate::maps::random::Random;
use crate::report::Report;
use rangemap::RangeMap;
use std::ops::Range;

const HOUR: i64 = 3600;
const DAY: i64 = 24 * HOUR;

#[derive(Clone, Copy, Debug)]
struct Date {
    zone: u8,
    year: u16,
    month: u8,
    day: u8,
}

/// A report without its floats, so that two can be compared, and the bits of these.
type Told = (u8, [i64; 2], [u32; 5], [u64; 5]);

fn told(r: &DayReport) -> Told {
    let hours = [
        r.off_duty_hours,
        r.sleeper_berth_hours,
        r.driving_hours,
        r.on_duty_hours,
        r.unrecorded_hours,
    ];
    let seconds = [
        r.off_duty,
        r.sleeper_berth,
        r.driving,
        r.on_duty,
        r.unrecorded,
    ];
    (r.answer, [r.start, r.end], seconds, hours.map(f64::to_bits))
}

fn refused(answer: u8) -> Told {
    (answer, [0; 2], [0; 5], [0; 5])
}

/// The days from 1970-01-01 to a date that is there: whole eras of 400 years, counted from March.
fn day_number(year: i64, month: i64, day: i64) -> i64 {
    let year = if month <= 2 { year - 1 } else { year };
    let in_era = year.rem_euclid(400);
    let in_year = (153 * ((month + 9) % 12) + 2) / 5 + day - 1;
    year.div_euclid(400) * 146_097 + in_era * 365 + in_era / 4 - in_era / 100 + in_year - 719_468
}

/// The first Sunday of a month.
fn first_sunday(year: i64, month: i64) -> i64 {
    let first = day_number(year, month, 1);
    first + (3 - first).rem_euclid(7)
}

fn midnight(zone: u8, number: i64, year: i64) -> i64 {
    let hours = [5, 6, 7, 8, 9, 10, 7][usize::from(zone)];
    let summer = first_sunday(year, 3) + 7 < number && number <= first_sunday(year, 11);
    number * DAY + (hours - i64::from(zone < 5 && summer)) * HOUR
}

/// The day's start and end, if the zone and the date are good. Dates of the year 2100 are never asked for.
fn day_of(
    Date {
        zone,
        year,
        month,
        day,
    }: Date,
) -> Option<Range<i64>> {
    let (y, m, d) = (i64::from(year), i64::from(month), i64::from(day));
    if zone > 6 || !(2007..=2099).contains(&year) || !(1..=12).contains(&month) || day == 0 {
        return None;
    }
    let next_month = if m == 12 {
        day_number(y + 1, 1, 1)
    } else {
        day_number(y, m + 1, 1)
    };
    let number = day_number(y, m, d);
    let last = m == 12 && d == 31;
    (number < next_month)
        .then(|| midnight(zone, number, y)..midnight(zone, number + 1, y + i64::from(last)))
}

/// Whether the double nearest seconds / 3600 has these bits: 2 * |digits * 3600 - seconds * 2^k| is less than 3600, so no other is as near.
fn is_nearest(bits: u64, seconds: u32) -> bool {
    if seconds == 0 {
        return bits == 0;
    }
    let digits = (bits & ((1 << 52) - 1)) | (1 << 52);
    let k = 1075 - (bits >> 52) as u32;
    let off = i128::from(digits) * 3600 - (i128::from(seconds) << k);
    2 * off.abs() < 3600 && (seconds % 225 != 0 || off == 0)
}

/// What is held in each second of a day.
struct Painted {
    day: Range<i64>,
    held: Vec<Option<u8>>,
}

impl Painted {
    fn new(day: Range<i64>) -> Self {
        let held = vec![None; (day.end - day.start) as usize];
        Painted { day, held }
    }

    fn paint(&mut self, range: &Range<i64>, value: Option<u8>) {
        let start = range.start.clamp(self.day.start, self.day.end) - self.day.start;
        let end = range.end.clamp(self.day.start, self.day.end) - self.day.start;
        if start < end {
            self.held[start as usize..end as usize].fill(value);
        }
    }

    /// What the report has to say, but for its hours.
    fn expected(&self) -> (u8, [i64; 2], [u32; 5]) {
        let mut seconds = [0; 5];
        for held in &self.held {
            match held {
                None => seconds[4] += 1,
                Some(status @ 1..=4) => seconds[usize::from(*status) - 1] += 1,
                Some(_) => return (10, [0; 2], [0; 5]),
            }
        }
        (0, [self.day.start, self.day.end], seconds)
    }
}

fn map_of(rust: &RangeMap<i64, u8>) -> Map {
    let entries: Vec<_> = rust
        .iter()
        .map(|(r, &value)| ((r.start, r.end), value))
        .collect();
    Map::of(&entries)
}

fn ask(
    m: &mut Map,
    Date {
        zone,
        year,
        month,
        day,
    }: Date,
) -> DayReport {
    range_map_day_report(m, zone, year, month, day)
}

fn compare_one(report: &mut Report, m: &mut Map, date: Date, painted: &Painted) {
    let before = m.clone();
    let ours = told(&ask(m, date));
    // SAFETY: the map was made of what rangemap holds, so it is well formed.
    let inner = told(&unsafe {
        range_map_day_report_unchecked(m, date.zone, date.year, date.month, date.day)
    });
    let expected = painted.expected();
    report.same(
        format_args!("{date:?} {before:?}"),
        (ours.0, ours.1, ours.2),
        expected,
    );
    report.same(format_args!("{date:?}, unchecked door"), inner, ours);
    let hours = (ours.2)
        .iter()
        .zip(ours.3)
        .all(|(&seconds, bits)| is_nearest(bits, seconds));
    report.same(format_args!("{date:?}, hours of {:?}", ours.2), hours, true);
    report.same(
        format_args!("{date:?}, the map after the report"),
        *m == before,
        true,
    );
}

fn random_date(random: &mut Random) -> Date {
    loop {
        let year = 2007 + random.below(93) as u16;
        // Days on which the clock changes come up often.
        let (month, day) = match random.below(4) {
            0 => (3, 8 + random.below(7)),
            1 => (11, 1 + random.below(7)),
            2 => ([1, 2, 12][random.below(3)], 1 + random.below(31)),
            _ => (1 + random.below(12), 1 + random.below(31)),
        };
        let date = Date {
            zone: random.below(7) as u8,
            year,
            month: month as u8,
            day: day as u8,
        };
        if day_of(date).is_some() {
            return date;
        }
    }
}

/// A range in or near the day, or one that reaches far off it.
fn random_range(random: &mut Random, day: &Range<i64>) -> Range<i64> {
    let near = |random: &mut Random| match random.below(8) {
        0 => day.start,
        1 => day.end,
        2 => day.start - 1 + random.below(3) as i64,
        3 => day.end - 1 + random.below(3) as i64,
        _ => day.start - HOUR + random.below(27 * HOUR as usize) as i64,
    };
    loop {
        let start = if random.once_in(40) {
            i64::MIN
        } else {
            near(random)
        };
        let end = if random.once_in(40) {
            i64::MAX
        } else {
            near(random)
        };
        if start < end {
            return start..end;
        }
    }
}

fn histories(report: &mut Report, count: usize) {
    report.part(format!("a day's report, {count} random maps"));
    let mut random = Random::new(77);
    for _ in 0..count {
        let date = random_date(&mut random);
        let day = day_of(date).expect("a good date");
        let mut painted = Painted::new(day.clone());
        let mut rust = RangeMap::new();
        let strange = random.once_in(4);
        for _ in 0..random.below(60) {
            let range = random_range(&mut random, &day);
            let value = match random.below(12) {
                0 => None,
                1 if strange => Some([0, 5, 255][random.below(3)]),
                _ => Some(1 + random.below(4) as u8),
            };
            painted.paint(&range, value);
            match value {
                None => rust.remove(range),
                Some(value) => rust.insert(range, value),
            }
        }
        compare_one(report, &mut map_of(&rust), date, &painted);
    }
}

/// Every number of seconds that a day can have, as hours: so much driving, and the rest of the longest day unrecorded.
fn every_hour(report: &mut Report) {
    report.part("a day's report, every number of seconds as hours".to_string());
    let date = Date {
        zone: 0,
        year: 2024,
        month: 11,
        day: 3,
    };
    let day = day_of(date).expect("a good date");
    for seconds in 0..=90_000u32 {
        let mut m = Map::EMPTY;
        if seconds > 0 {
            m = Map::of(&[((day.start, day.start + i64::from(seconds)), 3)]);
        }
        let r = ask(&mut m, date);
        let ours = (
            r.answer,
            r.driving,
            r.unrecorded,
            is_nearest(r.driving_hours.to_bits(), seconds),
        );
        report.same(
            format_args!("{seconds} seconds"),
            ours,
            (0, seconds, 90_000 - seconds, true),
        );
    }
}

fn cases(report: &mut Report) {
    report.part("a day's report, document 01's and refusals".to_string());
    let date = Date {
        zone: 0,
        year: 2024,
        month: 11,
        day: 3,
    };
    let mut rust = RangeMap::new();
    rust.insert(1_730_606_400..1_730_696_400, 1u8);
    rust.insert(1_730_628_000..1_730_653_200, 3);
    let mut november = map_of(&rust);
    let hours = [18.0, 0.0, 7.0, 0.0, 0.0].map(f64::to_bits);
    let said = (
        0,
        [1_730_606_400, 1_730_696_400],
        [64_800, 0, 25_200, 0, 0],
        hours,
    );
    report.same(
        format_args!("November"),
        told(&ask(&mut november, date)),
        said,
    );

    let mut damaged = november.clone();
    damaged.starts[PLACES - 1] = 1;
    let mut strange = november.clone();
    strange.values[0] = 0;
    let good = [date];
    let bad = [
        Date { zone: 7, ..date },
        Date { month: 0, ..date },
        Date { month: 13, ..date },
        Date { day: 0, ..date },
        Date { day: 31, ..date },
        Date { year: 2006, ..date },
        Date { year: 2100, ..date },
        Date {
            zone: 0,
            year: 2023,
            month: 2,
            day: 29,
        },
    ];
    // 4 comes before 8, and 8 before 10.
    for (dates, numbers) in [(&good[..], [0, 4, 10]), (&bad[..], [8, 4, 8])] {
        for &date in dates {
            for (m, number) in [&mut november, &mut damaged, &mut strange]
                .into_iter()
                .zip(numbers)
            {
                let ours = told(&ask(m, date));
                let expected = if number == 0 { said } else { refused(number) };
                report.same(format_args!("{date:?}, refusal {number}"), ours, expected);
            }
        }
    }
}

pub fn compare(report: &mut Report, full: bool) {
    cases(report);
    every_hour(report);
    histories(report, if full { 20_000 } else { 2_000 });
}
