//! What crates/test_set has to print, as rangemap answers: every set over four cells, and one that is not well formed.
//!
//! A line has a set by its ranges, what it is asked with, and the answers, each behind a letter.
use super::kind::SetKind;
use crate::maps::damaged::span;
use crate::maps::kind::{shown, Ends, Entry, Kind};
use crate::shown::Key;
use std::cmp::Ordering;

/// The five keys.
const KEYS: [i64; 5] = [i64::MIN, 0, 1, i64::MAX - 1, i64::MAX];

/// The 25 ranges over them, of which some are empty or reversed.
fn ranges() -> impl Iterator<Item = Ends> {
    let to = |start| KEYS.into_iter().map(move |end| (start, end));
    KEYS.into_iter().flat_map(to)
}

/// The cells lie side by side. The last inclusive one has the greatest key only, so the one before has one key more.
fn cells<K: Kind>() -> [Ends; 4] {
    let last: i128 = K::BEYOND - 1;
    let bounds = [i64::MIN.into(), 0, 1, last, K::BEYOND];
    [0, 1, 2, 3].map(|i| K::ends(bounds[i], bounds[i + 1]).expect("keys"))
}

/// A set of rangemap, or one that is not well formed.
struct Lent<K: Kind> {
    rust: K::Rust,
    damaged: bool,
}

/// Sets 0 to 15 are those over the cells, a digit for each cell. The next is not well formed.
fn sets<K: Kind>() -> Vec<Lent<K>> {
    let digit = |number: u32, cell: usize| number >> cell & 1;
    let held = |number| (0..4).filter(move |&cell| digit(number, cell) == 1);
    let entries = |number| held(number).map(|cell| (cells::<K>()[cell], 0));
    let set = |number| Lent {
        rust: K::rust_of(&entries(number).collect::<Vec<Entry>>()),
        damaged: number == 16,
    };
    (0..17).map(set).collect()
}

fn told(answer: u8, yes: bool) -> String {
    format!("{answer} {}", u8::from(answer == 0 && yes))
}

impl<K: SetKind> Lent<K> {
    /// Document 01's number, but for 2, 3 and 5: 4, then 1 for a range that is not valid.
    fn refusal(&self, r: Option<Ends>) -> u8 {
        match r {
            _ if self.damaged => 4,
            Some(r) if !K::valid(r) => 1,
            _ => 0,
        }
    }

    /// The first four ranges.
    fn shown(&self) -> String {
        let entries = K::rust_entries(&self.rust);
        let held = if self.damaged { &[] } else { &entries[..] };
        let ranges = held.iter().take(4);
        let ranges: String = ranges
            .map(|(r, _)| format!(" {}", shown::<K>(*r)))
            .collect();
        format!("{{{ranges}}}")
    }

    fn told(&self, r: Option<Ends>, yes: bool) -> String {
        told(self.refusal(r), yes)
    }

    fn found(&self, found: Option<Entry>) -> String {
        let (answer, (r, value)) = match (self.damaged, found) {
            (true, _) => (4, ((0, 0), 0)),
            (false, None) => (5, ((0, 0), 0)),
            (false, Some(entry)) => (0, entry),
        };
        format!("{answer} {} {value}", shown::<K>(r))
    }

    fn total(&self) -> String {
        let entries = K::rust_entries(&self.rust);
        let spans = entries.iter().map(|entry| span::<K>(entry.0));
        let total: i128 = spans.map(|(from, to)| to - from).sum();
        match (self.refusal(None), u64::try_from(total)) {
            (0, Ok(total)) => format!("0 {total}"),
            (0, Err(_)) => "9 0".to_string(),
            (answer, _) => format!("{answer} 0"),
        }
    }

    fn whole(&self) -> String {
        let rust = &self.rust;
        let answer = self.refusal(None);
        let len = if answer == 0 { K::rust_len(rust) } else { 0 };
        format!(
            "{} e {} n {answer} {len} f {} l {} s {} t {}",
            self.shown(),
            self.told(None, K::rust_is_empty(rust)),
            self.found(K::rust_first(rust)),
            self.found(K::rust_last(rust)),
            self.found(K::rust_entries(rust).get(1).copied()),
            self.total(),
        )
    }

    fn at(&self, key: i64) -> String {
        format!(
            "{} {} g {} c {}",
            self.shown(),
            Key(key),
            self.found(K::rust_get(&self.rust, key)),
            self.told(None, K::rust_contains(&self.rust, key)),
        )
    }

    /// What the edit answers, and the set that it leaves. No set comes near the limit of PLACES ranges.
    fn edited(&self, r: Ends, new: Option<u8>) -> String {
        let mut left = Lent::<K> {
            rust: self.rust.clone(),
            damaged: self.damaged,
        };
        let answer = self.refusal(Some(r));
        if answer == 0 {
            K::rust_edit(&mut left.rust, r, new);
        }
        format!("{answer} {}", left.shown())
    }

    fn overlapping(&self, r: Ends) -> String {
        let answer = self.refusal(Some(r));
        if answer != 0 {
            return format!("{answer} 0 0");
        }
        let met = K::rust_overlapping(&self.rust, r);
        let entries = K::rust_entries(&self.rust);
        let place = entries.iter().position(|entry| met.first() == Some(entry));
        format!("0 {} {}", place.unwrap_or(0), met.len())
    }

    fn gaps(&self, r: Ends) -> String {
        let answer = self.refusal(Some(r));
        let gaps = if answer == 0 {
            K::rust_gaps(&self.rust, r)
        } else {
            Vec::new()
        };
        listed::<K>(answer, gaps)
    }

    fn over(&self, r: Ends) -> String {
        format!(
            "{} {} i {} r {} o {} v {} w {}",
            self.shown(),
            shown::<K>(r),
            self.edited(r, Some(0)),
            self.edited(r, None),
            self.overlapping(r),
            self.told(Some(r), K::rust_overlaps(&self.rust, r)),
            self.gaps(r),
        )
    }

    fn combined(&self, other: &Self, combine: fn(&K::Rust, &K::Rust) -> Vec<Ends>) -> String {
        let answer = self.refusal(None).max(other.refusal(None));
        let ranges = if answer == 0 {
            combine(&self.rust, &other.rust)
        } else {
            Vec::new()
        };
        listed::<K>(answer, ranges)
    }

    fn with(&self, other: &Self) -> String {
        let answer = self.refusal(None).max(other.refusal(None));
        // The order plus one.
        let order = match self.rust.cmp(&other.rust) {
            _ if answer != 0 => 1,
            Ordering::Less => 0,
            Ordering::Equal => 1,
            Ordering::Greater => 2,
        };
        format!(
            "{} {} q {} m {answer} {order} a {} u {}",
            self.shown(),
            other.shown(),
            told(answer, self.rust == other.rust),
            self.combined(other, K::rust_intersection),
            self.combined(other, K::rust_union),
        )
    }
}

/// Ranges in three places, which hold 0 before.
fn listed<K: Kind>(mut answer: u8, mut ranges: Vec<Ends>) -> String {
    const PLACES: usize = 3;
    if ranges.len() > PLACES {
        (answer, ranges) = (3, Vec::new());
    }
    let count = ranges.len();
    ranges.resize(PLACES, (0, 0));
    let ranges: String = ranges
        .into_iter()
        .map(|r| format!(" {}", shown::<K>(r)))
        .collect();
    format!("{answer} {count}{ranges}")
}

fn lines<K: SetKind>() -> Vec<String> {
    let sets = sets::<K>();
    let mut lines: Vec<String> = sets.iter().map(Lent::whole).collect();
    for set in &sets {
        lines.extend(KEYS.map(|key| set.at(key)));
    }
    for set in &sets {
        lines.extend(ranges().map(|r| set.over(r)));
    }
    for set in &sets {
        lines.extend(sets.iter().map(|other| set.with(other)));
    }
    lines
}

/// What the program has to print.
pub fn replay<A: SetKind, B: SetKind>() -> String {
    let lines = lines::<A>().into_iter().chain(lines::<B>());
    lines.map(|line| line + "\n").collect()
}
