//! What rangemap answers on small maps and sets, printed as the table that crates/test_transcription holds the transcription of its algorithms to.
//! What is asked, in which order, and how an answer is told as a number stands in that crate's specs/Asked.antt.
use crate::inside::std_ext::{RangeExt, RangeInclusiveExt};
use crate::inside::{intersect, intersect_inclusive};
use rangemap::{RangeInclusiveMap, RangeInclusiveSet, RangeMap, RangeSet};
use std::cmp::Ordering;
use std::panic::{catch_unwind, set_hook, take_hook, AssertUnwindSafe};

/// A range of ranks counted from the first key, from its start up to one past its last, and its value.
type Entry = (u64, u64, u64);

/// A number of any size, in limbs of nine decimal digits, the least first.
struct Number(Vec<u64>);

impl Number {
    const LIMB: u64 = 1_000_000_000;

    /// This number times a base, and a digit more.
    fn then(mut self, base: u64, digit: u64) -> Number {
        let mut carry = digit;
        for limb in &mut self.0 {
            let sum = *limb * base + carry;
            *limb = sum % Number::LIMB;
            carry = sum / Number::LIMB;
        }
        while carry > 0 {
            self.0.push(carry % Number::LIMB);
            carry /= Number::LIMB;
        }
        self
    }

    fn text(&self) -> String {
        let mut limbs = self.0.iter().rev();
        let first = limbs.next().map_or("0".to_string(), u64::to_string);
        limbs.fold(first, |text, limb| format!("{text}{limb:09}"))
    }
}

/// Numbers below a base as one.
fn packed(base: u64, numbers: &[u64]) -> Number {
    numbers
        .iter()
        .rev()
        .fold(Number(Vec::new()), |all, n| all.then(base, *n))
}

/// Ranges as a number, nine bits for each.
fn code(entries: &[Entry]) -> u64 {
    entries.iter().rev().fold(1, |all, (start, end, value)| {
        all * 512 + start * 64 + end * 8 + value
    })
}

/// An answer, or 0 for a panic.
fn told(answer: impl FnOnce() -> Vec<Entry>) -> u64 {
    catch_unwind(AssertUnwindSafe(answer)).map_or(0, |entries| code(&entries))
}

fn order_code(equal: bool, order: Ordering) -> u64 {
    (if equal { 4 } else { 0 }) + (order as i8 + 1) as u64
}

/// A kind of map and of set, with keys counted from the key `o`, and ranges from `s` up to `e`.
trait Kind {
    type Map: Clone + Ord;
    type Set;
    /// How many keys ranges start at, and where ranges end.
    const STARTS: u64;
    const ENDS: [u64; 2];
    fn contains(o: i64, s: u64, e: u64, k: u64) -> bool;
    /// Whether two ranges touch, whether they overlap, and what they have in common.
    fn related(o: i64, a: (u64, u64), b: (u64, u64)) -> (bool, bool, Vec<Entry>);
    fn new_map() -> Self::Map;
    fn edit(map: &mut Self::Map, o: i64, s: u64, e: u64, value: Option<u8>);
    fn entries(map: &Self::Map, o: i64) -> Vec<Entry>;
    fn overlapping(map: &Self::Map, o: i64, s: u64, e: u64) -> Vec<Entry>;
    fn gaps(map: &Self::Map, o: i64, s: u64, e: u64) -> Vec<Entry>;
    fn get(map: &Self::Map, o: i64, k: u64) -> Vec<Entry>;
    fn set_of(map: &Self::Map) -> Self::Set;
    /// Union, intersection, and what | and & make.
    fn operations(a: &Self::Set, b: &Self::Set, o: i64) -> [Vec<Entry>; 4];
}

/// A key that is counted from another.
fn key(o: i64, n: u64) -> i64 {
    (i128::from(o) + i128::from(n)) as i64
}

/// How far a key is from another, or from one past it.
fn count(o: i64, key: i64, more: i128) -> u64 {
    (i128::from(key) - i128::from(o) + more) as u64
}

struct HalfOpen;

fn half_open(o: i64, range: &std::ops::Range<i64>, value: u64) -> Entry {
    (count(o, range.start, 0), count(o, range.end, 0), value)
}

impl Kind for HalfOpen {
    type Map = RangeMap<i64, u8>;
    type Set = RangeSet<i64>;
    const STARTS: u64 = 4;
    const ENDS: [u64; 2] = [0, 3];

    fn contains(o: i64, s: u64, e: u64, k: u64) -> bool {
        (key(o, s)..key(o, e)).contains(&key(o, k))
    }

    fn related(o: i64, a: (u64, u64), b: (u64, u64)) -> (bool, bool, Vec<Entry>) {
        let (a, b) = (key(o, a.0)..key(o, a.1), key(o, b.0)..key(o, b.1));
        let common = intersect(&a, &b).map(|r| half_open(o, &r, 0));
        (a.touches(&b), a.overlaps(&b), common.into_iter().collect())
    }

    fn new_map() -> Self::Map {
        RangeMap::new()
    }

    fn edit(map: &mut Self::Map, o: i64, s: u64, e: u64, value: Option<u8>) {
        match value {
            Some(value) => map.insert(key(o, s)..key(o, e), value),
            None => map.remove(key(o, s)..key(o, e)),
        }
    }

    fn entries(map: &Self::Map, o: i64) -> Vec<Entry> {
        map.iter()
            .map(|(r, v)| half_open(o, r, u64::from(*v)))
            .collect()
    }

    fn overlapping(map: &Self::Map, o: i64, s: u64, e: u64) -> Vec<Entry> {
        let query = key(o, s)..key(o, e);
        map.overlapping(&query)
            .map(|(r, v)| half_open(o, r, u64::from(*v)))
            .collect()
    }

    fn gaps(map: &Self::Map, o: i64, s: u64, e: u64) -> Vec<Entry> {
        let outer = key(o, s)..key(o, e);
        map.gaps(&outer).map(|r| half_open(o, &r, 0)).collect()
    }

    fn get(map: &Self::Map, o: i64, k: u64) -> Vec<Entry> {
        map.get_key_value(&key(o, k))
            .map(|(r, v)| half_open(o, r, u64::from(*v)))
            .into_iter()
            .collect()
    }

    fn set_of(map: &Self::Map) -> Self::Set {
        map.iter().map(|(r, _)| r.clone()).collect()
    }

    fn operations(a: &Self::Set, b: &Self::Set, o: i64) -> [Vec<Entry>; 4] {
        let listed =
            |ranges: Vec<std::ops::Range<i64>>| ranges.iter().map(|r| half_open(o, r, 0)).collect();
        [
            listed(a.union(b).collect()),
            listed(a.intersection(b).collect()),
            listed((a | b).iter().cloned().collect()),
            listed((a & b).iter().cloned().collect()),
        ]
    }
}

struct Inclusive;

fn inclusive(o: i64, range: &std::ops::RangeInclusive<i64>, value: u64) -> Entry {
    (
        count(o, *range.start(), 0),
        count(o, *range.end(), 1),
        value,
    )
}

/// The range from s up to e.
fn up_to(o: i64, s: u64, e: u64) -> std::ops::RangeInclusive<i64> {
    key(o, s)..=key(o, e - 1)
}

impl Kind for Inclusive {
    type Map = RangeInclusiveMap<i64, u8>;
    type Set = RangeInclusiveSet<i64>;
    const STARTS: u64 = 3;
    const ENDS: [u64; 2] = [1, 3];

    fn contains(o: i64, s: u64, e: u64, k: u64) -> bool {
        up_to(o, s, e).contains(&key(o, k))
    }

    fn related(o: i64, a: (u64, u64), b: (u64, u64)) -> (bool, bool, Vec<Entry>) {
        let (a, b) = (up_to(o, a.0, a.1), up_to(o, b.0, b.1));
        let common = intersect_inclusive(&a, &b).map(|r| inclusive(o, &r, 0));
        (
            a.touches::<i64>(&b),
            a.overlaps(&b),
            common.into_iter().collect(),
        )
    }

    fn new_map() -> Self::Map {
        RangeInclusiveMap::new()
    }

    fn edit(map: &mut Self::Map, o: i64, s: u64, e: u64, value: Option<u8>) {
        match value {
            Some(value) => map.insert(up_to(o, s, e), value),
            None => map.remove(up_to(o, s, e)),
        }
    }

    fn entries(map: &Self::Map, o: i64) -> Vec<Entry> {
        map.iter()
            .map(|(r, v)| inclusive(o, r, u64::from(*v)))
            .collect()
    }

    fn overlapping(map: &Self::Map, o: i64, s: u64, e: u64) -> Vec<Entry> {
        map.overlapping(&up_to(o, s, e))
            .map(|(r, v)| inclusive(o, r, u64::from(*v)))
            .collect()
    }

    fn gaps(map: &Self::Map, o: i64, s: u64, e: u64) -> Vec<Entry> {
        map.gaps(&up_to(o, s, e))
            .map(|r| inclusive(o, &r, 0))
            .collect()
    }

    fn get(map: &Self::Map, o: i64, k: u64) -> Vec<Entry> {
        map.get_key_value(&key(o, k))
            .map(|(r, v)| inclusive(o, r, u64::from(*v)))
            .into_iter()
            .collect()
    }

    fn set_of(map: &Self::Map) -> Self::Set {
        map.iter().map(|(r, _)| r.clone()).collect()
    }

    fn operations(a: &Self::Set, b: &Self::Set, o: i64) -> [Vec<Entry>; 4] {
        let listed = |ranges: Vec<std::ops::RangeInclusive<i64>>| {
            ranges.iter().map(|r| inclusive(o, r, 0)).collect()
        };
        [
            listed(a.union(b).collect()),
            listed(a.intersection(b).collect()),
            listed((a | b).iter().cloned().collect()),
            listed((a & b).iter().cloned().collect()),
        ]
    }
}

/// Every map over three keys with values up to `values`, the first key's value changing last.
fn states<K: Kind>(o: i64, values: u8) -> Vec<K::Map> {
    let mut all = Vec::new();
    for a in 0..=values {
        for b in 0..=values {
            for c in 0..=values {
                let mut map = K::new_map();
                for (k, value) in [(0, a), (1, b), (2, c)] {
                    if value > 0 {
                        K::edit(&mut map, o, k, k + 1, Some(value));
                    }
                }
                all.push(map);
            }
        }
    }
    all
}

/// Each range that is asked about: where it starts, and where it ends.
fn ranges<K: Kind>() -> impl Iterator<Item = (u64, u64)> {
    (0..K::STARTS).flat_map(|s| (K::ENDS[0]..=K::ENDS[1]).map(move |e| (s, e)))
}

/// The answers about each range as one number.
fn of_ranges<K: Kind>(base: u64, answer: impl Fn(u64, u64) -> u64) -> Number {
    let answers: Vec<u64> = ranges::<K>().map(|(s, e)| answer(s, e)).collect();
    packed(base, &answers)
}

/// Whether two ranges touch, and 4 more where they overlap.
fn relation_code(touches: bool, overlaps: bool) -> u64 {
    (if touches { 2 } else { 1 }) + (if overlaps { 4 } else { 0 })
}

/// The answers about a range alone.
fn range_row<K: Kind>(o: i64, s: u64, e: u64) -> [Number; 3] {
    let contains: Vec<u64> = (0..K::STARTS)
        .map(|k| K::contains(o, s, e, k).into())
        .collect();
    let related = |c, d| K::related(o, (s, e), (c, d));
    [
        packed(2, &contains),
        of_ranges::<K>(8, |c, d| {
            let (touches, overlaps, _) = related(c, d);
            relation_code(touches, overlaps)
        }),
        of_ranges::<K>(1 << 28, |c, d| code(&related(c, d).2)),
    ]
}

/// All answers of a kind at a key.
fn table<K: Kind>(o: i64) -> Vec<Number> {
    let maps = states::<K>(o, 2);
    let mut answers: Vec<Number> = ranges::<K>()
        .flat_map(|(s, e)| range_row::<K>(o, s, e))
        .collect();
    for map in &maps {
        let edited = |value: Option<u8>| {
            of_ranges::<K>(1 << 28, |s, e| {
                told(|| {
                    let mut map = map.clone();
                    K::edit(&mut map, o, s, e, value);
                    K::entries(&map, o)
                })
            })
        };
        answers.push(packed(1 << 28, &[code(&K::entries(map, o))]));
        answers.extend([None, Some(1), Some(2)].map(edited));
        answers.push(of_ranges::<K>(1 << 28, |s, e| {
            code(&K::overlapping(map, o, s, e))
        }));
        answers.push(of_ranges::<K>(1 << 28, |s, e| {
            told(|| K::gaps(map, o, s, e))
        }));
        let gets: Vec<u64> = (0..K::STARTS).map(|k| code(&K::get(map, o, k))).collect();
        answers.push(packed(1 << 28, &gets));
        let orders: Vec<u64> = maps
            .iter()
            .map(|other| order_code(map == other, map.cmp(other)))
            .collect();
        answers.push(packed(8, &orders));
    }
    let sets: Vec<K::Set> = states::<K>(o, 1).iter().map(K::set_of).collect();
    for a in &sets {
        for b in &sets {
            answers.push(packed(
                1 << 28,
                &K::operations(a, b, o).map(|entries| code(&entries)),
            ));
        }
    }
    answers
}

/// A table as an equation that is proved by computation.
fn equation(name: &str, side: &str, answers: &[Number]) -> String {
    let numbers: String = answers
        .iter()
        .map(|n| format!("{}\n    ∷ ", n.text()))
        .collect();
    format!("\n{name} : {side}\n    ≡ {numbers}[]\nunfolding all\n{name} = refl\n")
}

/// The module of crates/test_transcription that has the tables. A panic is an answer here, and nothing is said of it.
pub fn replay() -> String {
    let told = take_hook();
    set_hook(Box::new(|_| {}));
    let text = tables();
    set_hook(told);
    text
}

fn tables() -> String {
    let mut text = "-- What rangemap 1.8.0 answers, printed by `rust/compare --replay transcription`: at the least keys and at the greatest.\n\
        use Prim.Native.Nat.{◌-◌, ◌^◌}\n\
        use mathlib.Core.Path.{◌≡◌, refl}\n\
        use mathlib.Core.List.{[], ◌∷◌}\n\
        use Rattle.test_transcription.specs.Asked.{half_open_table, inclusive_table}\n\
        use Rattle.test_transcription.proofs.Computes.{all}\n"
        .to_string();
    text += &equation(
        "half_open_least",
        "half_open_table 0",
        &table::<HalfOpen>(i64::MIN),
    );
    text += &equation(
        "half_open_greatest",
        "half_open_table (2 ^ 64 - 4)",
        &table::<HalfOpen>(i64::MAX - 3),
    );
    text += &equation(
        "inclusive_least",
        "inclusive_table 0",
        &table::<Inclusive>(i64::MIN),
    );
    text += &equation(
        "inclusive_greatest",
        "inclusive_table (2 ^ 64 - 3)",
        &table::<Inclusive>(i64::MAX - 2),
    );
    text
}
