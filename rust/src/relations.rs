//! Module 1: contains, overlaps, touches and intersect, of both kinds of range.
use crate::ffi::{self, Intersected, Related};
use crate::inside::std_ext::{RangeExt, RangeInclusiveExt};
use crate::inside::{intersect, intersect_inclusive};
use crate::maps::kind::Ends;
use crate::report::Report;
use crate::shown::{Key, Shown};
use rangemap::{RangeInclusiveSet, RangeSet};
use std::fmt::{Arguments, Write};
use std::ops::{Range, RangeInclusive};

const REFUSED: &str =
    "contains, overlaps or touches, with an empty or reversed range: 1, the Rust says no";
const REFUSED_TOUCHES: &str = "touches, with an empty or reversed range: 1, the Rust says yes";
pub const KNOWN: [&str; 2] = [REFUSED, REFUSED_TOUCHES];

/// Not listed: the Rust is not known to say yes here.
const UNKNOWN: &str = "the Rust says yes, with an empty or reversed range";

/// One way to ask rangemap.
struct Oracle {
    name: &'static str,
    /// Whether it takes a range that is empty or reversed.
    takes_any: bool,
    contains: fn(Ends, i64) -> bool,
    overlaps: fn(Ends, Ends) -> bool,
    touches: fn(Ends, Ends) -> bool,
    intersect: fn(Ends, Ends) -> Option<Ends>,
}

struct Kind {
    name: &'static str,
    dots: &'static str,
    valid: fn(Ends) -> bool,
    contains: ffi::Contains,
    overlaps: ffi::Relates,
    touches: ffi::Relates,
    intersect: ffi::Intersects,
    /// The crate's own traits, which decide for any pair.
    traits: Oracle,
    /// Sets of one range, which is what a user of the crate can see.
    sets: Oracle,
}

fn half_open(r: Ends) -> Range<i64> {
    r.0..r.1
}

fn inclusive(r: Ends) -> RangeInclusive<i64> {
    r.0..=r.1
}

fn set(r: Ends) -> RangeSet<i64> {
    RangeSet::from_iter([half_open(r)])
}

fn inclusive_set(r: Ends) -> RangeInclusiveSet<i64> {
    RangeInclusiveSet::from_iter([inclusive(r)])
}

fn ends(r: Range<i64>) -> Ends {
    (r.start, r.end)
}

fn inclusive_ends(r: RangeInclusive<i64>) -> Ends {
    r.into_inner()
}

/// Two ranges have at most one range in common.
fn only(mut found: impl Iterator<Item = Ends>) -> Option<Ends> {
    let first = found.next();
    assert!(found.next().is_none());
    first
}

static HALF_OPEN: Kind = Kind {
    name: "half-open",
    dots: "..",
    valid: |r| r.0 < r.1,
    contains: ffi::range_contains,
    overlaps: ffi::range_overlaps,
    touches: ffi::range_touches,
    intersect: ffi::range_intersect,
    traits: Oracle {
        name: "traits",
        takes_any: true,
        contains: |r, key| half_open(r).contains(&key),
        overlaps: |a, b| half_open(a).overlaps(&half_open(b)),
        touches: |a, b| half_open(a).touches(&half_open(b)),
        intersect: |a, b| intersect(&half_open(a), &half_open(b)).map(ends),
    },
    sets: Oracle {
        name: "sets",
        takes_any: false,
        contains: |r, key| set(r).contains(&key),
        overlaps: |a, b| set(a).overlaps(&half_open(b)),
        touches: |a, b| RangeSet::from_iter([half_open(a), half_open(b)]).len() == 1,
        intersect: |a, b| only(set(a).intersection(&set(b)).map(ends)),
    },
};

static INCLUSIVE: Kind = Kind {
    name: "inclusive",
    dots: "..=",
    valid: |r| r.0 <= r.1,
    contains: ffi::range_inclusive_contains,
    overlaps: ffi::range_inclusive_overlaps,
    touches: ffi::range_inclusive_touches,
    intersect: ffi::range_inclusive_intersect,
    traits: Oracle {
        name: "traits",
        takes_any: true,
        contains: |r, key| inclusive(r).contains(&key),
        overlaps: |a, b| inclusive(a).overlaps(&inclusive(b)),
        touches: |a, b| inclusive(a).touches::<i64>(&inclusive(b)),
        intersect: |a, b| intersect_inclusive(&inclusive(a), &inclusive(b)).map(inclusive_ends),
    },
    sets: Oracle {
        name: "sets",
        takes_any: false,
        contains: |r, key| inclusive_set(r).contains(&key),
        overlaps: |a, b| inclusive_set(a).overlaps(&inclusive(b)),
        touches: |a, b| RangeInclusiveSet::from_iter([inclusive(a), inclusive(b)]).len() == 1,
        intersect: |a, b| {
            only(
                inclusive_set(a)
                    .intersection(&inclusive_set(b))
                    .map(inclusive_ends),
            )
        },
    },
};

/// What document 01 answers, given what the Rust says.
fn related(valid: bool, yes: bool) -> Related {
    if valid {
        Related {
            answer: 0,
            yes: yes.into(),
        }
    } else {
        Related { answer: 1, yes: 0 }
    }
}

fn intersected(common: Option<Ends>) -> Intersected {
    let answer = if common.is_some() { 0 } else { 5 };
    let (start, end) = common.unwrap_or((0, 0));
    Intersected { answer, start, end }
}

fn ranges(keys: &[i64]) -> Vec<Ends> {
    let from = |&start| keys.iter().map(move |&end| (start, end));
    keys.iter().flat_map(from).collect()
}

fn pairs(ranges: &[Ends]) -> impl Iterator<Item = (Ends, Ends)> + '_ {
    ranges
        .iter()
        .flat_map(move |&a| ranges.iter().map(move |&b| (a, b)))
}

/// The small keys, and both ends of the i64.
fn compared_keys() -> Vec<i64> {
    let (least, greatest) = (i64::MIN, i64::MAX);
    let low = least..=least + 3;
    let high = greatest - 3..=greatest;
    low.chain(-3..=4).chain(high).collect()
}

/// Compares one yes or no. Only where document 01 refuses the range may the Rust say something else.
fn compare_related(
    report: &mut Report,
    input: Arguments,
    ours: Related,
    valid: bool,
    yes: bool,
    if_yes: &'static str,
) {
    report.same(input, ours, related(valid, yes));
    if !valid {
        report.known(input, if yes { if_yes } else { REFUSED });
    }
}

fn compare_contains(report: &mut Report, kind: &Kind, oracle: &Oracle, r: Ends, key: i64) {
    let ours = (kind.contains)(r.0, r.1, key);
    let yes = (oracle.contains)(r, key);
    let input = format_args!("{} contains {}", Shown(kind.dots, r), Key(key));
    compare_related(report, input, ours, (kind.valid)(r), yes, UNKNOWN);
}

fn compare_overlaps(report: &mut Report, kind: &Kind, oracle: &Oracle, a: Ends, b: Ends) {
    let ours = (kind.overlaps)(a.0, a.1, b.0, b.1);
    let yes = (oracle.overlaps)(a, b);
    let valid = (kind.valid)(a) && (kind.valid)(b);
    let input = format_args!("{} overlaps {}", Shown(kind.dots, a), Shown(kind.dots, b));
    compare_related(report, input, ours, valid, yes, UNKNOWN);
}

fn compare_touches(report: &mut Report, kind: &Kind, oracle: &Oracle, a: Ends, b: Ends) {
    let ours = (kind.touches)(a.0, a.1, b.0, b.1);
    let yes = (oracle.touches)(a, b);
    let valid = (kind.valid)(a) && (kind.valid)(b);
    let input = format_args!("{} touches {}", Shown(kind.dots, a), Shown(kind.dots, b));
    compare_related(report, input, ours, valid, yes, REFUSED_TOUCHES);
}

fn compare_intersect(report: &mut Report, kind: &Kind, oracle: &Oracle, a: Ends, b: Ends) {
    let ours = (kind.intersect)(a.0, a.1, b.0, b.1);
    let common = (oracle.intersect)(a, b);
    let input = format_args!("{} intersect {}", Shown(kind.dots, a), Shown(kind.dots, b));
    report.same(input, ours, intersected(common));
}

fn compare_with(report: &mut Report, kind: &Kind, oracle: &Oracle) {
    let keys = compared_keys();
    let mut ranges = ranges(&keys);
    ranges.retain(|&r| oracle.takes_any || (kind.valid)(r));
    let name = |function| format!("relations, {} {}, {function}", kind.name, oracle.name);

    report.part(name("contains"));
    for &r in &ranges {
        for &key in &keys {
            compare_contains(report, kind, oracle, r, key);
        }
    }
    report.part(name("overlaps"));
    for (a, b) in pairs(&ranges) {
        compare_overlaps(report, kind, oracle, a, b);
    }
    report.part(name("touches"));
    for (a, b) in pairs(&ranges) {
        compare_touches(report, kind, oracle, a, b);
    }
    report.part(name("intersect"));
    for (a, b) in pairs(&ranges) {
        compare_intersect(report, kind, oracle, a, b);
    }
}

pub fn compare(report: &mut Report) {
    for kind in [&HALF_OPEN, &INCLUSIVE] {
        compare_with(report, kind, &kind.traits);
        compare_with(report, kind, &kind.sets);
    }
}

/// The keys of the stored answers.
const REPLAYED_KEYS: [i64; 5] = [i64::MIN, 0, 1, i64::MAX - 1, i64::MAX];

/// Document 01's cases of intersect.
const CASES: [(Ends, Ends); 3] = [((0, 5), (0, 3)), ((0, 3), (0, 5)), ((0, 3), (3, 3))];

/// Inclusive ranges with one key between them, which no two ranges over the keys above have.
const ONE_BETWEEN: [(Ends, Ends); 2] = [((0, 0), (2, 2)), ((2, 2), (0, 0))];

/// A yes or no in words, after its number.
fn shown_related(r: Related) -> String {
    let word = if r.yes == 0 { "no" } else { "yes" };
    format!("{} {word}", r.answer)
}

fn shown_intersected(kind: &Kind, r: Intersected) -> String {
    format!("{} {}", r.answer, Shown(kind.dots, (r.start, r.end)))
}

fn replay_case(a: Ends, b: Ends) -> String {
    let kind = &HALF_OPEN;
    let common = intersected((kind.traits.intersect)(a, b));
    let (shown_a, shown_b) = (Shown(kind.dots, a), Shown(kind.dots, b));
    let result = shown_intersected(kind, common);
    format!("case {shown_a} and {shown_b}: intersect {result}")
}

fn replay_contains(kind: &Kind, r: Ends) -> String {
    let mut line = format!("{}:", Shown(kind.dots, r));
    for (i, &key) in REPLAYED_KEYS.iter().enumerate() {
        let comma = if i == 0 { "" } else { "," };
        let answer = related((kind.valid)(r), (kind.traits.contains)(r, key));
        let shown = shown_related(answer);
        write!(line, "{comma} contains({}) {shown}", Key(key)).expect("a String takes any text");
    }
    line
}

fn replay_pair(kind: &Kind, a: Ends, b: Ends) -> String {
    let valid = (kind.valid)(a) && (kind.valid)(b);
    let overlaps = shown_related(related(valid, (kind.traits.overlaps)(a, b)));
    let touches = shown_related(related(valid, (kind.traits.touches)(a, b)));
    let common = shown_intersected(kind, intersected((kind.traits.intersect)(a, b)));
    let (a, b) = (Shown(kind.dots, a), Shown(kind.dots, b));
    format!("{a} and {b}: overlaps {overlaps}, touches {touches}, intersect {common}")
}

/// What crates/test_relations has to print: document 01's answer 1 for an empty or reversed range, and else rangemap's.
pub fn replay() -> String {
    let mut lines: Vec<String> = Vec::new();
    lines.extend(CASES.map(|(a, b)| replay_case(a, b)));
    lines.extend(ONE_BETWEEN.map(|(a, b)| replay_pair(&INCLUSIVE, a, b)));
    for kind in [&HALF_OPEN, &INCLUSIVE] {
        let ranges = ranges(&REPLAYED_KEYS);
        lines.extend(ranges.iter().map(|&r| replay_contains(kind, r)));
        lines.extend(pairs(&ranges).map(|(a, b)| replay_pair(kind, a, b)));
    }
    lines.join("\n") + "\n"
}
