//! Maps and sets that are not well formed: every function that checks answers 4, and leaves all memory as it was.
use super::kind::{Entry, Kind};
use super::stored::{refused, written, Lists};
use crate::ffi::{Applied, Count, Map, Order, Range, Stretch, Told, PLACES};
use crate::report::Report;
use std::fmt::{Arguments, Debug};

/// The keys of a stored range, from the first up to the one after the last.
pub fn span<K: Kind>((start, end): (i64, i64)) -> (i128, i128) {
    let after = if K::valid((0, 0)) { 1 } else { 0 };
    (start.into(), i128::from(end) + after)
}

fn in_order<K: Kind>(one: &Entry, next: &Entry) -> bool {
    let ((_, end), (start, _)) = (span::<K>(one.0), span::<K>(next.0));
    end < start || end == start && one.1 != next.1
}

/// Document 01's definition, word by word. The values of a set are all 0.
fn formed<K: Kind>(map: &Map) -> bool {
    if map.count > PLACES {
        return false;
    }
    let entries: Vec<Entry> = (0..PLACES).map(|place| map.at(place)).collect();
    let (used, unused) = entries.split_at(map.count);
    used.iter().all(|entry| K::valid(entry.0))
        && used.iter().all(|entry| usize::from(entry.1) < K::VALUES)
        && unused.iter().all(|&entry| entry == ((0, 0), 0))
        && used.windows(2).all(|two| in_order::<K>(&two[0], &two[1]))
}

/// The same by rangemap: it takes the ranges, in their order, and holds just them.
fn held_by_rust<K: Kind>(map: &Map) -> bool {
    if map.count > PLACES {
        return false;
    }
    let used: Vec<Entry> = (0..map.count).map(|place| map.at(place)).collect();
    let takes = used.iter().all(|entry| K::valid(entry.0));
    takes && K::rust_entries(&K::rust_of(&used)) == used && *map == Map::of(&used)
}

struct Asked<'a> {
    report: &'a mut Report,
    name: Arguments<'a>,
    damaged: &'a Map,
    map: Map,
}

impl Asked<'_> {
    fn refuses<T: PartialEq + Debug>(
        &mut self,
        what: &str,
        ask: impl FnOnce(&mut Map) -> T,
        expected: T,
    ) {
        let input = format_args!("{}, {what}", self.name);
        let ours = ask(&mut self.map);
        self.report.same(input, ours, expected);
        self.report.same(input, &self.map, self.damaged);
    }
}

const NO: Told = Told { answer: 4, yes: 0 };
const NONE: Range = Range {
    answer: 4,
    start: 0,
    end: 0,
    value: 0,
};
const NOWHERE: Stretch = Stretch {
    answer: 4,
    place: 0,
    count: 0,
};
const NO_COUNT: Count = Count {
    answer: 4,
    count: 0,
};
const NO_ORDER: Order = Order {
    answer: 4,
    order: 0,
};
const NOT_APPLIED: Applied = Applied {
    answer: 4,
    applied: 0,
};

/// Ranges that are taken of a good map, and ranges that are refused: 4 comes first.
const ASKED: [(i64, i64); 4] = [(0, 5), (i64::MIN, i64::MAX), (3, 3), (5, 0)];

fn refuses_questions<K: Kind>(asked: &mut Asked) {
    let ours = K::OURS;
    asked.refuses("is_empty", |m| (ours.is_empty)(m), NO);
    asked.refuses("len", |m| (ours.len)(m), NO_COUNT);
    asked.refuses("first", |m| (ours.first)(m), NONE);
    asked.refuses("last", |m| (ours.last)(m), NONE);
    for place in [0, 1, PLACES, usize::MAX] {
        asked.refuses("range_at", |m| (ours.range_at)(m, place), NONE);
    }
    for key in [0, 1, i64::MIN, i64::MAX] {
        asked.refuses("get", |m| (ours.get)(m, key), NONE);
        asked.refuses("contains", |m| (ours.contains)(m, key), NO);
    }
    for r in ASKED {
        asked.refuses("overlapping", |m| (ours.overlapping)(m, r.0, r.1), NOWHERE);
        asked.refuses("overlaps", |m| (ours.overlaps)(m, r.0, r.1), NO);
        for lengths in [(0, 0), (600, 600)] {
            let ask = |m: &mut Map| written(ours.gaps, m, r, lengths);
            asked.refuses("gaps", ask, refused(4, lengths));
        }
    }
}

fn refuses_edits<K: Kind>(asked: &mut Asked) {
    let ours = K::OURS;
    for r in ASKED {
        asked.refuses("insert", |m| (ours.insert)(m, r.0, r.1, K::value(1)), 4);
        asked.refuses("remove", |m| (ours.remove)(m, r.0, r.1), 4);
        let (one, two) = (K::value(1), K::value(2));
        for list in [&[][..], &[(r, one)], &[((0, 5), one), (r, two)]] {
            let lists = Lists::of(list);
            let ask = |m: &mut Map| lists.insert_into::<K>(m);
            asked.refuses("extend", ask, NOT_APPLIED);
        }
    }
}

/// A damaged map beside a good one, on either side, and beside itself.
fn refuses_pairs<K: Kind>(asked: &mut Asked) {
    let good = Map::of(&[(K::ends(0, 5).expect("small keys"), K::value(1))]);
    for other in [good, asked.damaged.clone()] {
        let mut lent = other.clone();
        let ours = K::OURS;
        asked.refuses("eq, first", |m| (ours.eq)(m, &mut lent), NO);
        asked.refuses("eq, second", |m| (ours.eq)(&mut lent, m), NO);
        asked.refuses("cmp, first", |m| (ours.cmp)(m, &mut lent), NO_ORDER);
        asked.refuses("cmp, second", |m| (ours.cmp)(&mut lent, m), NO_ORDER);
        let input = format_args!("{}, the other map", asked.name);
        asked.report.same(input, &lent, &other);
    }
}

/// Clear overwrites its map, so it takes any.
fn clears<K: Kind>(asked: &mut Asked) {
    let mut map = asked.map.clone();
    (K::OURS.clear)(&mut map);
    let input = format_args!("{}, clear", asked.name);
    asked.report.same(input, &map, &Map::EMPTY);
}

fn compare_damaged<K: Kind>(report: &mut Report, name: Arguments, damaged: &Map) {
    report.same(name, formed::<K>(damaged), false);
    let mut asked = Asked {
        report,
        name,
        damaged,
        map: damaged.clone(),
    };
    asked.refuses("well formed", |m| (K::OURS.well_formed)(m), 0);
    refuses_questions::<K>(&mut asked);
    refuses_edits::<K>(&mut asked);
    refuses_pairs::<K>(&mut asked);
    clears::<K>(&mut asked);
}

/// Three values in turn, every second range touching the next. In a set no two touch.
fn good<K: Kind>(count: usize) -> Map {
    let entry = |i: usize| {
        let from = 10 * (1 + i as i128);
        let touching = K::VALUES > 1 && i % 2 == 0;
        let to = from + if touching { 10 } else { 5 };
        (K::ends(from, to).expect("small keys"), K::value(i % 3))
    };
    Map::of(&(0..count).map(entry).collect::<Vec<Entry>>())
}

/// What was done to a good map, and the map that is left.
type Damage = (String, Map);

fn damage(map: &Map, what: &str, change: impl FnOnce(&mut Map)) -> Damage {
    let mut damaged = map.clone();
    change(&mut damaged);
    (format!("{} ranges, {what}", map.count), damaged)
}

fn count_damages(map: &Map) -> Vec<Damage> {
    let counts = [PLACES + 1, PLACES + 2, 1 << 16, 1 << 32, usize::MAX];
    let mut damages: Vec<Damage> = counts
        .into_iter()
        .map(|count| damage(map, &format!("count {count}"), |m| m.count = count))
        .collect();
    if map.count > 0 {
        damages.push(damage(map, "count one less", |m| m.count -= 1));
        damages.push(damage(map, "count 0", |m| m.count = 0));
    }
    damages
}

/// Damages of one stored range.
fn range_damages<K: Kind>(map: &Map, place: usize) -> Vec<Damage> {
    let name = |what: &str| format!("place {place} {what}");
    let mut damages = vec![
        damage(map, &name("reversed"), |m| {
            m.ends[place] = m.starts[place] - 1;
        }),
        damage(map, &name("reversed as far as can be"), |m| {
            (m.starts[place], m.ends[place]) = (i64::MAX, i64::MIN);
        }),
    ];
    if !K::valid((0, 0)) {
        damages.push(damage(map, &name("empty"), |m| {
            m.ends[place] = m.starts[place];
        }));
    }
    if K::VALUES == 1 {
        for value in [1, 128, 255] {
            let what = name(&format!("holds {value}"));
            damages.push(damage(map, &what, |m| m.values[place] = value));
        }
    }
    damages
}

/// Damages of a stored range and the next.
fn neighbour_damages<K: Kind>(map: &Map, place: usize) -> Vec<Damage> {
    let (one, other) = (map.at(place), map.at(place + 1));
    let (from, to) = span::<K>(one.0);
    let (next_from, _) = span::<K>(other.0);
    let key = |key: i128| i64::try_from(key).expect("a small key");
    let longer = |to| K::ends(from, to).expect("small keys").1;
    let name = |what| format!("place {place} {what}");
    vec![
        damage(map, &name("has a key of the next"), |m| {
            m.ends[place] = longer(next_from + 1);
        }),
        damage(map, &name("has all keys from its start on"), |m| {
            m.ends[place] = i64::MAX;
        }),
        damage(map, &name("has its last key in the next too"), |m| {
            m.starts[place + 1] = key(to - 1);
        }),
        damage(map, &name("starts where the next starts"), |m| {
            m.starts[place + 1] = key(from);
        }),
        damage(map, &name("touches an equal one"), |m| {
            m.starts[place + 1] = key(to);
            m.values[place + 1] = m.values[place];
        }),
        damage(map, &name("stands twice"), |m| m.put(place + 1, one)),
        damage(map, &name("and the next in the wrong order"), |m| {
            m.put(place, other);
            m.put(place + 1, one);
        }),
    ]
}

/// Garbage in one number of an unused place.
fn unused_damages(map: &Map, place: usize) -> Vec<Damage> {
    let mut damages = Vec::new();
    for key in [1, -1, 1 << 40, i64::MIN, i64::MAX] {
        let what = format!("unused place {place} starts at {key}");
        damages.push(damage(map, &what, |m| m.starts[place] = key));
        let what = format!("unused place {place} ends at {key}");
        damages.push(damage(map, &what, |m| m.ends[place] = key));
    }
    for value in [1, 128, 255] {
        let what = format!("unused place {place} holds {value}");
        damages.push(damage(map, &what, |m| m.values[place] = value));
    }
    damages
}

/// The first places, the last ones, and some between.
fn some_places(from: usize, to: usize) -> Vec<usize> {
    let all = [
        from,
        from + 1,
        from + 2,
        (from + to) / 2,
        to.wrapping_sub(2),
        to.wrapping_sub(1),
    ];
    let mut places: Vec<usize> = all
        .into_iter()
        .filter(|place| (from..to).contains(place))
        .collect();
    places.sort();
    places.dedup();
    places
}

fn damages<K: Kind>(map: &Map) -> Vec<Damage> {
    let mut damages = count_damages(map);
    for place in some_places(0, map.count) {
        damages.extend(range_damages::<K>(map, place));
    }
    for place in some_places(0, map.count.saturating_sub(1)) {
        damages.extend(neighbour_damages::<K>(map, place));
    }
    for place in some_places(map.count, PLACES) {
        damages.extend(unused_damages(map, place));
    }
    damages
}

/// Every stored map whose first places hold these keys and the values 0 and 1, with every count up to one more.
fn small_maps(keys: [i64; 4], places: u32) -> impl Iterator<Item = Map> {
    const EACH: usize = 4 * 4 * 2;
    let numbers = 0..EACH.pow(places);
    let counts = 0..=places as usize + 1;
    numbers.flat_map(move |number| {
        let mut map = Map::EMPTY;
        for place in 0..places as usize {
            let n = number / EACH.pow(place as u32) % EACH;
            map.put(place, ((keys[n & 3], keys[n >> 2 & 3]), (n >> 4) as u8));
        }
        counts.clone().map(move |count| Map {
            count,
            ..map.clone()
        })
    })
}

const KEYS: [[i64; 4]; 3] = [
    [0, 1, 2, 3],
    [i64::MIN, i64::MIN + 1, i64::MIN + 2, 0],
    [0, i64::MAX - 2, i64::MAX - 1, i64::MAX],
];

/// The check alone, beside document 01's definition and rangemap.
fn compare_check<K: Kind>(report: &mut Report, places: u32) {
    for keys in KEYS {
        for mut map in small_maps(keys, places) {
            let (expected, before) = (formed::<K>(&map), map.clone());
            let ours = (K::OURS.well_formed)(&mut map);
            let input = format_args!("well formed {before:?}");
            report.same(input, ours, expected.into());
            report.same(input, held_by_rust::<K>(&before), expected);
            report.same(input, &map, &before);
        }
    }
}

/// Ranges of the maps that are damaged.
const COUNTS: [usize; 7] = [0, 1, 2, 3, 200, PLACES - 1, PLACES];

/// Every damage of good maps, and every small map that is not well formed.
pub fn each_damaged<K: Kind>(mut each: impl FnMut(Arguments, &Map)) {
    for count in COUNTS {
        for (what, damaged) in damages::<K>(&good::<K>(count)) {
            each(format_args!("{what}"), &damaged);
        }
    }
    for keys in KEYS {
        for map in small_maps(keys, 1).filter(|map| !formed::<K>(map)) {
            each(format_args!("{map:?}"), &map);
        }
    }
}

pub fn compare<K: Kind>(report: &mut Report, size: &super::Size) {
    report.part(format!("{}, an empty one", K::NAME));
    report.same(format_args!("new"), &(K::OURS.new)(), &Map::EMPTY);

    report.part(format!("{}, the check alone", K::NAME));
    compare_check::<K>(report, size.checked_places);

    report.part(format!("{}, damaged ones", K::NAME));
    for count in COUNTS {
        let formed = formed::<K>(&good::<K>(count));
        report.same(format_args!("{count} ranges"), formed, true);
    }
    each_damaged::<K>(|name, damaged| compare_damaged::<K>(report, name, damaged));
}
