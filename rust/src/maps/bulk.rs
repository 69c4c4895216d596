//! Bulk insert, against inserts one by one.
use super::dense::Cells;
use super::kind::{of, Entry, Kind};
use super::random::Random;
use super::stored::Lists;
use super::{panics, BULK_REFUSED, TOO_MANY};
use crate::ffi::{Applied, Map, PLACES};
use crate::report::Report;

/// What bulk insert has to answer, and the map that it has to leave, by rangemap's inserts one by one.
fn one_by_one<K: Kind>(before: &[Entry], list: &[Entry]) -> (Applied, Vec<Entry>) {
    let mut rust = K::rust_of(before);
    for (applied, &(r, value)) in list.iter().enumerate() {
        let left = K::rust_entries(&rust);
        if !K::valid(r) {
            return (Applied { answer: 1, applied }, left);
        }
        K::rust_insert(&mut rust, r, value);
        if K::rust_len(&rust) > PLACES {
            return (Applied { answer: 2, applied }, left);
        }
    }
    let done = Applied {
        answer: 0,
        applied: list.len(),
    };
    (done, K::rust_entries(&rust))
}

/// rangemap's own bulk insert: it panics at an empty or reversed range, and keeps what came before.
fn compare_rust<K: Kind>(
    report: &mut Report,
    before: &[Entry],
    list: &[Entry],
    told: Applied,
    left: &[Entry],
) {
    let input = format_args!("{} extended by {}", of::<K>(before), of::<K>(list));
    let mut rust = K::rust_of(before);
    let panicked = panics(|| K::rust_extend(&mut rust, list));
    if told.answer == 2 {
        report.known(input, TOO_MANY);
        return;
    }
    report.same(input, panicked, told.answer == 1);
    report.same(input, &K::rust_entries(&rust)[..], left);
    if panicked {
        report.known(input, BULK_REFUSED);
    }
}

fn compare_list<K: Kind>(report: &mut Report, before: &[Entry], list: &[Entry]) -> Applied {
    let (told, left) = one_by_one::<K>(before, list);
    compare_rust::<K>(report, before, list, told, &left);
    compare_ours::<K>(report, before, list, &Lists::of(list), told, &left);
    told
}

fn compare_ours<K: Kind>(
    report: &mut Report,
    before: &[Entry],
    list: &[Entry],
    lists: &Lists,
    told: Applied,
    left: &[Entry],
) {
    let input = format_args!("{} extended by {}", of::<K>(before), of::<K>(list));
    let unread = lists.clone();
    let mut map = Map::of(before);
    report.same(input, lists.insert_into::<K>(&mut map), told);
    report.same(input, &map, &Map::of(left));
    report.same(format_args!("{input}, the lists"), lists, &unread);
}

/// The list is as long as the shortest of the three: a bad entry behind that is not looked at.
fn compare_cut<K: Kind>(report: &mut Report, before: &[Entry], list: &[Entry]) {
    for cut in 0..list.len() {
        let (told, left) = one_by_one::<K>(before, &list[..cut]);
        let mut lists = [Lists::of(list), Lists::of(list), Lists::of(list)];
        lists[0].starts.truncate(cut);
        lists[1].ends.truncate(cut);
        lists[2].values.truncate(cut);
        // A set is lent the first two lists only.
        let lent = if K::VALUES > 1 { 3 } else { 2 };
        for lists in &lists[..lent] {
            compare_ours::<K>(report, before, &list[..cut], lists, told, &left);
        }
    }
}

/// A bad entry at each position of a list, of each sort of bad.
fn compare_bad<K: Kind>(report: &mut Report, cells: &Cells) {
    let range = |from, to| cells.range::<K>(from, to);
    let good: Vec<Entry> = [(0, 3), (2, 5), (1, 2), (4, 6), (0, 1)]
        .into_iter()
        .enumerate()
        .map(|(i, (from, to))| (range(from, to).expect("inside the cells"), K::value(i % 3)))
        .collect();
    let before: Vec<Entry> = vec![(range(1, 4).expect("inside the cells"), K::value(1))];
    let reversed = [(2, 2), (3, 1), (6, 0), (0, 0), (6, 6)];
    let bad = reversed
        .into_iter()
        .filter_map(|(from, to)| range(from, to));
    for bad in bad {
        for position in 0..=good.len() {
            let mut list = good.clone();
            list.insert(position, (bad, K::value(2)));
            let told = compare_list::<K>(report, &before, &list);
            report.same(
                format_args!("a bad entry at {position}"),
                told,
                Applied {
                    answer: 1,
                    applied: position,
                },
            );
            compare_cut::<K>(report, &before, &list);
        }
    }
    compare_list::<K>(report, &before, &good);
}

/// Ranges of one key, with a key between each two.
fn apart<K: Kind>(places: std::ops::Range<usize>) -> Vec<Entry> {
    let key = |i| 2 * i as i128;
    let range = |i| K::ends(key(i), key(i) + 1).expect("a small key");
    places.map(|i| (range(i), K::value(7))).collect()
}

/// A refusal at each position: the map is filled up to the limit by the entries before it.
fn compare_full<K: Kind>(report: &mut Report) {
    for position in 0..=6 {
        let before = apart::<K>(0..PLACES - position);
        let list = apart::<K>(PLACES - position..PLACES + 3);
        let told = compare_list::<K>(report, &before, &list);
        report.same(
            format_args!("a full map at {position}"),
            told,
            Applied {
                answer: 2,
                applied: position,
            },
        );
        // An entry that joins two ranges makes room for one more.
        let mut joined = list.clone();
        let between = K::ends(1, 2).expect("a small key");
        joined.insert(position, (between, K::value(7)));
        let told = compare_list::<K>(report, &before, &joined);
        report.same(
            format_args!("a full map with room at {position}"),
            told,
            Applied {
                answer: 2,
                applied: position + 2,
            },
        );
    }
    compare_list::<K>(report, &[], &apart::<K>(0..2 * PLACES));
    compare_list::<K>(report, &[], &apart::<K>(0..PLACES));
}

/// Random lists, some with bad entries, into maps of random size.
fn compare_random<K: Kind>(report: &mut Report, lists: usize) {
    const CELLS: usize = 3 * PLACES;
    let cells = Cells::both::<K>(CELLS);
    let mut random = Random::new(23);
    for _ in 0..lists {
        let mut entry = |most: usize, bad: bool| {
            let (from, length) = (random.below(CELLS), 1 + random.below(most));
            let to = (from + length).min(CELLS);
            let (from, to) = if bad && random.once_in(50) {
                (to, from)
            } else {
                (from, to)
            };
            Some((cells.range::<K>(from, to)?, K::value(random.below(3))))
        };
        // Half of the maps are nearly full.
        let before: Vec<Entry> = (0..900).filter_map(|_| entry(3, false)).collect();
        let mut before = K::rust_entries(&K::rust_of(&before));
        let list: Vec<Entry> = (0..20).filter_map(|_| entry(3, true)).collect();
        before.truncate(if random.once_in(2) {
            PLACES - 2
        } else {
            random.below(PLACES)
        });
        compare_list::<K>(report, &before, &list);
    }
}

pub fn compare<K: Kind>(report: &mut Report, lists: usize) {
    report.part(format!("{}, bulk insert with a bad entry", K::NAME));
    for cells in [
        Cells::small(6),
        Cells::lowest(6),
        Cells::highest::<K>(6),
        Cells::both::<K>(6),
    ] {
        compare_bad::<K>(report, &cells);
    }
    report.part(format!("{}, bulk insert up to the limit", K::NAME));
    compare_full::<K>(report);
    report.part(format!("{}, random bulk inserts", K::NAME));
    compare_random::<K>(report, lists);
}
