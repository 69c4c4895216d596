//! Two maps or sets combined: many pairs take turns, and several ways are raced.
use crate::lists::Lists;
use crate::race;
use beside_rust::ffi::Map;
use beside_rust::maps::kind::{Entry, Kind};

/// So many pairs take turns. With one pair alone the processor learns by heart which way each of rangemap's branches goes, which
/// no set that is met for the first time lets it do; ours have none that depends on the keys. So both are told, and the many pairs are
/// what is wanted.
pub const PAIRS: usize = 40;

/// Calls of a batch.
const CALLS: usize = 200;

/// A way to combine the two of a pair into lists: it gives the number of ranges.
pub enum Way<'a, K: Kind> {
    Ours(&'a dyn Fn(&mut Lists, &mut Map, &mut Map) -> usize),
    Rust(&'a dyn Fn(&mut Lists, &K::Rust, &K::Rust) -> usize),
}

/// A way with pairs and lists of its own.
struct Side<'a, K: Kind> {
    way: Way<'a, K>,
    maps: Vec<(Map, Map)>,
    rust: &'a [(K::Rust, K::Rust)],
    lists: Lists,
}

impl<K: Kind> Side<'_, K> {
    fn combine(&mut self, pair: usize) -> usize {
        match self.way {
            Way::Ours(combine) => {
                let (a, b) = &mut self.maps[pair];
                combine(&mut self.lists, a, b)
            }
            Way::Rust(combine) => {
                let (a, b) = &self.rust[pair];
                combine(&mut self.lists, a, b)
            }
        }
    }
}

/// Every way has to write what the last one writes. `entries` makes a map from a seed.
pub fn race_pairs<K: Kind, const N: usize>(
    pairs: usize,
    entries: impl Fn(u64) -> Vec<Entry>,
    ways: [Way<K>; N],
) -> [f64; N] {
    let pair = |i| (entries(2 * i + 17), entries(2 * i + 18));
    let entries: Vec<_> = (0..pairs as u64).map(pair).collect();
    let rust = entries.iter().map(|(a, b)| (K::rust_of(a), K::rust_of(b)));
    let rust: Vec<_> = rust.collect();
    let mut sides = ways.map(|way| Side {
        way,
        maps: entries
            .iter()
            .map(|(a, b)| (Map::of(a), Map::of(b)))
            .collect(),
        rust: &rust,
        lists: Lists::EMPTY,
    });

    for i in 0..pairs {
        let counts = sides.each_mut().map(|side| side.combine(i));
        let (count, lists) = (counts[N - 1], &sides[N - 1].lists);
        assert!(count > 0 && counts == [count; N]);
        assert!(sides.iter().all(|side| side.lists.same(lists, count)));
    }

    let mut works = sides.each_mut().map(|side| {
        move || {
            for i in 0..CALLS {
                side.combine(i % pairs);
            }
        }
    });
    race(CALLS, works.each_mut().map(|work| work as &mut dyn FnMut()))
}
