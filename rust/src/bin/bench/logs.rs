//! The ranges of the maps and sets that are timed, and the keys that they are asked.
use beside_rust::maps::kind::{Entry, Kind};
use beside_rust::maps::random::Random;

/// Calls of a batch, for lookups and edits.
pub const CALLS: usize = 2000;

/// So many keys belong to each range and to what lies between it and the next.
pub const STEP: i128 = 20;

/// The entries of a map that is timed.
pub struct Log {
    /// Told after "at".
    pub name: String,
    pub entries: Vec<Entry>,
}

/// A range that begins a step, and has so many keys.
fn range<K: Kind>(step: usize, keys: i128) -> (i64, i64) {
    let from = STEP * step as i128;
    K::ends(from, from + keys).expect("small keys")
}

impl Log {
    /// Each range has 10 keys, and the next 10 belong to none.
    pub fn apart<K: Kind>(count: usize) -> Self {
        let mut random = Random::new(7);
        let mut value = || K::value(random.below(200));
        let entry = |i| (range::<K>(i, STEP / 2), value());
        Log {
            name: format!("{count} ranges"),
            entries: (0..count).map(entry).collect(),
        }
    }

    /// A driver's log: each range has one of four values, and the next begins where it ends, but for one in 16, after which 10 keys belong to none.
    pub fn touching<K: Kind>(count: usize) -> Self {
        let mut random = Random::new(7);
        let mut value = 0;
        let mut other_value = || {
            value = (value + 1 + random.below(3)) % 4;
            1 + value as u8
        };
        let keys = |i| if i % 16 == 15 { STEP / 2 } else { STEP };
        let entry = |i| (range::<K>(i, keys(i)), other_value());
        Log {
            name: format!("{count} ranges that touch"),
            entries: (0..count).map(entry).collect(),
        }
    }

    /// The keys are all those of the steps.
    fn keys(&self) -> usize {
        self.entries.len() * STEP as usize
    }

    pub fn random_keys(&self, seed: u64) -> Vec<i64> {
        let mut random = Random::new(seed);
        let keys = self.keys();
        (0..CALLS).map(|_| random.below(keys) as i64).collect()
    }

    pub fn ascending_keys(&self) -> Vec<i64> {
        let key = |i| (i * self.keys() / CALLS) as i64;
        (0..CALLS).map(key).collect()
    }
}

/// One range of random start and length in each step, of which no two touch. Its value is drawn last.
pub fn random_entries<K: Kind>(
    count: usize,
    seed: u64,
    value: impl Fn(&mut Random) -> u8,
) -> Vec<Entry> {
    let mut random = Random::new(seed);
    let entry = |i: usize| {
        let from = STEP * i as i128 + random.below(8) as i128;
        let to = from + 1 + random.below(11) as i128;
        let range = K::ends(from, to).expect("small keys");
        (range, value(&mut random))
    };
    (0..count).map(entry).collect()
}
