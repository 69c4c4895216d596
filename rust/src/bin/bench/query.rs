//! A query of four atoms over two maps of 500 ranges, beside the same in Rust: rangemap's two iterators, and the query compiled by hand.
//! Ours reads the query from its bytes in every call.
use crate::lists::Lists;
use crate::logs::{random_entries, STEP};
use crate::pairs::{race_pairs, Way, PAIRS};
use crate::{tell, Wanted};
use beside_rust::ffi::{Map, Queries, QUERIES, QUERIES_UNCHECKED};
use beside_rust::maps::kind::{Ends, HalfOpen};
use rangemap::RangeMap;
use std::hint::black_box;

const RANGES: usize = 500;

/// The query, and the same of the values at an instant. No map holds the value that stands for none.
const TEXT: &[u8] = b"A3&!B1|A1&B2";
const NONE: u8 = 255;

fn holds(a: u8, b: u8) -> bool {
    (a == 3) & (b != 1) | (a == 1) & (b == 2)
}

/// All the keys of the maps, and some beside them.
const START: i64 = -5;
const END: i64 = STEP as i64 * RANGES as i64 + 5;

type Rust = RangeMap<i64, u8>;

/// A range behind the window, which a walk stands at when a map has no more.
const BEHIND: (Ends, u8) = ((END, END), NONE);

/// The ranges that meet the window.
fn in_window(m: &Rust) -> impl Iterator<Item = (Ends, u8)> + '_ {
    let met = m.overlapping(START..END);
    met.map(|(range, &value)| ((range.start, range.end), value))
}

impl Lists {
    fn query_by(&mut self, door: &Queries, a: &mut Map, b: &mut Map) -> usize {
        self.write(|starts, starts_length, ends, ends_length| {
            let (a, b, text) = (black_box(a), black_box(b), black_box(TEXT));
            let (bytes, length) = (text.as_ptr(), text.len());
            // SAFETY: the lists are there, and the maps are well formed.
            unsafe {
                (door.list)(
                    a,
                    b,
                    START,
                    END,
                    bytes,
                    length,
                    starts,
                    starts_length,
                    ends,
                    ends_length,
                )
            }
        })
    }

    /// Both iterators walked at once, from each key where a map changes to the next. It would serve any query: only `holds` knows which.
    /// What is written depends on no branch, which is faster here than with one, where the processor cannot foresee it.
    fn query_by_rust(&mut self, a: &Rust, b: &Rust) -> usize {
        let (mut rest_a, mut rest_b) = (in_window(black_box(a)), in_window(black_box(b)));
        let ((mut start_a, mut end_a), mut value_a) = rest_a.next().unwrap_or(BEHIND);
        let ((mut start_b, mut end_b), mut value_b) = rest_b.next().unwrap_or(BEHIND);
        let (mut key, mut from, mut was, mut count) = (START, START, false, 0);
        while key < END {
            let (in_a, in_b) = (start_a <= key, start_b <= key);
            let is = holds(
                if in_a { value_a } else { NONE },
                if in_b { value_b } else { NONE },
            );
            from = if was { from } else { key };
            self.starts[count] = from;
            self.ends[count] = key;
            count += usize::from(was & !is);
            was = is;
            let next_a = if in_a { end_a } else { start_a };
            let next_b = if in_b { end_b } else { start_b };
            key = next_a.min(next_b).min(END);
            if end_a <= key {
                ((start_a, end_a), value_a) = rest_a.next().unwrap_or(BEHIND);
            }
            if end_b <= key {
                ((start_b, end_b), value_b) = rest_b.next().unwrap_or(BEHIND);
            }
        }
        self.starts[count] = from;
        self.ends[count] = END;
        black_box(self);
        count + usize::from(was)
    }

    /// The same by one who knows the query: it is true only where A holds 3 or 1, so all else of A is passed over.
    fn query_by_knowing(&mut self, a: &Rust, b: &Rust) -> usize {
        let mut rest_b = in_window(black_box(b));
        let ((mut start_b, mut end_b), mut value_b) = rest_b.next().unwrap_or(BEHIND);
        let (mut count, mut last) = (0, START - 1);
        let some_a = in_window(black_box(a)).filter(|&(_, value)| value == 3 || value == 1);
        for ((start_a, end_a), value_a) in some_a {
            let (mut key, end_a) = (start_a.max(START), end_a.min(END));
            while end_b <= key {
                ((start_b, end_b), value_b) = rest_b.next().unwrap_or(BEHIND);
            }
            while key < end_a {
                let in_b = start_b <= key;
                let next = (if in_b { end_b } else { start_b }).min(end_a);
                if holds(value_a, if in_b { value_b } else { NONE }) {
                    if last == key {
                        self.ends[count - 1] = next;
                    } else {
                        self.put(&mut count, (key, next));
                    }
                    last = next;
                }
                key = next;
                if end_b <= key {
                    ((start_b, end_b), value_b) = rest_b.next().unwrap_or(BEHIND);
                }
            }
        }
        black_box(self);
        count
    }
}

/// The times of both doors, of the Rust that would serve any query, and of the Rust that knows this one.
fn race_ways(pairs: usize) -> [f64; 4] {
    let inner =
        |lists: &mut Lists, a: &mut Map, b: &mut Map| lists.query_by(&QUERIES_UNCHECKED, a, b);
    let checked = |lists: &mut Lists, a: &mut Map, b: &mut Map| lists.query_by(&QUERIES, a, b);
    race_pairs::<HalfOpen, 4>(
        pairs,
        |seed| random_entries::<HalfOpen>(RANGES, seed, |random| 1 + random.below(4) as u8),
        [
            Way::Ours(&inner),
            Way::Ours(&checked),
            Way::Rust(&Lists::query_by_rust),
            Way::Rust(&Lists::query_by_knowing),
        ],
    )
}

/// As with sets, many pairs of maps take turns, and these are what is wanted; one pair alone is told too.
pub fn race_queries(wanted: &mut Vec<Wanted>) {
    for pairs in [1, PAIRS] {
        let [inner, checked, walked, knowing] = race_ways(pairs);
        let what =
            format!("a query of 4 atoms over maps of {RANGES} ranges, {pairs} pairs in turn");
        tell(&what, [inner, checked, walked]);
        println!(
            "{what}: by Rust that knows the query {knowing:.1} ns, ratios {:.2} and {:.2}",
            inner / knowing,
            checked / knowing
        );
        if pairs == PAIRS {
            for (door, most, time) in [("unchecked", 0.7, inner), ("checked", 1.2, checked)] {
                wanted.push(Wanted {
                    what: format!("{what}, {door} door, ratio"),
                    most,
                    got: time / walked,
                });
            }
        }
    }
}
