//! Queries over two half-open maps: the ranges and the one instant, through both doors, beside a model that was written from document 01 alone.
mod model;
mod replay;
mod texts;

use crate::ffi::{Map, Queries, Told, PLACES, QUERIES, QUERIES_UNCHECKED};
use crate::maps::damaged::each_damaged;
use crate::maps::dense::{as_ends, entries, Cells, Dense};
use crate::maps::kind::{of, shown, Ends, Entry, HalfOpen, Kind};
use crate::maps::random::Random;
use crate::maps::stored::{around, every, just_right, lend, refused, told, writing};
use crate::maps::stored::{Lengths, Written};
use crate::maps::Placed;
use crate::report::Report;
use model::Query;
use std::ops::Range;

/// How much is compared.
pub struct Size {
    /// Bytes of the texts that are all tried, and how many of these are queries, counted by hand.
    bytes: u32,
    queries: usize,
    /// Tokens of the texts that are all tried.
    tokens: u32,
    /// Cells of the maps that are all tried in pairs.
    cells: usize,
    /// Random pairs of long maps.
    long_pairs: usize,
}

/// In some seconds.
pub const SHORT: Size = Size {
    bytes: 5,
    queries: 4 + 4 + 8 + 44,
    tokens: 6,
    cells: 3,
    long_pairs: 100,
};

/// In some minutes.
pub const FULL: Size = Size {
    bytes: 6,
    queries: 4 + 4 + 8 + 44 + 84,
    tokens: 7,
    cells: 4,
    long_pairs: 5_000,
};

/// The second is only for well-formed maps.
const DOORS: [(&str, &Queries); 2] = [("", &QUERIES), ("unchecked door, ", &QUERIES_UNCHECKED)];

/// The text is a `&mut` here as the maps are, so that the compiler does not take for granted that it stays as it was.
fn list(
    door: &Queries,
    a: &mut Map,
    b: &mut Map,
    window: Ends,
    text: &mut [u8],
    lengths: (usize, usize),
) -> Written {
    lend(lengths, |s, e| {
        // SAFETY: the lists are there, and the maps are well formed or the function checks them.
        unsafe {
            (door.list)(
                a,
                b,
                window.0,
                window.1,
                text.as_mut_ptr(),
                text.len(),
                s.as_mut_ptr(),
                s.len(),
                e.as_mut_ptr(),
                e.len(),
            )
        }
    })
}

fn at(door: &Queries, a: &mut Map, b: &mut Map, window: Ends, text: &mut [u8], key: i64) -> Told {
    let (bytes, length) = (text.as_mut_ptr(), text.len());
    // SAFETY: the text is there, and the maps are well formed or the function checks them.
    unsafe { (door.at)(a, b, window.0, window.1, bytes, length, key) }
}

/// A map: of the model and of ours.
struct State {
    dense: Dense,
    entries: Vec<Entry>,
    map: Map,
}

impl State {
    fn new(cells: &Cells, dense: Dense) -> Self {
        let entries = entries::<HalfOpen>(cells, &dense);
        State {
            map: Map::of(&entries),
            dense,
            entries,
        }
    }
}

/// A window, and its cells.
type Window = (Ends, Range<usize>);

fn window(cells: &Cells, part: Range<usize>) -> Window {
    (as_ends::<HalfOpen>(cells, &part), part)
}

/// Two maps, and as they are lent.
struct Pair<'a> {
    cells: &'a Cells,
    a: &'a State,
    b: &'a State,
    lent: (Map, Map),
}

impl<'a> Pair<'a> {
    fn new(cells: &'a Cells, a: &'a State, b: &'a State) -> Self {
        let lent = (a.map.clone(), b.map.clone());
        Pair { cells, a, b, lent }
    }

    /// The true cells by the model, or the number of its refusal.
    fn result(&self, window: &Window, query: Option<&Query>) -> Result<Dense, u8> {
        if !HalfOpen::valid(window.0) {
            return Err(1);
        }
        let query = query.ok_or(7)?;
        Ok(query.result(&self.a.dense, &self.b.dense, window.1.clone()))
    }

    /// A question through both doors: the ranges into lists of these lengths, and each of the keys.
    fn ask(
        &mut self,
        report: &mut Report,
        window: &Window,
        (text, query): (&[u8], Option<&Query>),
        lengths: Lengths,
        keys: &[i64],
    ) -> Result<usize, u8> {
        let ends = window.0;
        let result = self.result(window, query);
        let ranges = result.as_ref().map(|true_cells| {
            let runs = true_cells.runs().into_iter();
            let ranges = runs.map(|(run, _)| as_ends::<HalfOpen>(self.cells, &run));
            ranges.collect::<Vec<Ends>>()
        });
        let count = ranges.as_ref().map(Vec::len).map_err(|&&answer| answer);
        let (of_a, of_b) = (
            of::<HalfOpen>(&self.a.entries),
            of::<HalfOpen>(&self.b.entries),
        );
        let (shown_text, over) = (text.escape_ascii(), shown::<HalfOpen>(ends));
        let mut lent_text = text.to_vec();
        let (a, b) = (&mut self.lent.0, &mut self.lent.1);
        for (name, door) in DOORS {
            let input = format_args!("{name}'{shown_text}' over {over}, A {of_a}, B {of_b}");
            for lengths in lengths(count.unwrap_or(1)) {
                let expected = match &ranges {
                    Ok(ranges) => writing(ranges, lengths),
                    &Err(&answer) => refused(answer, lengths),
                };
                let ours = list(door, a, b, ends, &mut lent_text, lengths);
                let input = format_args!("{input}, into {lengths:?} places");
                report.same(input, ours, expected);
            }
            for &key in keys {
                let expected = match &result {
                    Ok(cells) => told(self.cells.cell_of(key).is_some_and(|c| cells.covers(c))),
                    &Err(answer) => Told { answer, yes: 0 },
                };
                let ours = at(door, a, b, ends, &mut lent_text, key);
                report.same(format_args!("{input}, at {key}"), ours, expected);
            }
            report.same(input, &lent_text[..], text);
        }
        count
    }

    /// The maps are as they were.
    fn finish(&self, report: &mut Report) {
        let (of_a, of_b) = (
            of::<HalfOpen>(&self.a.entries),
            of::<HalfOpen>(&self.b.entries),
        );
        report.same(
            format_args!("{of_a} as A beside {of_b}"),
            &self.lent.0,
            &self.a.map,
        );
        report.same(
            format_args!("{of_b} as B beside {of_a}"),
            &self.lent.1,
            &self.b.map,
        );
    }
}

/// What a cell can hold: nothing, two values that have a digit, and one that is the byte of a digit.
const HELD: [Option<u8>; 4] = [None, Some(0), Some(3), Some(b'3')];

/// Two maps that hold each two of these somewhere, in this order of cells.
fn all_held(cells: &Cells, order: impl Fn(usize) -> usize) -> (State, State) {
    let (mut a, mut b) = (Dense::empty(HELD_CELLS), Dense::empty(HELD_CELLS));
    for number in 0..HELD_CELLS {
        let cell = order(number);
        a.give(cell..cell + 1, HELD[number / HELD.len()]);
        b.give(cell..cell + 1, HELD[number % HELD.len()]);
    }
    (State::new(cells, a), State::new(cells, b))
}

const HELD_CELLS: usize = HELD.len() * HELD.len();

/// The two maps that texts are tried on, at one of the places that matter: A changes seldom, and both change often.
fn all_held_at(placed: &Placed) -> [(State, State); 2] {
    // 7 has no divisor in common with the number of cells, so each cell comes once.
    let mixed = |number| 7 * number % HELD_CELLS;
    [
        all_held(&placed.cells, |number| number),
        all_held(&placed.cells, mixed),
    ]
}

/// A text that is a query is asked in some windows, at every key in the whole one; any other in one window.
fn ask_text(report: &mut Report, placed: &Placed, pair: &mut Pair, text: &[u8]) -> bool {
    let query = model::query(text);
    let asked = (text, query.as_ref());
    let whole = window(&placed.cells, 0..HELD_CELLS);
    if query.is_none() {
        let answer = pair.ask(report, &whole, asked, just_right, &placed.keys[3..4]);
        assert_eq!(answer, Err(7));
        return false;
    }
    let answer = pair.ask(report, &whole, asked, around, &placed.keys);
    assert!(answer.is_ok());
    // Among these are empty and reversed ones.
    for part in placed.ranges.iter().skip(3).step_by(23) {
        let _ = pair.ask(report, part, asked, just_right, &placed.keys[5..7]);
    }
    true
}

/// Document 01's cases, and others that its words decide, with the answers written down here.
fn compare_documented(report: &mut Report) {
    report.part("query, document 01's cases".to_string());
    let placed = &Placed::all::<HalfOpen>(HELD_CELLS)[0];
    let states = all_held_at(placed);
    let mut pair = Pair::new(&placed.cells, &states[1].0, &states[1].1);
    for (text, answer) in texts::documented() {
        let ours = ask_text(report, placed, &mut pair, &text);
        let input = format_args!("'{}'", text.escape_ascii());
        report.same(input, ours, answer == 0);
    }
    pair.finish(report);
}

/// The texts, one after the other. Those that are queries are asked at each of the places that matter.
fn compare_texts(report: &mut Report, texts: impl Iterator<Item = Vec<u8>>) -> (usize, usize) {
    let placed = Placed::all::<HalfOpen>(HELD_CELLS);
    let states = placed.iter().map(all_held_at).collect::<Vec<_>>();
    let each = placed.iter().zip(&states);
    let each = each.flat_map(|(placed, states)| states.iter().map(move |two| (placed, two)));
    let mut pairs = each
        .map(|(placed, (a, b))| (placed, Pair::new(&placed.cells, a, b)))
        .collect::<Vec<_>>();
    let (mut queries, mut others) = (0, 0);
    for (number, text) in texts.enumerate() {
        let first = number % pairs.len();
        let (placed, pair) = &mut pairs[first];
        if !ask_text(report, placed, pair, &text) {
            others += 1;
            continue;
        }
        queries += 1;
        for (place, (placed, pair)) in pairs.iter_mut().enumerate() {
            if place != first {
                ask_text(report, placed, pair, &text);
            }
        }
    }
    for (_, pair) in &pairs {
        pair.finish(report);
    }
    (queries, others)
}

/// Every text up to so many parts.
fn compare_every_text(report: &mut Report, parts: &[&[u8]], most: u32) -> usize {
    let (queries, others) = compare_texts(report, texts::every(parts, most));
    report.note(format_args!(
        "{queries} texts are queries, {others} are not"
    ));
    let all = (0..=most).map(|length| parts.len().pow(length)).sum();
    report.same(format_args!("all texts"), queries + others, all);
    queries
}

/// Every text up to so many bytes, and up to so many tokens.
fn compare_short_texts(report: &mut Report, size: &Size) {
    let (bytes, tokens) = (size.bytes, size.tokens);
    report.part(format!("query, every text up to {bytes} bytes"));
    let queries = compare_every_text(report, &texts::SYMBOLS, bytes);
    report.same(format_args!("queries"), queries, size.queries);
    report.part(format!("query, every text up to {tokens} tokens"));
    compare_every_text(report, &texts::TOKENS, tokens);
}

/// Texts around the most bytes and the most open marks.
fn compare_limits(report: &mut Report) {
    report.part("query, texts at the limits".to_string());
    let texts = texts::at_limits();
    // They are all spelt well, so only the limits decide.
    let is_query = |text: &Vec<u8>| {
        let open = model::spelt(text).map(|query| query.open());
        text.len() <= model::BYTES && open.expect("spelt well") <= model::OPEN
    };
    let expected = texts.iter().filter(|text| is_query(text)).count();
    let (queries, others) = compare_texts(report, texts.clone().into_iter());
    report.note(format_args!(
        "{queries} texts are queries, {others} are not"
    ));
    report.same(format_args!("within the limits"), queries, expected);
    report.same(format_args!("all texts"), queries + others, texts.len());
}

/// Every state of so many cells that hold nothing or one of two values.
fn states(cells: usize) -> impl Iterator<Item = Dense> {
    let base = 3usize;
    (0..base.pow(cells as u32)).map(move |number| {
        let mut dense = Dense::empty(cells);
        for cell in 0..cells {
            let held = HELD[number / base.pow(cell as u32) % base];
            dense.give(cell..cell + 1, held);
        }
        dense
    })
}

/// Every pair of maps over so many cells, with some queries in every window and at every key. A window that is refused is refused for each
/// of them, so only a query and a text that is none are asked there.
fn compare_pairs(report: &mut Report, count: usize) {
    let queries = texts::SOME.map(|text| (text, model::query(text)));
    let [good, .., bad] = &queries;
    for placed in Placed::all::<HalfOpen>(count) {
        report.part(format!(
            "query, pairs of maps over {count} cells {}",
            placed.name
        ));
        let states = states(count).map(|dense| State::new(&placed.cells, dense));
        let states = states.collect::<Vec<State>>();
        for (a, b) in states
            .iter()
            .flat_map(|a| states.iter().map(move |b| (a, b)))
        {
            let mut pair = Pair::new(&placed.cells, a, b);
            for window in &placed.ranges {
                let valid = HalfOpen::valid(window.0);
                for (text, query) in queries.iter().filter(|_| valid).chain([good, bad]) {
                    let asked = (*text, query.as_ref());
                    let _ = pair.ask(report, window, asked, just_right, &placed.keys);
                }
            }
            pair.finish(report);
        }
    }
}

/// Every length of each list from 0 to two more than are needed.
fn compare_lengths(report: &mut Report) {
    report.part("query, lists of every length".to_string());
    for placed in Placed::all::<HalfOpen>(HELD_CELLS) {
        for (a, b) in &all_held_at(&placed) {
            let mut pair = Pair::new(&placed.cells, a, b);
            for text in texts::SOME {
                let query = model::query(text);
                for window in placed.ranges.iter().skip(1).step_by(19) {
                    let _ = pair.ask(report, window, (text, query.as_ref()), every, &[]);
                }
            }
            pair.finish(report);
        }
    }
}

/// So many cells that two full maps need not have a key in common, and that there are cells on both sides.
const CELLS: usize = 4 * PLACES + 2;

/// Two full maps that lie apart: what neither holds is the longest result.
fn compare_longest(report: &mut Report) {
    report.part("query, the longest result".to_string());
    let every_fourth = |first: usize, value| {
        let mut dense = Dense::empty(CELLS);
        for place in 0..PLACES {
            let cell = first + 4 * place;
            dense.give(cell..cell + 1, Some(value));
        }
        dense
    };
    for cells in [Cells::small(CELLS), Cells::both::<HalfOpen>(CELLS)] {
        let a = State::new(&cells, every_fourth(1, 0));
        let b = State::new(&cells, every_fourth(3, 3));
        let mut pair = Pair::new(&cells, &a, &b);
        for (text, count) in [
            (&b"!A0&!B3"[..], 2 * PLACES + 1),
            (b"A0|B3", 2 * PLACES),
            (b"!(A0|B3)|A0", PLACES + 1),
        ] {
            let query = model::query(text);
            let asked = (text, query.as_ref());
            let whole = window(&cells, 0..CELLS);
            let ours = pair.ask(report, &whole, asked, around, &cells.keys());
            report.same(format_args!("{}", text.escape_ascii()), ours, Ok(count));
        }
        pair.finish(report);
    }
}

/// A value that a digit names, most times.
fn random_value(random: &mut Random) -> u8 {
    match random.below(8) {
        0 => b'0' + random.below(10) as u8,
        1 => random.below(256) as u8,
        _ => random.below(10) as u8,
    }
}

/// Fewer values, so that a query is true more often.
fn random_map(random: &mut Random) -> Dense {
    if random.once_in(3) {
        Dense::random(random, CELLS, random_value)
    } else {
        Dense::random(random, CELLS, |random| random.below(2) as u8)
    }
}

fn random_window(random: &mut Random, cells: &Cells) -> Window {
    let whole = 0..CELLS;
    match random.below(4) {
        0 | 1 => window(cells, whole),
        2 => {
            // Empty or reversed ones too.
            let (from, to) = (random.below(CELLS + 1), random.below(CELLS + 1));
            let ends = cells.range::<HalfOpen>(from, to);
            (ends.expect("keys"), from..to.max(from))
        }
        _ => {
            let from = random.below(CELLS);
            window(cells, from..(from + 1 + random.below(40)).min(CELLS))
        }
    }
}

/// Random queries over random maps of up to PLACES ranges, of cells of one key each or of many.
fn compare_random(report: &mut Report, pairs: usize) {
    report.part("query, random ones over random maps".to_string());
    let mut random = Random::new(41);
    let (mut asked, mut queries, mut found, mut most_ranges) = (0, 0, 0, 0);
    for number in 0..pairs {
        let cells = match number % 4 {
            0 => Cells::lowest(CELLS),
            1 => Cells::both::<HalfOpen>(CELLS),
            2 => Cells::random(&mut random, CELLS, 1_000_000),
            _ => Cells::random(&mut random, CELLS, 3),
        };
        let keys = cells.keys();
        let a = State::new(&cells, random_map(&mut random));
        let b = State::new(&cells, random_map(&mut random));
        most_ranges = most_ranges.max(a.entries.len().min(b.entries.len()));
        let mut pair = Pair::new(&cells, &a, &b);
        for _ in 0..20 {
            let text = texts::random(&mut random);
            let query = model::query(&text);
            let window = random_window(&mut random, &cells);
            let some_keys = [0; 6].map(|_| keys[random.below(keys.len())]);
            let count = pair.ask(report, &window, (&text, query.as_ref()), around, &some_keys);
            asked += 1;
            queries += usize::from(query.is_some());
            found += usize::from(count.is_ok_and(|count| count > 0));
        }
        pair.finish(report);
    }
    report.note(format_args!(
        "{asked} asked, {queries} queries, {found} with a range"
    ));
    // Else the inputs do not show what they are for.
    report.same(format_args!("some were queries"), queries > asked / 4, true);
    report.same(format_args!("some were not"), queries < asked * 7 / 8, true);
    report.same(format_args!("some were true"), found > asked / 8, true);
    report.same(format_args!("full maps"), most_ranges, PLACES);
}

/// A damaged map as A, as B, and as both: 4, before all other refusals, and all memory as it was.
fn compare_damaged(report: &mut Report) {
    report.part("query, damaged maps".to_string());
    let good = Map::of(&[((0, 12), 3)]);
    each_damaged::<HalfOpen>(|name, damaged| {
        for (which, a, b) in [
            ("A", damaged, &good),
            ("B", &good, damaged),
            ("A and B", damaged, damaged),
        ] {
            let (mut lent_a, mut lent_b) = (a.clone(), b.clone());
            for window in [(0, 20), (i64::MIN, i64::MAX), (4, 4), (9, 4)] {
                for text in [&b"A3&!B1"[..], b"A3&", b""] {
                    let shown_text = text.escape_ascii();
                    let input = format_args!("'{shown_text}' over {window:?}, {which}: {name}");
                    let (a, b, text) = (&mut lent_a, &mut lent_b, &mut text.to_vec()[..]);
                    for lengths in [(0, 0), (3, 2)] {
                        let ours = list(&QUERIES, a, b, window, text, lengths);
                        report.same(input, ours, refused(4, lengths));
                    }
                    for key in [3, 30] {
                        let ours = at(&QUERIES, a, b, window, text, key);
                        report.same(input, ours, Told { answer: 4, yes: 0 });
                    }
                }
            }
            report.same(format_args!("{which}: {name}"), &lent_a, a);
            report.same(format_args!("{which}: {name}"), &lent_b, b);
        }
    });
}

pub fn compare(report: &mut Report, size: &Size) {
    compare_documented(report);
    compare_short_texts(report, size);
    compare_limits(report);
    compare_pairs(report, size.cells);
    compare_lengths(report);
    compare_longest(report);
    compare_random(report, size.long_pairs);
    compare_damaged(report);
}

/// What crates/test_query has to print.
pub fn replay() -> String {
    replay::replay()
}
