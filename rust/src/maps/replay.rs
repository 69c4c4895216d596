//! The steps of crates/test_maps, which that program reads as its input, as rangemap answers them.
//!
//! A step is a line of four letters with spaces between: what to do, two keys (or a place) and a value (or a length).
//! A line that begins with # is told as it is.
use super::kind::{of, shown, Ends, Entry, Kind};
use crate::ffi::PLACES;
use crate::shown::Key;
use std::cmp::Ordering;
use std::fmt::Write;

struct Replay<K: Kind> {
    rust: K::Rust,
    /// Something stands in an unused place.
    damaged: bool,
    /// A second map, to compare with.
    other: K::Rust,
    other_damaged: bool,
    /// Entries for a bulk insert.
    list: Vec<Entry>,
    told: String,
}

/// The letters of a step.
#[derive(Clone, Copy)]
struct Step {
    what: u8,
    one: u8,
    two: u8,
    three: u8,
}

impl Step {
    fn read(line: &str) -> Self {
        let &[what, b' ', one, b' ', two, b' ', three] = line.as_bytes() else {
            panic!("no step: {line}");
        };
        Step {
            what,
            one,
            two,
            three,
        }
    }

    fn range(self) -> Ends {
        (key(self.one), key(self.two))
    }
}

/// Ten keys from 0 on, from the least key on and up to the greatest key, and two keys behind all ranges of the full map.
fn key(letter: u8) -> i64 {
    match letter {
        b'0'..=b'9' => digit(letter).into(),
        b'a'..=b'j' => i64::MIN + i64::from(letter - b'a'),
        b'q'..=b'z' => i64::MAX - i64::from(b'z' - letter),
        b'T' => 2000,
        b'U' => 2001,
        _ => panic!("no key: {}", char::from(letter)),
    }
}

fn digit(letter: u8) -> u8 {
    assert!(letter.is_ascii_digit(), "no digit: {letter}");
    letter - b'0'
}

fn yes_no(yes: bool) -> &'static str {
    if yes {
        "yes"
    } else {
        "no"
    }
}

fn shown_entry<K: Kind>(found: Option<Entry>) -> String {
    let (r, value) = found.unwrap_or(((0, 0), 0));
    format!("{}>{value}", shown::<K>(r))
}

/// A long map by its first three ranges, its last and their number.
fn shown_map<K: Kind>(entries: &[Entry]) -> String {
    const WHOLE: usize = 8;
    const FIRST: usize = 3;
    if entries.len() <= WHOLE {
        return of::<K>(entries).to_string();
    }
    let mut shown = String::from("{");
    for &entry in &entries[..FIRST] {
        shown += &shown_entry::<K>(Some(entry));
        shown += ", ";
    }
    let last = shown_entry::<K>(entries.last().copied());
    format!("{shown}.., {last}: {} ranges}}", entries.len())
}

impl<K: Kind> Replay<K> {
    /// The number of document 01, or else the step is carried out: 4, then 1 for a range that is not valid.
    fn refusal(&self, r: Option<Ends>) -> u8 {
        match r {
            _ if self.damaged => 4,
            Some(r) if !K::valid(r) => 1,
            _ => 0,
        }
    }

    fn line(&mut self, what: std::fmt::Arguments) {
        writeln!(self.told, "{what}").expect("a String takes any text");
    }

    fn now(&self) -> String {
        if self.damaged {
            return "not well formed".to_string();
        }
        shown_map::<K>(&K::rust_entries(&self.rust))
    }

    /// An edit gives the range a value, or none; 2 is judged on the map that it leaves.
    fn edited(&mut self, r: Ends, new: Option<u8>) -> u8 {
        let refusal = self.refusal(Some(r));
        if refusal != 0 {
            return refusal;
        }
        let mut rust = self.rust.clone();
        K::rust_edit(&mut rust, r, new);
        if K::rust_len(&rust) > PLACES {
            return 2;
        }
        self.rust = rust;
        0
    }

    fn insert(&mut self, r: Ends, value: u8) {
        let answer = self.edited(r, Some(value));
        let now = self.now();
        self.line(format_args!(
            "insert {}>{value}: {answer}, now {now}",
            shown::<K>(r)
        ));
    }

    fn remove(&mut self, r: Ends) {
        let answer = self.edited(r, None);
        let now = self.now();
        self.line(format_args!(
            "remove {}: {answer}, now {now}",
            shown::<K>(r)
        ));
    }

    fn clear(&mut self) {
        K::rust_clear(&mut self.rust);
        self.damaged = false;
        self.line(format_args!("clear"));
    }

    /// Document 01's full map: as many ranges as places, of one key and of one value, with a key between each two.
    fn fill(&mut self) {
        K::rust_clear(&mut self.rust);
        self.damaged = false;
        for i in 0..PLACES as i128 {
            let r = K::ends(2 * i, 2 * i + 1).expect("small keys");
            K::rust_insert(&mut self.rust, r, 7);
        }
        let now = self.now();
        self.line(format_args!("full, now {now}"));
    }

    fn damage(&mut self) {
        self.damaged = true;
        self.line(format_args!("damaged"));
    }

    /// Answers an entry: 4 if the map is damaged, 5 if there is none.
    fn found(&mut self, what: std::fmt::Arguments, found: Option<Entry>) {
        let (answer, found) = match (self.damaged, found) {
            (true, _) => (4, None),
            (false, None) => (5, None),
            (false, found) => (0, found),
        };
        let shown = shown_entry::<K>(found);
        self.line(format_args!("{what}: {answer} {shown}"));
    }

    fn told(&mut self, what: std::fmt::Arguments, r: Option<Ends>, yes: bool) {
        let answer = self.refusal(r);
        let yes = yes_no(answer == 0 && yes);
        self.line(format_args!("{what}: {answer} {yes}"));
    }

    fn len(&mut self) {
        let answer = self.refusal(None);
        let count = if answer == 0 {
            K::rust_len(&self.rust)
        } else {
            0
        };
        self.line(format_args!("len: {answer} {count}"));
    }

    fn overlapping(&mut self, r: Ends) {
        let answer = self.refusal(Some(r));
        let (mut place, mut count) = (0, 0);
        if answer == 0 {
            let met = K::rust_overlapping(&self.rust, r);
            let entries = K::rust_entries(&self.rust);
            let first = entries.iter().position(|entry| met.first() == Some(entry));
            (place, count) = (first.unwrap_or(0), met.len());
        }
        let shown = shown::<K>(r);
        self.line(format_args!(
            "overlapping {shown}: {answer} place {place} count {count}"
        ));
        let yes = K::rust_overlaps(&self.rust, r);
        self.told(format_args!("overlaps {shown}"), Some(r), yes);
    }

    /// The lists hold 0 before, and all their places are told.
    fn gaps(&mut self, r: Ends, places: usize) {
        let mut answer = self.refusal(Some(r));
        let mut gaps = Vec::new();
        if answer == 0 {
            gaps = K::rust_gaps(&self.rust, r);
        }
        if gaps.len() > places {
            (answer, gaps) = (3, Vec::new());
        }
        let count = gaps.len();
        gaps.resize(places, (0, 0));
        let mut line = format!("gaps {} into {places}: {answer} {count}", shown::<K>(r));
        for gap in gaps {
            write!(line, " {}", shown::<K>(gap)).expect("a String takes any text");
        }
        self.line(format_args!("{line}"));
    }

    fn store(&mut self) {
        (self.other, self.other_damaged) = (self.rust.clone(), self.damaged);
        self.line(format_args!("stored"));
    }

    fn compare(&mut self) {
        let damaged = self.damaged || self.other_damaged;
        let answer = if damaged { 4 } else { 0 };
        let yes = yes_no(!damaged && self.rust == self.other);
        let order = match self.rust.cmp(&self.other) {
            _ if damaged => "0",
            Ordering::Less => "-1",
            Ordering::Equal => "0",
            Ordering::Greater => "1",
        };
        self.line(format_args!("eq: {answer} {yes}, cmp: {answer} {order}"));
    }

    fn extend(&mut self) {
        let list = std::mem::take(&mut self.list);
        let mut answer = self.refusal(None);
        let mut applied = 0;
        for &(r, value) in &list {
            if answer == 0 {
                answer = self.edited(r, Some(value));
                applied += usize::from(answer == 0);
            }
        }
        let now = self.now();
        let length = list.len();
        self.line(format_args!(
            "extend by {length}: {answer} applied {applied}, now {now}"
        ));
    }

    fn step(&mut self, step: Step) {
        let rust = &self.rust;
        match step.what {
            b'i' => self.insert(step.range(), digit(step.three)),
            b'r' => self.remove(step.range()),
            b'c' => self.clear(),
            b'f' => self.fill(),
            b'd' => self.damage(),
            b'e' => self.told(format_args!("is_empty"), None, K::rust_is_empty(rust)),
            b'n' => self.len(),
            b'h' => self.found(format_args!("first"), K::rust_first(rust)),
            b'l' => self.found(format_args!("last"), K::rust_last(rust)),
            b'p' => {
                let place = usize::from(digit(step.one));
                let found = K::rust_entries(rust).get(place).copied();
                self.found(format_args!("range_at {place}"), found);
            }
            b'g' => {
                let key = key(step.one);
                self.found(format_args!("get {}", Key(key)), K::rust_get(rust, key));
            }
            b'k' => {
                let key = key(step.one);
                let yes = K::rust_contains(rust, key);
                self.told(format_args!("contains {}", Key(key)), None, yes);
            }
            b'o' => self.overlapping(step.range()),
            b'w' => self.gaps(step.range(), digit(step.three).into()),
            b's' => self.store(),
            b'q' => self.compare(),
            b'b' => self.list.push((step.range(), digit(step.three))),
            b'x' => self.extend(),
            what => panic!("no step: {}", char::from(what)),
        }
    }
}

/// What the program has to print for these steps.
pub fn replay<K: Kind>(steps: &str) -> String {
    let mut replay = Replay::<K> {
        rust: K::Rust::default(),
        damaged: false,
        other: K::Rust::default(),
        other_damaged: false,
        list: Vec::new(),
        told: String::new(),
    };
    for line in steps.lines() {
        if line.starts_with('#') {
            replay.line(format_args!("{line}"));
        } else {
            replay.step(Step::read(line));
        }
    }
    replay.told
}
