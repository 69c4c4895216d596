//! What crates/test_query has to print, as the model answers its stored questions.
//!
//! A question is a line: a letter for each map, for both ends of the window and for the instant, and a query.
use super::model;
use crate::maps::dense::{as_ends, Cells, Dense};
use crate::maps::kind::{shown, Ends, HalfOpen, Kind};
use crate::shown::Key;

/// The keys by letter, ascending: the maps change at these, or nowhere.
const KEYS: [(&str, i64); 12] = [
    ("a", i64::MIN),
    ("b", -3),
    ("c", -2),
    ("d", 0),
    ("e", 3),
    ("f", 4),
    ("g", 5),
    ("h", 6),
    ("i", 7),
    ("j", 8),
    ("y", i64::MAX - 1),
    ("z", i64::MAX),
];

/// The number of a key by its letter: the cell that starts there has the same number.
fn place(letter: &str) -> usize {
    let found = KEYS.iter().position(|key| key.0 == letter);
    found.expect("a letter of a key")
}

/// A map by its letter. Nothing is a map that is not well formed.
fn map(letter: &str) -> Option<Dense> {
    let entries: &[(&str, &str, u8)] = match letter {
        "0" => &[],
        "1" => &[("a", "d", 3), ("d", "g", 1), ("g", "j", 3), ("y", "z", 3)],
        "2" => &[
            ("c", "e", 1),
            ("e", "h", b'1'),
            ("h", "i", 1),
            ("i", "z", 0),
        ],
        _ => return None,
    };
    let mut dense = Dense::empty(KEYS.len() - 1);
    for &(start, end, value) in entries {
        dense.give(place(start)..place(end), Some(value));
    }
    Some(dense)
}

struct Question<'a> {
    a: &'a str,
    b: &'a str,
    start: usize,
    end: usize,
    key: i64,
    text: &'a str,
}

impl<'a> Question<'a> {
    fn new(line: &'a str) -> Self {
        let mut words = line.splitn(6, ' ');
        let mut word = || words.next().expect("six words");
        Question {
            a: word(),
            b: word(),
            start: place(word()),
            end: place(word()),
            key: KEYS[place(word())].1,
            text: word(),
        }
    }

    /// The true cells, or the number of the refusal.
    fn result(&self) -> Result<Dense, u8> {
        let (a, b) = map(self.a).zip(map(self.b)).ok_or(4)?;
        if !HalfOpen::valid(self.window()) {
            return Err(1);
        }
        let query = model::query(self.text.as_bytes()).ok_or(7)?;
        Ok(query.result(&a, &b, self.start..self.end))
    }

    fn window(&self) -> Ends {
        (KEYS[self.start].1, KEYS[self.end].1)
    }

    fn line(&self, cells: &Cells) -> String {
        let result = self.result();
        let yes = |true_cells: &Dense| {
            cells
                .cell_of(self.key)
                .is_some_and(|c| true_cells.covers(c))
        };
        let told = match &result {
            Ok(true_cells) if yes(true_cells) => "0 yes".to_string(),
            result => format!("{} no", result.as_ref().err().unwrap_or(&0)),
        };
        let ranges = result.map(|true_cells| {
            let runs = true_cells.runs().into_iter();
            runs.map(|(run, _)| as_ends::<HalfOpen>(cells, &run))
                .collect()
        });
        let Question { a, b, text, .. } = self;
        let (window, key) = (shown::<HalfOpen>(self.window()), Key(self.key));
        format!(
            "{a}{b} {text} {window}: {}, {key}: {told}\n",
            listed(ranges)
        )
    }
}

/// Ranges in four places, which hold 0 before.
fn listed(ranges: Result<Vec<Ends>, u8>) -> String {
    const PLACES: usize = 4;
    let fitting = |ranges: Vec<Ends>| {
        if ranges.len() > PLACES {
            Err(3)
        } else {
            Ok(ranges)
        }
    };
    let ranges = ranges.and_then(fitting);
    let answer = *ranges.as_ref().err().unwrap_or(&0);
    let mut ranges = ranges.unwrap_or_default();
    let count = ranges.len();
    ranges.resize(PLACES, (0, 0));
    let ranges = ranges
        .into_iter()
        .map(|r| format!(" {}", shown::<HalfOpen>(r)));
    format!("{answer} {count}{}", ranges.collect::<String>())
}

/// What the program has to print.
pub fn replay() -> String {
    let cells = Cells::between(&KEYS.map(|key| key.1));
    let questions = include_str!("../../../crates/test_query/stdin").lines();
    questions
        .map(|line| Question::new(line).line(&cells))
        .collect()
}
