//! The byte form: ours is compared with a writer and a reader that were written from document 01 alone, and with written forms that are kept as files.
pub mod model;

use crate::ffi::{range_map_read, range_map_write, Count, Map, PLACES};
use crate::maps::random::Random;
use crate::report::Report;
use std::fmt::Arguments;

/// A lent output, in the middle of bytes that nobody may touch.
#[derive(Clone, PartialEq, Eq, Debug)]
struct Output {
    bytes: Vec<u8>,
    length: usize,
}

impl Output {
    const BESIDE: usize = 16;

    fn new(length: usize) -> Self {
        let mark = |i: usize| (i * 151 + 77) as u8;
        Output {
            bytes: (0..length + 2 * Self::BESIDE).map(mark).collect(),
            length,
        }
    }

    fn lent(&mut self) -> &mut [u8] {
        &mut self.bytes[Self::BESIDE..][..self.length]
    }
}

fn write(map: &mut Map, out: &mut [u8]) -> Count {
    // SAFETY: the output is there, and the function checks the map.
    unsafe { range_map_write(map, out.as_mut_ptr(), out.len()) }
}

fn read(map: &mut Map, bytes: &[u8]) -> u8 {
    // SAFETY: the bytes are there, and nobody else has the map.
    unsafe { range_map_read(map, bytes.as_ptr(), bytes.len()) }
}

/// What the model writes, as ours tells it.
fn count_of(written: Result<usize, u8>) -> Count {
    let answer = written.err().unwrap_or(0);
    let count = written.unwrap_or(0);
    Count { answer, count }
}

/// The writer, on an output of some length: the answer, the output and the map.
fn compare_written(report: &mut Report, input: Arguments, map: &Map, length: usize) {
    let (mut ours, mut expected) = (Output::new(length), Output::new(length));
    let mut lent = map.clone();
    let answer = write(&mut lent, ours.lent());
    report.same(input, answer, count_of(model::write(map, expected.lent())));
    report.same(input, &ours, &expected);
    report.same(input, &lent, map);
}

/// A map with a number of its own in each place: what the reader overwrites, or leaves.
fn littered() -> Map {
    let mut map = Map::EMPTY;
    map.count = usize::MAX - 5;
    for place in 0..PLACES {
        map.put(place, ((7 - place as i64, -1), place as u8 | 1));
    }
    map
}

/// The reader, over a map that holds anything: the answer and the map. It tells whether the bytes were taken.
fn compare_read(report: &mut Report, input: Arguments, bytes: &[u8]) -> bool {
    let (mut ours, mut expected) = (littered(), littered());
    let answer = read(&mut ours, bytes);
    report.same(input, answer, model::read(&mut expected, bytes));
    report.same(input, &ours, &expected);
    if answer == 0 {
        // Read then write: the same bytes.
        let mut out = vec![0; bytes.len()];
        let count = write(&mut ours, &mut out);
        report.same(input, count, count_of(Ok(bytes.len())));
        report.same(input, &out[..], bytes);
    }
    answer == 0
}

/// Ranges of keys that ascend by one, every second touching the next, with three values in turn.
fn ascending(count: usize) -> Map {
    let mut map = Map::EMPTY;
    map.count = count;
    let mut from = -40;
    for place in 0..count {
        let to = from + 1 + place as i64 % 3;
        map.put(place, ((from, to), place as u8 % 3));
        from = to + place as i64 % 2;
    }
    map
}

/// The form of a well-formed map.
fn form(map: &Map) -> Vec<u8> {
    let mut out = vec![0; model::MOST];
    let length = model::write(map, &mut out).expect("a well-formed map");
    out.truncate(length);
    out
}

/// The maps of the files under tests/bytes that are forms.
fn of_files() -> Vec<(&'static str, &'static [u8], Map)> {
    let three = [((0, 2), 1), ((2, 4), 2), ((4, 8), 1)];
    let ends = [
        ((i64::MIN, i64::MIN + 1), 255),
        ((-2, 5), 7),
        ((i64::MAX - 1, i64::MAX), 0),
    ];
    let full: Vec<_> = (0..PLACES as i64)
        .map(|i| ((2 * i, 2 * i + 1), 1))
        .collect();
    vec![
        (
            "empty",
            include_bytes!("../../tests/bytes/empty.form"),
            Map::EMPTY,
        ),
        (
            "three",
            include_bytes!("../../tests/bytes/three.form"),
            Map::of(&three),
        ),
        (
            "all_keys",
            include_bytes!("../../tests/bytes/all_keys.form"),
            Map::of(&[((i64::MIN, i64::MAX), 3)]),
        ),
        (
            "ends",
            include_bytes!("../../tests/bytes/ends.form"),
            Map::of(&ends),
        ),
        (
            "full",
            include_bytes!("../../tests/bytes/full.form"),
            Map::of(&full),
        ),
    ]
}

/// The files under tests/bytes that are no forms.
const NO_FORMS: [(&str, &[u8]); 7] = [
    (
        "big_endian",
        include_bytes!("../../tests/bytes/big_endian.no_form"),
    ),
    (
        "count_513",
        include_bytes!("../../tests/bytes/count_513.no_form"),
    ),
    (
        "spare_byte",
        include_bytes!("../../tests/bytes/spare_byte.no_form"),
    ),
    (
        "touching_equals",
        include_bytes!("../../tests/bytes/touching_equals.no_form"),
    ),
    (
        "empty_range",
        include_bytes!("../../tests/bytes/empty_range.no_form"),
    ),
    (
        "overlap",
        include_bytes!("../../tests/bytes/overlap.no_form"),
    ),
    (
        "other_mark",
        include_bytes!("../../tests/bytes/other_mark.no_form"),
    ),
];

fn compare_files(report: &mut Report) {
    report.part("byte form, written forms as files".to_string());
    for (name, bytes, map) in of_files() {
        let input = format_args!("{name}");
        let mut lent = map.clone();
        let mut out = vec![0; bytes.len()];
        report.same(input, write(&mut lent, &mut out), count_of(Ok(bytes.len())));
        report.same(input, &out[..], bytes);
        let mut ours = littered();
        report.same(input, read(&mut ours, bytes), 0);
        report.same(input, &ours, &map);
        compare_read(report, input, bytes);
    }
    for (name, bytes) in NO_FORMS {
        let mut ours = littered();
        report.same(format_args!("{name}"), read(&mut ours, bytes), 6);
        compare_read(report, format_args!("{name}"), bytes);
    }
}

/// One byte changed to each other value, at each place of a short form.
fn compare_changed(report: &mut Report) {
    report.part("byte form, one byte changed".to_string());
    let bytes = form(&ascending(3));
    for place in 0..bytes.len() {
        for value in 0..=255 {
            let mut changed = bytes.clone();
            changed[place] = value;
            compare_read(report, format_args!("byte {place} is {value}"), &changed);
        }
    }
}

/// Every length around that of the form, for the reader and for the writer.
fn compare_lengths(report: &mut Report) {
    report.part("byte form, lengths".to_string());
    for count in [0, 1, 2, 3, PLACES - 1, PLACES] {
        let map = ascending(count);
        let bytes = form(&map);
        let least = if count < 4 { 0 } else { bytes.len() - 40 };
        for length in least..bytes.len() + 40 {
            let input = format_args!("{count} ranges, length {length}");
            let mut cut = bytes.clone();
            cut.resize(length, 0);
            compare_read(report, input, &cut);
            compare_written(report, input, &map, length);
        }
    }
    // A count that the length agrees with, over the limit.
    for count in [PLACES + 1, PLACES + 2] {
        let mut bytes = form(&ascending(PLACES));
        bytes[4..8].copy_from_slice(&(count as u32).to_le_bytes());
        for place in PLACES..count {
            let key = 10_000 + 2 * place as i64;
            bytes.extend(key.to_le_bytes());
            bytes.extend((key + 1).to_le_bytes());
            bytes.push(1);
        }
        let taken = compare_read(report, format_args!("{count} ranges"), &bytes);
        report.same(format_args!("{count} ranges"), taken, false);
    }
}

/// A key that often meets another one, or an end of all keys.
fn random_key(random: &mut Random) -> i64 {
    let near = random.below(24) as i64 - 12;
    match random.below(8) {
        0 => i64::MIN.saturating_add(near),
        1 => i64::MAX.saturating_add(near),
        2 => near << 40,
        _ => near,
    }
}

/// Ranges that ascend, most of them well formed.
fn random_map(random: &mut Random, most: usize) -> Map {
    let mut keys: Vec<i64> = (0..2 * random.below(most + 1))
        .map(|_| random_key(random))
        .collect();
    keys.sort();
    if !random.once_in(8) {
        keys.dedup();
    }
    let mut map = Map::EMPTY;
    for (place, ends) in keys.chunks_exact(2).enumerate() {
        // Some touch the one before.
        let touches = place > 0 && random.once_in(3);
        let start = if touches {
            map.ends[place - 1]
        } else {
            ends[0]
        };
        map.put(place, ((start, ends[1]), random.below(3) as u8));
        map.count = place + 1;
    }
    map
}

/// A change that leaves few forms whole.
fn change(random: &mut Random, bytes: &mut Vec<u8>) {
    let place = random.below(bytes.len().max(1));
    match random.below(8) {
        0 => bytes.truncate(place),
        1 => bytes.push(random.below(256) as u8),
        2 => {
            if let Some(byte) = bytes.get_mut(4) {
                *byte = byte.wrapping_add(1);
            }
        }
        3 if bytes.len() >= model::length(2) => bytes[8..42].rotate_left(17),
        4 if bytes.len() >= model::length(1) => {
            let range: Vec<u8> = bytes[8..25].to_vec();
            bytes.extend(range);
        }
        _ => {
            if let Some(byte) = bytes.get_mut(place) {
                *byte ^= 1 << random.below(8);
            }
        }
    }
}

/// The writer on random maps, and the reader on their forms with random changes.
fn compare_random(report: &mut Report, inputs: usize) {
    report.part("byte form, random inputs".to_string());
    let mut random = Random::new(29);
    let mut taken = 0;
    for number in 0..inputs {
        let most = if random.once_in(64) { PLACES } else { 6 };
        let mut map = random_map(&mut random, most);
        if random.once_in(4) {
            let place = random.below(PLACES);
            let entry = ((random_key(&mut random), random_key(&mut random)), 1);
            map.put(place, entry);
        }
        let length = random.below(model::length(map.count) + 20);
        compare_written(report, format_args!("map {number}"), &map, length);

        let mut bytes = vec![0; model::MOST];
        let written = model::write(&map, &mut bytes).unwrap_or(random.below(60));
        bytes.truncate(written);
        for _ in 0..random.below(3) {
            change(&mut random, &mut bytes);
        }
        let input = format_args!("bytes {number}, {bytes:02x?}");
        taken += usize::from(compare_read(report, input, &bytes));
    }
    report.note(format_args!("{taken} of {inputs} were forms"));
    report.same(format_args!("some were forms"), taken > inputs / 8, true);
    report.same(format_args!("some were not"), taken < inputs * 7 / 8, true);
}

/// How many random inputs the reader is given, in the short and in the full form.
pub const SHORT: usize = 20_000;
pub const FULL: usize = 1_000_000;

pub fn compare(report: &mut Report, inputs: usize) {
    compare_files(report);
    compare_changed(report);
    compare_lengths(report);
    compare_random(report, inputs);
}
