//! A writer and a reader of the byte form, written from document 01 alone. They share the struct of a map with ours, and nothing else.
use crate::ffi::{Map, PLACES};

pub const MARK: [u8; 4] = [0x52, 0x4D, 0x30, 0x31];
const HEAD: usize = 8;
const RANGE: usize = 17;

/// The longest form.
pub const MOST: usize = length(PLACES);

pub const fn length(count: usize) -> usize {
    HEAD + RANGE * count
}

/// A stored range and its value.
type Stored = (i64, i64, u8);

fn full(range: &Stored) -> bool {
    range.0 < range.1
}

/// Whether the second may stand after the first: it ascends, and does not touch it with an equal value.
fn follows(one: &Stored, next: &Stored) -> bool {
    one.1 < next.0 || one.1 == next.0 && one.2 != next.2
}

/// Document 01's "well formed", of half-open ranges.
pub fn formed(map: &Map) -> bool {
    if map.count > PLACES {
        return false;
    }
    let stored = |place: usize| (map.starts[place], map.ends[place], map.values[place]);
    (0..map.count).all(|place| full(&stored(place)))
        && (1..map.count).all(|place| follows(&stored(place - 1), &stored(place)))
        && map.starts[map.count..].iter().all(|&start| start == 0)
        && map.ends[map.count..].iter().all(|&end| end == 0)
        && map.values[map.count..].iter().all(|&value| value == 0)
}

/// Writes a map, and gives the length of its form or the number of a refusal.
pub fn write(map: &Map, out: &mut [u8]) -> Result<usize, u8> {
    if !formed(map) {
        return Err(4);
    }
    let length = length(map.count);
    let out = out.get_mut(..length).ok_or(3)?;
    let (head, ranges) = out.split_at_mut(HEAD);
    head[..4].copy_from_slice(&MARK);
    head[4..].copy_from_slice(&(map.count as u32).to_le_bytes());
    for (place, range) in ranges.chunks_exact_mut(RANGE).enumerate() {
        range[..8].copy_from_slice(&map.starts[place].to_le_bytes());
        range[8..16].copy_from_slice(&map.ends[place].to_le_bytes());
        range[16] = map.values[place];
    }
    Ok(length)
}

fn key(bytes: &[u8]) -> i64 {
    i64::from_le_bytes(bytes.try_into().expect("eight bytes"))
}

fn range(bytes: &[u8]) -> Stored {
    (key(&bytes[..8]), key(&bytes[8..16]), bytes[16])
}

/// The ranges of a form, or nothing if the bytes are none.
fn ranges(bytes: &[u8]) -> Option<&[u8]> {
    let (head, ranges) = bytes.split_at_checked(HEAD)?;
    let count = u32::from_le_bytes(head[4..].try_into().expect("four bytes")) as usize;
    if head[..4] != MARK || count > PLACES || ranges.len() != RANGE * count {
        return None;
    }
    let mut before: Option<Stored> = None;
    for bytes in ranges.chunks_exact(RANGE) {
        let range = range(bytes);
        if !full(&range) || before.is_some_and(|before| !follows(&before, &range)) {
            return None;
        }
        before = Some(range);
    }
    Some(ranges)
}

/// Reads a map over the one that is there, and gives 0, or 6 with the map as it was.
pub fn read(map: &mut Map, bytes: &[u8]) -> u8 {
    let Some(ranges) = ranges(bytes) else {
        return 6;
    };
    let count = ranges.len() / RANGE;
    map.count = count;
    for (place, bytes) in ranges.chunks_exact(RANGE).enumerate() {
        (map.starts[place], map.ends[place], map.values[place]) = range(bytes);
    }
    map.starts[count..].fill(0);
    map.ends[count..].fill(0);
    map.values[count..].fill(0);
    0
}
