//! The bytes that are asked as queries: some that are written down, all short ones, those at the limits, and random ones.
use super::model::{BYTES, OPEN};
use crate::maps::random::Random;

/// Every byte that a query can have, with two digits, and two bytes that none can have.
pub const SYMBOLS: [&[u8]; 11] = [
    b"A", b"B", b"0", b"3", b"!", b"&", b"|", b"(", b")", b"C", b" ",
];

/// Two atoms, and every mark.
pub const TOKENS: [&[u8]; 7] = [b"A0", b"B3", b"!", b"&", b"|", b"(", b")"];

/// Some queries with two values, and one text that is none.
pub const SOME: [&[u8]; 14] = [
    b"A0",
    b"B3",
    b"!A3",
    b"A3&!B3",
    b"A0|B0",
    b"A0&B3|A3&B0",
    b"A0|B3&A3|B0",
    b"!A0&B3",
    b"!(A0|B3)",
    b"(A0|A3)&(B0|B3)",
    b"A1",
    b"A0|!A0",
    b"A0&!A0",
    b"A3&",
];

/// Document 01's cases, and others that its words decide: what is asked, and the answer.
pub fn documented() -> Vec<(Vec<u8>, u8)> {
    let marks = |count| [vec![b'!'; count], b"A3".to_vec()].concat();
    let groups = |count| [vec![b'('; count], b"A3".to_vec(), vec![b')'; count]].concat();
    let written: [(&[u8], u8); 24] = [
        (b"A3&!B1", 0),
        (b"A3&", 7),
        (b"A", 7),
        (b"", 7),
        (b"A12", 7),
        (b"A3 ", 7),
        (b" A3", 7),
        (b"a3", 7),
        (b"C3", 7),
        (b"3A", 7),
        (b"A3B1", 7),
        (b"A3!", 7),
        (b"A3!B1", 7),
        (b"!", 7),
        (b"()", 7),
        (b"(A3", 7),
        (b"A3)", 7),
        (b"(A3)(B1)", 7),
        (b"A3&&B1", 7),
        (b"A3&|B1", 7),
        (b"|A3", 7),
        (b"A3\0", 7),
        (b"!!(A3)", 0),
        (b"!(!A3&B1|(A0))", 0),
    ];
    let written = written.map(|(text, answer)| (text.to_vec(), answer));
    let limits = [
        (marks(OPEN), 0),
        (marks(OPEN + 1), 7),
        (groups(OPEN), 0),
        (groups(OPEN + 1), 7),
    ];
    written.into_iter().chain(limits).collect()
}

/// Every text up to so many of these parts.
pub fn every<'a>(parts: &'a [&[u8]], most: u32) -> impl Iterator<Item = Vec<u8>> + 'a {
    let base = parts.len();
    let part = move |number: usize, place| parts[number / base.pow(place) % base];
    let text = move |number, length| (0..length).flat_map(|i| part(number, i)).copied().collect();
    (0..=most).flat_map(move |length| (0..base.pow(length)).map(move |number| text(number, length)))
}

/// The operand behind marks of each sort: a bit of the number chooses between `!` and `(`.
fn behind(count: usize, sorts: usize, operand: &[u8]) -> Vec<u8> {
    let mut text = operand.to_vec();
    for mark in 0..count {
        if sorts >> mark & 1 == 0 {
            text.insert(0, b'!');
        } else {
            text.insert(0, b'(');
            text.push(b')');
        }
    }
    text
}

/// Texts that are spelt well, of every length up to some over the most bytes, and with every number of open marks up to some over the most.
pub fn at_limits() -> Vec<Vec<u8>> {
    let mut texts = Vec::new();
    for length in 2..BYTES + 8 {
        for joined in [b"&B3", b"|B3"] {
            let (parts, marks) = ((length - 2) / 3, (length - 2) % 3);
            let chain = [b"A0".to_vec(), joined.repeat(parts)].concat();
            texts.push(behind(marks, 0, &chain));
        }
    }
    let all_sorts = [0, usize::MAX, 0x5555, 0xAAAA, 0xFF, 0xFF00, 1, 1 << OPEN];
    for count in 0..OPEN + 5 {
        for sorts in all_sorts {
            texts.push(behind(count, sorts, b"B3"));
            texts.push(behind(count, sorts, b"(A0|B3)"));
            texts.push(behind(count, sorts, b"A0&!B3"));
        }
        // Marks that were closed are open no more.
        let one = behind(count, 0, b"A3");
        texts.push([&one[..], b"&", &one[..]].concat());
        texts.push([&one[..], b"|!B0&", &one[..]].concat());
        texts.push([&b"("[..], &one[..], b")|", &one[..]].concat());
        texts.push([&one[..], b"&(!A0|", &one[..], b")"].concat());
        texts.push([&b"(A0)&((B3))|"[..], &one[..]].concat());
    }
    // Many more marks than can be open at once, each closed before the next.
    texts.push(b"!A0|!A3|!B0|!B3|".repeat(4)[..63].to_vec());
    texts.push(b"!!A0&!!B3|(!B0)|(A3)&".repeat(3)[..62].to_vec());
    texts
}

fn random_atom(random: &mut Random) -> Vec<u8> {
    let digits = if random.once_in(4) { 10 } else { 2 };
    vec![b"AB"[random.below(2)], b'0' + random.below(digits) as u8]
}

/// Up to so many marks inside each other.
fn random_part(random: &mut Random, depth: usize) -> Vec<u8> {
    match random.below(5) {
        0 | 1 if depth > 0 => [&b"!"[..], &random_part(random, depth - 1)].concat(),
        2 if depth > 0 => {
            let inner = random_joined(random, depth - 1);
            [&b"("[..], &inner, b")"].concat()
        }
        _ => random_atom(random),
    }
}

fn random_joined(random: &mut Random, depth: usize) -> Vec<u8> {
    let mut text = random_part(random, depth);
    while random.once_in(2) {
        text.push(b"&|"[random.below(2)]);
        text.extend(random_part(random, depth));
    }
    text
}

/// A byte more, a byte less, or another byte.
fn change(random: &mut Random, text: &mut Vec<u8>) {
    let place = random.below(text.len());
    let symbol = SYMBOLS[random.below(SYMBOLS.len())][0];
    match random.below(3) {
        0 => text.insert(place, symbol),
        1 => text[place] = symbol,
        _ => {
            text.remove(place);
        }
    }
}

/// Texts that are mostly spelt well, many of them as long or as deep as can be, and some beyond that.
pub fn random(random: &mut Random) -> Vec<u8> {
    let depth = random.below(6);
    let mut text = random_joined(random, depth);
    if random.once_in(2) {
        // As long as can be.
        let length = BYTES - 8 + random.below(12);
        while text.len() < length {
            text.push(b"&|"[random.below(2)]);
            text.extend(random_part(random, 2));
        }
    } else if random.once_in(2) {
        // As deep as can be.
        let count = OPEN - 4 + random.below(6);
        text = behind(count, random.below(1 << 20), &random_part(random, 2));
    }
    if random.once_in(6) {
        change(random, &mut text);
    }
    text
}
