//! The byte form of a full map, beside the model in Rust. Both check what they are lent.
use crate::logs::Log;
use crate::{race, tell_one, Wanted};
use beside_rust::bytes::model;
use beside_rust::ffi::{range_map_read, range_map_write, Map, PLACES};
use beside_rust::maps::kind::HalfOpen;
use std::hint::black_box;

const CALLS: usize = 200;

pub fn race_bytes(wanted: &mut Vec<Wanted>) {
    let full = Map::of(&Log::apart::<HalfOpen>(PLACES).entries);
    let form = race_writers(&full, wanted);
    race_readers(&full, &form, wanted);
}

/// What both write is given back.
fn race_writers(full: &Map, wanted: &mut Vec<Wanted>) -> Vec<u8> {
    let (mut map, lent) = (full.clone(), full.clone());
    let (mut one, mut other) = (vec![0; model::MOST], vec![0; model::MOST]);
    let times = race(
        CALLS,
        [
            &mut || {
                for _ in 0..CALLS {
                    let out = black_box(&mut one);
                    // SAFETY: the output is there.
                    let count = unsafe {
                        range_map_write(black_box(&mut map), out.as_mut_ptr(), out.len())
                    };
                    assert_eq!(count.count, model::MOST);
                }
            },
            &mut || {
                for _ in 0..CALLS {
                    let written = model::write(black_box(&lent), black_box(&mut other));
                    assert_eq!(written, Ok(model::MOST));
                }
            },
        ],
    );
    assert_eq!(one, other);
    tell_bytes("writing", times, wanted);
    one
}

fn race_readers(full: &Map, form: &[u8], wanted: &mut Vec<Wanted>) {
    let (one, other) = (form.to_vec(), form.to_vec());
    let (mut read, mut read_by_rust) = (Map::EMPTY, Map::EMPTY);
    let times = race(
        CALLS,
        [
            &mut || {
                for _ in 0..CALLS {
                    let bytes = black_box(&one);
                    // SAFETY: the bytes are there.
                    let answer = unsafe {
                        range_map_read(black_box(&mut read), bytes.as_ptr(), bytes.len())
                    };
                    assert_eq!(answer, 0);
                }
            },
            &mut || {
                for _ in 0..CALLS {
                    let answer = model::read(black_box(&mut read_by_rust), black_box(&other));
                    assert_eq!(answer, 0);
                }
            },
        ],
    );
    assert!(read == *full && read_by_rust == *full);
    tell_bytes("reading", times, wanted);
}

fn tell_bytes(name: &str, times: [f64; 2], wanted: &mut Vec<Wanted>) {
    let what = format!("byte form, {name} {PLACES} ranges");
    let got = tell_one(&what, times, "the same in Rust");
    wanted.push(Wanted {
        what: format!("{what}, ratio"),
        most: 1.5,
        got,
    });
}
