//! Times the exported functions beside rangemap: lookups, edits, gaps, a day's report and a query, through both doors, the check alone,
//! intersection and union of sets, which have one door that checks both sets, and the byte form beside the same in Rust. Then what a
//! driver's log asks for: ranges that touch, keys that ascend, the questions of one day, and maps of 20 ranges.
//!
//! Method. Both sides work on the same entries, the same keys and the same edits, which are random and the same in every run.
//! A batch is some hundred or thousand calls. The batches of the doors and of rangemap take turns, so that a slow moment of the
//! machine hits all of them; each figure is the median of all its batches, divided by the calls. A ratio is ours by rangemap's.
//! rangemap is optimised for the processor that rustc takes by default; the static libraries are as they are handed out.
//! Where the two sides do not give the same results, the run stops.
mod bytes;
mod day;
mod lists;
mod logs;
mod maps;
mod pairs;
mod query;
mod report;
mod sets;
mod small;

use beside_rust::maps::kind::{HalfOpen, Inclusive, Kind};
use beside_rust::sets::kind::Set;
use logs::Log;
use std::time::Instant;

/// Batches of each side.
const REPETITIONS: usize = 151;

/// Ranges of the maps that are asked and edited, and of the one whose gaps are listed.
const RANGES: usize = 400;
const GAPS_RANGES: usize = 500;

/// Runs the works in turns, and gives the median of each in nanoseconds a call.
fn race<const N: usize>(calls: usize, mut works: [&mut dyn FnMut(); N]) -> [f64; N] {
    let mut times = [const { Vec::new() }; N];
    for _ in 0..REPETITIONS {
        for (work, times) in works.iter_mut().zip(&mut times) {
            let start = Instant::now();
            work();
            times.push(start.elapsed().as_nanos() as f64 / calls as f64);
        }
    }
    times.map(median)
}

fn median(mut times: Vec<f64>) -> f64 {
    times.sort_by(f64::total_cmp);
    times[times.len() / 2]
}

/// A figure that is wanted, and whether it was met.
struct Wanted {
    what: String,
    most: f64,
    got: f64,
}

fn tell(what: &str, [inner, checked, rust]: [f64; 3]) {
    println!(
        "{what}: unchecked door {inner:.1} ns, ratio {:.2}; checked door {checked:.1} ns, ratio {:.2}; rangemap {rust:.1} ns",
        inner / rust,
        checked / rust
    );
}

/// What has one door: its ratio is given back.
fn tell_one(what: &str, [ours, rust]: [f64; 2], by: &str) -> f64 {
    let ratio = ours / rust;
    println!("{what}: {ours:.1} ns, ratio {ratio:.2}; {by} {rust:.1} ns");
    ratio
}

/// The measures that figures are wanted of.
fn race_kind<K: Kind>(wanted: &mut Vec<Wanted>) {
    maps::race_lookups::<K>(&Log::apart::<K>(RANGES));
    maps::race_edits_wanted::<K>(&Log::apart::<K>(RANGES), wanted);
    maps::race_gaps::<K>(wanted);
    wanted.extend(maps::race_checks::<K>().map(|(what, got)| Wanted {
        what,
        most: 1.5,
        got,
    }));
}

/// What a driver's log asks for: ranges that touch, keys that ascend, one day of many, and maps of few ranges.
fn race_log<K: Kind>() {
    let touching = Log::touching::<K>(RANGES);
    maps::race_check_beside::<K>(&Log::apart::<K>(RANGES));
    maps::race_check_beside::<K>(&touching);
    maps::race_lookups::<K>(&touching);
    maps::race_edits::<K>(&touching);
    maps::race_ascending::<K>(&Log::apart::<K>(RANGES));
    maps::race_ascending::<K>(&touching);
    day::race_days::<K>();
    small::race_small::<K>();
}

fn main() {
    let mut wanted = Vec::new();
    race_kind::<HalfOpen>(&mut wanted);
    race_kind::<Inclusive>(&mut wanted);
    sets::race_sets::<Set<HalfOpen>>(&mut wanted);
    sets::race_sets::<Set<Inclusive>>(&mut wanted);
    bytes::race_bytes(&mut wanted);
    report::race_reports(&mut wanted);
    query::race_queries(&mut wanted);
    race_log::<HalfOpen>();
    race_log::<Inclusive>();
    for Wanted { what, most, got } in wanted {
        let met = if got <= most { "met" } else { "NOT MET" };
        println!("wanted at most {most}: {met}, {got:.2} ({what})");
    }
}
