//! Compares the exported functions with rangemap, and what is new, the byte form, the day's report and queries, with models of their own.
use beside_rust::report::{run, Report};
use beside_rust::{bytes, maps, query, relations, report_days, sets, transcription};
use std::process::ExitCode;

/// The differences that are allowed, of all modules.
fn known() -> Vec<&'static str> {
    [&relations::KNOWN[..], &maps::KNOWN[..]].concat()
}

/// How much is compared: in the gate, and in the longer form.
struct Sizes {
    maps: &'static maps::Size,
    sets: &'static sets::Size,
    bytes: usize,
    query: &'static query::Size,
    full: bool,
}

const SHORT: Sizes = Sizes {
    maps: &maps::SHORT,
    sets: &sets::SHORT,
    bytes: bytes::SHORT,
    query: &query::SHORT,
    full: false,
};

const FULL: Sizes = Sizes {
    maps: &maps::FULL,
    sets: &sets::FULL,
    bytes: bytes::FULL,
    query: &query::FULL,
    full: true,
};

fn compare(sizes: &Sizes) -> bool {
    maps::quiet_expected_panics();
    let mut report = Report::new(&known());
    relations::compare(&mut report);
    maps::compare(&mut report, sizes.maps);
    sets::compare(&mut report, sizes.sets);
    bytes::compare(&mut report, sizes.bytes);
    report_days::compare(&mut report, sizes.full);
    query::compare(&mut report, sizes.query);
    report.finish()
}

/// What rangemap answers to the questions that a program of the gate asks, and for queries the model.
fn replay(module: &str) -> bool {
    match module {
        "relations" => print!("{}", relations::replay()),
        "maps" => print!("{}", maps::replay()),
        "set" => print!("{}", sets::replay()),
        "query" => print!("{}", query::replay()),
        "transcription" => print!("{}", transcription::replay()),
        _ => {
            eprintln!("there is no replay of {module}");
            return false;
        }
    }
    true
}

fn main() -> ExitCode {
    run(|words| match words {
        [] => compare(&SHORT),
        ["full"] => compare(&FULL),
        ["replay", module] => replay(module),
        _ => {
            eprintln!("usage: compare [full | replay MODULE]");
            false
        }
    })
}
