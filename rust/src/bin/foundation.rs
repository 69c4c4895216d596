//! Compares module 1, the relations of ranges, with rangemap, and nothing else: what the gate of the foundation runs. `compare.rs` compares all.
use beside_rust::relations;
use beside_rust::report::{run, Report};
use std::process::ExitCode;

fn compare() -> bool {
    let mut report = Report::new(&relations::KNOWN);
    relations::compare(&mut report);
    report.finish()
}

fn main() -> ExitCode {
    run(|words| match words {
        [] => compare(),
        ["replay", "relations"] => {
            print!("{}", relations::replay());
            true
        }
        _ => {
            eprintln!("usage: foundation [replay relations]");
            false
        }
    })
}
