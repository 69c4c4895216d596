//! Counts what was compared, part by part, and tells every difference that is not a known one.
use std::fmt::{Arguments, Debug};
use std::process::ExitCode;

/// So many failures are told; the others are only counted.
const TOLD: u64 = 20;

struct Known {
    what: &'static str,
    times: u64,
}

pub struct Report {
    part: String,
    compared_in_part: u64,
    compared: u64,
    failures: u64,
    known: Vec<Known>,
}

impl Report {
    /// `known` lists the differences that are allowed.
    pub fn new(known: &[&'static str]) -> Self {
        Report {
            part: String::new(),
            compared_in_part: 0,
            compared: 0,
            failures: 0,
            known: known.iter().map(|&what| Known { what, times: 0 }).collect(),
        }
    }

    pub fn part(&mut self, name: String) {
        self.end_part();
        self.part = name;
    }

    fn end_part(&mut self) {
        if self.compared_in_part > 0 {
            println!("{}: {} compared", self.part, self.compared_in_part);
        }
        self.compared += self.compared_in_part;
        self.compared_in_part = 0;
    }

    pub fn same<T: PartialEq + Debug>(&mut self, input: Arguments, ours: T, expected: T) {
        self.compared_in_part += 1;
        if ours != expected {
            self.fail(format_args!(
                "{input}: ours {ours:?}, expected {expected:?}"
            ));
        }
    }

    /// Counts a known difference, which is a failure if nobody listed it.
    pub fn known(&mut self, input: Arguments, what: &'static str) {
        match self.known.iter_mut().find(|known| known.what == what) {
            Some(known) => known.times += 1,
            None => self.fail(format_args!("{input}: {what}")),
        }
    }

    /// Tells something about the part that nobody compares.
    pub fn note(&self, what: Arguments) {
        println!("{}: {what}", self.part);
    }

    fn fail(&mut self, what: Arguments) {
        if self.failures < TOLD {
            println!("DIFFERENT {}: {what}", self.part);
        }
        self.failures += 1;
    }

    /// A listed difference that does not occur is a failure too: the list is then wrong.
    fn end_known(&mut self) {
        self.part("known differences".to_string());
        for Known { what, times } in std::mem::take(&mut self.known) {
            println!("known difference, {times} times: {what}");
            if times == 0 {
                self.fail(format_args!("listed, and it did not occur: {what}"));
            }
        }
    }

    /// Prints the sums, and tells whether all is as it should be.
    pub fn finish(mut self) -> bool {
        self.end_known();
        println!(
            "all: {} compared, {} different",
            self.compared, self.failures
        );
        self.compared > 0 && self.failures == 0
    }
}

/// Runs a program on its words: it ends well if all was as it should be.
pub fn run(program: impl FnOnce(&[&str]) -> bool) -> ExitCode {
    let words: Vec<String> = std::env::args().skip(1).collect();
    let words: Vec<&str> = words.iter().map(String::as_str).collect();
    if program(&words) {
        ExitCode::SUCCESS
    } else {
        ExitCode::FAILURE
    }
}
