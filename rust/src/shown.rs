//! How keys and ranges are told.
use std::fmt::{Display, Formatter, Result};

/// A key, with the ends of the i64 by name.
pub struct Key(pub i64);

impl Display for Key {
    fn fmt(&self, f: &mut Formatter) -> Result {
        /// Keys so near to an end are told by their distance from it.
        const NEAR: u64 = 10_000;
        let (from_min, to_max) = (self.0.abs_diff(i64::MIN), self.0.abs_diff(i64::MAX));
        match (from_min, to_max) {
            (0, _) => f.write_str("min"),
            (_, 0) => f.write_str("max"),
            (from_min, _) if from_min < NEAR => write!(f, "min+{from_min}"),
            (_, to_max) if to_max < NEAR => write!(f, "max-{to_max}"),
            _ => self.0.fmt(f),
        }
    }
}

/// A range as Rust writes it: its dots, and its start and its end.
pub struct Shown(pub &'static str, pub (i64, i64));

impl Display for Shown {
    fn fmt(&self, f: &mut Formatter) -> Result {
        let Shown(dots, (start, end)) = *self;
        write!(f, "{}{dots}{}", Key(start), Key(end))
    }
}
