//! What rangemap keeps to itself, compiled from its own sources: its traits on ranges.
//! rangemap/build.rs has linked target/rangemap to them.

#[allow(dead_code, unexpected_cfgs)]
pub mod std_ext {
    include!("../../target/rangemap/src/std_ext.rs");
}

#[allow(dead_code, unexpected_cfgs)]
mod operations {
    include!("../../target/rangemap/src/operations.rs");

    // The trait is private to its file, so it is called from in here.
    pub fn intersect(a: &Range<i64>, b: &Range<i64>) -> Option<Range<i64>> {
        a.intersect(b)
    }

    pub fn intersect_inclusive(
        a: &RangeInclusive<i64>,
        b: &RangeInclusive<i64>,
    ) -> Option<RangeInclusive<i64>> {
        a.intersect(b)
    }
}

pub use operations::{intersect, intersect_inclusive};
