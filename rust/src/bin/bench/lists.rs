//! The lists that ranges are written to.
use beside_rust::ffi::{Count, PLACES};
use beside_rust::maps::kind::Ends;
use std::hint::black_box;

/// As many ranges as are ever written.
const LISTED: usize = 2 * PLACES;

pub struct Lists {
    pub starts: [i64; LISTED],
    pub ends: [i64; LISTED],
}

impl Lists {
    pub const EMPTY: Lists = Lists {
        starts: [0; LISTED],
        ends: [0; LISTED],
    };

    /// Lends the lists to one of ours, and gives the number of ranges that it wrote.
    pub fn write(
        &mut self,
        write: impl FnOnce(*mut i64, usize, *mut i64, usize) -> Count,
    ) -> usize {
        let (starts, ends) = (self.starts.as_mut_ptr(), self.ends.as_mut_ptr());
        let count = write(starts, LISTED, ends, LISTED);
        assert_eq!(count.answer, 0);
        black_box(self);
        count.count
    }

    /// Has rangemap's ranges put, and gives their number.
    pub fn put_all(&mut self, put_all: impl FnOnce(&mut Self, &mut usize)) -> usize {
        let mut count = 0;
        put_all(self, &mut count);
        black_box(self);
        count
    }

    pub fn put(&mut self, count: &mut usize, (start, end): Ends) {
        self.starts[*count] = start;
        self.ends[*count] = end;
        *count += 1;
    }

    /// Whether the first ranges are the same.
    pub fn same(&self, other: &Lists, count: usize) -> bool {
        self.starts[..count] == other.starts[..count] && self.ends[..count] == other.ends[..count]
    }
}
