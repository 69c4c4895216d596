//! The exported functions, as Rust sees them. No other file names them.

/// The answer of contains, overlaps and touches.
#[repr(C)]
#[derive(Clone, Copy, Debug, PartialEq, Eq)]
pub struct Related {
    pub answer: u8,
    /// A bool, read as a byte so that anything but 0 and 1 would show.
    pub yes: u8,
}

/// The answer of intersect.
#[repr(C)]
#[derive(Clone, Copy, Debug, PartialEq, Eq)]
pub struct Intersected {
    pub answer: u8,
    pub start: i64,
    pub end: i64,
}

pub type Contains = extern "C" fn(i64, i64, i64) -> Related;
pub type Relates = extern "C" fn(i64, i64, i64, i64) -> Related;
pub type Intersects = extern "C" fn(i64, i64, i64, i64) -> Intersected;

// Each function takes any numbers and no memory, so a call needs no care.
unsafe extern "C" {
    pub safe fn range_contains(start: i64, end: i64, key: i64) -> Related;
    pub safe fn range_overlaps(start: i64, end: i64, other_start: i64, other_end: i64) -> Related;
    pub safe fn range_touches(start: i64, end: i64, other_start: i64, other_end: i64) -> Related;
    pub safe fn range_intersect(
        start: i64,
        end: i64,
        other_start: i64,
        other_end: i64,
    ) -> Intersected;

    pub safe fn range_inclusive_contains(start: i64, end: i64, key: i64) -> Related;
    pub safe fn range_inclusive_overlaps(
        start: i64,
        end: i64,
        other_start: i64,
        other_end: i64,
    ) -> Related;
    pub safe fn range_inclusive_touches(
        start: i64,
        end: i64,
        other_start: i64,
        other_end: i64,
    ) -> Related;
    pub safe fn range_inclusive_intersect(
        start: i64,
        end: i64,
        other_start: i64,
        other_end: i64,
    ) -> Intersected;
}

/// How many places a map or a set has.
pub const PLACES: usize = 512;

/// A map or a set of either kind, as it is lent. It has no padding, so two are equal when all their bytes are.
#[repr(C)]
#[derive(Clone, PartialEq, Eq)]
pub struct Map {
    pub count: usize,
    pub starts: [i64; PLACES],
    pub ends: [i64; PLACES],
    pub values: [u8; PLACES],
}

/// Yes or no.
#[repr(C)]
#[derive(Clone, Copy, Debug, PartialEq, Eq)]
pub struct Told {
    pub answer: u8,
    /// A bool, read as a byte.
    pub yes: u8,
}

#[repr(C)]
#[derive(Clone, Copy, Debug, PartialEq, Eq)]
pub struct Count {
    pub answer: u8,
    pub count: usize,
}

/// A stored range and its value.
#[repr(C)]
#[derive(Clone, Copy, Debug, PartialEq, Eq)]
pub struct Range {
    pub answer: u8,
    pub start: i64,
    pub end: i64,
    pub value: u8,
}

/// A consecutive part of the places.
#[repr(C)]
#[derive(Clone, Copy, Debug, PartialEq, Eq)]
pub struct Stretch {
    pub answer: u8,
    pub place: usize,
    pub count: usize,
}

#[repr(C)]
#[derive(Clone, Copy, Debug, PartialEq, Eq)]
pub struct Order {
    pub answer: u8,
    pub order: i8,
}

/// How a bulk insert went.
#[repr(C)]
#[derive(Clone, Copy, Debug, PartialEq, Eq)]
pub struct Applied {
    pub answer: u8,
    pub applied: usize,
}

/// How many keys a set covers.
#[repr(C)]
#[derive(Clone, Copy, Debug, PartialEq, Eq)]
pub struct Total {
    pub answer: u8,
    pub total: u64,
}

// The byte form of a half-open map. Each takes a list, and so is unsafe here.
unsafe extern "C" {
    pub fn range_map_write(m: &mut Map, out: *mut u8, out_length: usize) -> Count;
    pub fn range_map_read(m: &mut Map, bytes: *const u8, bytes_length: usize) -> u8;
}

/// The bytes of a query are a list too, and stand before the two lists that the ranges are written to.
pub type Query = unsafe extern "C" fn(
    &mut Map,
    &mut Map,
    i64,
    i64,
    *const u8,
    usize,
    *mut i64,
    usize,
    *mut i64,
    usize,
) -> Count;
pub type QueryAt =
    unsafe extern "C" fn(&mut Map, &mut Map, i64, i64, *const u8, usize, i64) -> Told;

/// A query over two half-open maps: its ranges in a window, and whether one instant is in them.
pub struct Queries {
    pub list: Query,
    pub at: QueryAt,
}

macro_rules! queries {
    ($list:literal, $at:literal) => {{
        unsafe extern "C" {
            #[link_name = $list]
            fn list(
                a: &mut Map,
                b: &mut Map,
                start: i64,
                end: i64,
                bytes: *const u8,
                bytes_length: usize,
                out_starts: *mut i64,
                out_starts_length: usize,
                out_ends: *mut i64,
                out_ends_length: usize,
            ) -> Count;
            #[link_name = $at]
            fn at(
                a: &mut Map,
                b: &mut Map,
                start: i64,
                end: i64,
                bytes: *const u8,
                bytes_length: usize,
                key: i64,
            ) -> Told;
        }
        Queries { list, at }
    }};
}

pub const QUERIES: Queries = queries!("range_map_query", "range_map_query_at");
/// Only for well-formed maps.
pub const QUERIES_UNCHECKED: Queries =
    queries!("range_map_query_unchecked", "range_map_query_at_unchecked");

pub type Gaps = unsafe extern "C" fn(&mut Map, i64, i64, *mut i64, usize, *mut i64, usize) -> Count;
pub type Insert = extern "C" fn(&mut Map, i64, i64, u8) -> u8;
pub type Extend = unsafe extern "C" fn(
    &mut Map,
    *const i64,
    usize,
    *const i64,
    usize,
    *const u8,
    usize,
) -> Applied;

pub type Combine =
    unsafe extern "C" fn(&mut Map, &mut Map, *mut i64, usize, *mut i64, usize) -> Count;

/// The functions of one kind of map or set. Each lent map is a `&mut` here, also where it is only read:
/// else the compiler would take for granted that it stays as it was.
/// A function is unsafe here where it takes a list, or a map that it does not check.
pub struct Functions {
    pub new: extern "C" fn() -> Map,
    pub clear: extern "C" fn(&mut Map),
    pub is_empty: extern "C" fn(&mut Map) -> Told,
    pub len: extern "C" fn(&mut Map) -> Count,
    pub first: extern "C" fn(&mut Map) -> Range,
    pub last: extern "C" fn(&mut Map) -> Range,
    pub range_at: extern "C" fn(&mut Map, usize) -> Range,
    pub get: extern "C" fn(&mut Map, i64) -> Range,
    pub contains: extern "C" fn(&mut Map, i64) -> Told,
    pub insert: Insert,
    pub remove: extern "C" fn(&mut Map, i64, i64) -> u8,
    pub overlapping: extern "C" fn(&mut Map, i64, i64) -> Stretch,
    pub overlaps: extern "C" fn(&mut Map, i64, i64) -> Told,
    pub gaps: Gaps,
    pub eq: extern "C" fn(&mut Map, &mut Map) -> Told,
    pub cmp: extern "C" fn(&mut Map, &mut Map) -> Order,
    pub extend: Extend,
    /// The check alone, as a byte.
    pub well_formed: extern "C" fn(&mut Map) -> u8,
    /// Only maps have unchecked doors.
    pub inner: Option<Inner>,
}

/// The same without the check.
#[derive(Clone, Copy)]
pub struct Inner {
    pub get: unsafe extern "C" fn(&mut Map, i64) -> Range,
    pub insert: unsafe extern "C" fn(&mut Map, i64, i64, u8) -> u8,
    pub remove: unsafe extern "C" fn(&mut Map, i64, i64) -> u8,
    pub gaps: Gaps,
}

/// The functions that maps and sets share, some of them under two names. The others are given.
macro_rules! functions {
    (
        $prefix:literal,
        [$first:literal, $last:literal, $get:literal, $contains:literal],
        $insert:ident,
        $extend:ident,
        $inner:expr
    ) => {{
        unsafe extern "C" {
            #[link_name = concat!($prefix, "new")]
            safe fn new() -> Map;
            #[link_name = concat!($prefix, "clear")]
            safe fn clear(m: &mut Map);
            #[link_name = concat!($prefix, "is_empty")]
            safe fn is_empty(m: &mut Map) -> Told;
            #[link_name = concat!($prefix, "len")]
            safe fn len(m: &mut Map) -> Count;
            #[link_name = concat!($prefix, $first)]
            safe fn first(m: &mut Map) -> Range;
            #[link_name = concat!($prefix, $last)]
            safe fn last(m: &mut Map) -> Range;
            #[link_name = concat!($prefix, "range_at")]
            safe fn range_at(m: &mut Map, place: usize) -> Range;
            #[link_name = concat!($prefix, $get)]
            safe fn get(m: &mut Map, key: i64) -> Range;
            #[link_name = concat!($prefix, $contains)]
            safe fn contains(m: &mut Map, key: i64) -> Told;
            #[link_name = concat!($prefix, "remove")]
            safe fn remove(m: &mut Map, start: i64, end: i64) -> u8;
            #[link_name = concat!($prefix, "overlapping")]
            safe fn overlapping(m: &mut Map, start: i64, end: i64) -> Stretch;
            #[link_name = concat!($prefix, "overlaps")]
            safe fn overlaps(m: &mut Map, start: i64, end: i64) -> Told;
            #[link_name = concat!($prefix, "gaps")]
            fn gaps(
                m: &mut Map,
                start: i64,
                end: i64,
                out_starts: *mut i64,
                out_starts_length: usize,
                out_ends: *mut i64,
                out_ends_length: usize,
            ) -> Count;
            #[link_name = concat!($prefix, "eq")]
            safe fn eq(m: &mut Map, other: &mut Map) -> Told;
            #[link_name = concat!($prefix, "cmp")]
            safe fn cmp(m: &mut Map, other: &mut Map) -> Order;
            #[link_name = concat!($prefix, "well_formed")]
            safe fn well_formed(m: &mut Map) -> u8;
        }
        Functions {
            new,
            clear,
            is_empty,
            len,
            first,
            last,
            range_at,
            get,
            contains,
            insert: $insert,
            remove,
            overlapping,
            overlaps,
            gaps,
            eq,
            cmp,
            extend: $extend,
            well_formed,
            inner: $inner,
        }
    }};
}

macro_rules! map_functions {
    ($prefix:literal) => {{
        unsafe extern "C" {
            #[link_name = concat!($prefix, "insert")]
            safe fn insert(m: &mut Map, start: i64, end: i64, value: u8) -> u8;
            #[link_name = concat!($prefix, "extend")]
            fn extend(
                m: &mut Map,
                starts: *const i64,
                starts_length: usize,
                ends: *const i64,
                ends_length: usize,
                values: *const u8,
                values_length: usize,
            ) -> Applied;
            #[link_name = concat!($prefix, "get_key_value_unchecked")]
            fn get_unchecked(m: &mut Map, key: i64) -> Range;
            #[link_name = concat!($prefix, "insert_unchecked")]
            fn insert_unchecked(m: &mut Map, start: i64, end: i64, value: u8) -> u8;
            #[link_name = concat!($prefix, "remove_unchecked")]
            fn remove_unchecked(m: &mut Map, start: i64, end: i64) -> u8;
            #[link_name = concat!($prefix, "gaps_unchecked")]
            fn gaps_unchecked(
                m: &mut Map,
                start: i64,
                end: i64,
                out_starts: *mut i64,
                out_starts_length: usize,
                out_ends: *mut i64,
                out_ends_length: usize,
            ) -> Count;
        }
        functions!(
            $prefix,
            [
                "first_range_value",
                "last_range_value",
                "get_key_value",
                "contains_key"
            ],
            insert,
            extend,
            Some(Inner {
                get: get_unchecked,
                insert: insert_unchecked,
                remove: remove_unchecked,
                gaps: gaps_unchecked,
            })
        )
    }};
}

pub const RANGE_MAP: Functions = map_functions!("range_map_");
pub const RANGE_INCLUSIVE_MAP: Functions = map_functions!("range_inclusive_map_");

/// Sets take no values: what is lent as one has to be 0, and lists of them are not looked at.
macro_rules! set_functions {
    ($prefix:literal) => {{
        unsafe extern "C" {
            #[link_name = concat!($prefix, "insert")]
            safe fn insert_range(m: &mut Map, start: i64, end: i64) -> u8;
            #[link_name = concat!($prefix, "extend")]
            fn extend_ranges(
                m: &mut Map,
                starts: *const i64,
                starts_length: usize,
                ends: *const i64,
                ends_length: usize,
            ) -> Applied;
        }
        extern "C" fn insert(m: &mut Map, start: i64, end: i64, value: u8) -> u8 {
            assert_eq!(value, 0, "a set has no values");
            insert_range(m, start, end)
        }
        unsafe extern "C" fn extend(
            m: &mut Map,
            starts: *const i64,
            starts_length: usize,
            ends: *const i64,
            ends_length: usize,
            _values: *const u8,
            _values_length: usize,
        ) -> Applied {
            // SAFETY: the lists are the caller's.
            unsafe { extend_ranges(m, starts, starts_length, ends, ends_length) }
        }
        functions!(
            $prefix,
            ["first", "last", "get", "contains"],
            insert,
            extend,
            None
        )
    }};
}

pub const RANGE_SET: Functions = set_functions!("range_set_");
pub const RANGE_INCLUSIVE_SET: Functions = set_functions!("range_inclusive_set_");

/// What only sets have.
pub struct Operations {
    pub intersection: Combine,
    pub union: Combine,
    pub total: extern "C" fn(&mut Map) -> Total,
}

macro_rules! operations {
    ($prefix:literal) => {{
        unsafe extern "C" {
            #[link_name = concat!($prefix, "intersection")]
            fn intersection(
                m: &mut Map,
                other: &mut Map,
                out_starts: *mut i64,
                out_starts_length: usize,
                out_ends: *mut i64,
                out_ends_length: usize,
            ) -> Count;
            #[link_name = concat!($prefix, "union")]
            fn union(
                m: &mut Map,
                other: &mut Map,
                out_starts: *mut i64,
                out_starts_length: usize,
                out_ends: *mut i64,
                out_ends_length: usize,
            ) -> Count;
            #[link_name = concat!($prefix, "total")]
            safe fn total(m: &mut Map) -> Total;
        }
        Operations {
            intersection,
            union,
            total,
        }
    }};
}

pub const RANGE_SET_OPERATIONS: Operations = operations!("range_set_");
pub const RANGE_INCLUSIVE_SET_OPERATIONS: Operations = operations!("range_inclusive_set_");
