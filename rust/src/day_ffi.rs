//! The functions of a day's report, as the static library has them.
use crate::ffi::Map;

/// What a day's report says.
#[repr(C)]
#[derive(Clone, Copy, Debug)]
pub struct DayReport {
    pub answer: u8,
    pub start: i64,
    pub end: i64,
    pub off_duty: u32,
    pub sleeper_berth: u32,
    pub driving: u32,
    pub on_duty: u32,
    pub unrecorded: u32,
    pub off_duty_hours: f64,
    pub sleeper_berth_hours: f64,
    pub driving_hours: f64,
    pub on_duty_hours: f64,
    pub unrecorded_hours: f64,
}

unsafe extern "C" {
    /// The map is only read; it is a `&mut` here so that the compiler does not take that for granted.
    pub safe fn range_map_day_report(
        m: &mut Map,
        zone: u8,
        year: u16,
        month: u8,
        day: u8,
    ) -> DayReport;
    /// The map must be well formed.
    pub fn range_map_day_report_unchecked(
        m: &mut Map,
        zone: u8,
        year: u16,
        month: u8,
        day: u8,
    ) -> DayReport;
}
