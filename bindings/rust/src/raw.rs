//! The archive's C interface as `bindings/c/records_box.h` declares it, for Rust once: `oracle/port` uses this file too.
//!
//! `refusal` is -1 where a call is accepted, and every other number is a refusal; its `value` or `wanted` stands
//! beside it, and its remaining fields are 0.

/// A reference that seconds count from, in seconds from 1970-01-01 00:00:00 TAI.
#[repr(transparent)]
#[derive(Clone, Copy, Debug, PartialEq, Eq, PartialOrd, Ord, Hash)]
pub struct Epoch(pub i64);

/// TAI minus UTC, in seconds.
#[repr(transparent)]
#[derive(Clone, Copy, Debug, PartialEq, Eq, PartialOrd, Ord, Hash)]
pub struct LeapOffset(pub i64);

/// A count of Unix seconds.
#[repr(transparent)]
#[derive(Clone, Copy, Debug, PartialEq, Eq, PartialOrd, Ord, Hash)]
pub struct UnixSeconds(pub i64);

/// Seconds and nanoseconds; `in_range_error` is 1 where a text was read and its date is refused.
#[repr(C)]
#[derive(Clone, Copy, Debug, PartialEq, Eq)]
pub struct TimeResult {
    pub refusal: i32,
    pub in_range_error: i32,
    pub value: u32,
    pub nanos: u32,
    pub secs: i64,
}

#[repr(C)]
#[derive(Clone, Copy, Debug, PartialEq, Eq)]
pub struct UnixResult {
    pub refusal: i32,
    pub secs: UnixSeconds,
}

#[repr(C)]
#[derive(Clone, Copy, Debug, PartialEq, Eq)]
pub struct DurationResult {
    pub refusal: i32,
    pub nanos: u32,
    pub secs: u64,
}

/// `ordering` is -1, 0 or 1: the first is earlier, the same, later.
#[repr(C)]
#[derive(Clone, Copy, Debug, PartialEq, Eq)]
pub struct OrderingResult {
    pub refusal: i32,
    pub ordering: i32,
}

/// `wanted` is the length of a text that had no room, else 0.
#[repr(C)]
#[derive(Clone, Copy, Debug, PartialEq, Eq)]
pub struct LengthResult {
    pub refusal: i32,
    pub wanted: u32,
    pub length: usize,
}

#[repr(C)]
#[derive(Clone, Copy, Debug, PartialEq, Eq)]
pub struct MomentResult {
    pub year: i64,
    pub month: u8,
    pub day: u8,
    pub hour: u8,
    pub minute: u8,
    pub second: u8,
}

// SAFETY: these are the archive's entries with their types. Those marked safe take numbers, and any numbers.
unsafe extern "C" {
    pub safe fn tai_new(secs: i64, nanos: u32) -> TimeResult;
    pub safe fn tai_try_from_date_time(
        epoch: Epoch,
        year: i32,
        month: u8,
        day: u8,
        hour: u8,
        min: u8,
        sec: u8,
        nano: u32,
    ) -> TimeResult;
    pub safe fn tai_try_from_unix_timestamp(
        epoch: Epoch,
        secs: UnixSeconds,
        nanos: u32,
        leap: LeapOffset,
    ) -> TimeResult;
    pub safe fn tai_as_unix_secs(
        epoch: Epoch,
        secs: i64,
        nanos: u32,
        leap: LeapOffset,
    ) -> UnixResult;
    pub safe fn tai_to_tai_time(
        old_epoch: Epoch,
        new_epoch: Epoch,
        secs: i64,
        nanos: u32,
    ) -> TimeResult;
    pub safe fn tai_checked_add(
        secs: i64,
        nanos: u32,
        duration_secs: u64,
        duration_nanos: u32,
    ) -> TimeResult;
    pub safe fn tai_checked_sub(
        secs: i64,
        nanos: u32,
        duration_secs: u64,
        duration_nanos: u32,
    ) -> TimeResult;
    pub safe fn tai_checked_duration_since(
        secs: i64,
        nanos: u32,
        earlier_secs: i64,
        earlier_nanos: u32,
    ) -> DurationResult;
    pub safe fn tai_cmp(secs: i64, nanos: u32, other_secs: i64, other_nanos: u32)
    -> OrderingResult;
    fn tai_from_str(epoch: Epoch, text: *const u8, text_len: usize) -> TimeResult;
    fn tai_display(
        epoch: Epoch,
        secs: i64,
        nanos: u32,
        given: i32,
        digits: usize,
        line: *mut u8,
        line_len: usize,
        at: usize,
    ) -> LengthResult;
    pub safe fn tai_secs_to_date_time(epoch: Epoch, secs: i64) -> MomentResult;
}

/// `tai_from_str` of any bytes.
#[inline]
pub fn from_str(epoch: Epoch, text: &[u8]) -> TimeResult {
    // SAFETY: the pointer and the length are those of a live slice, whose bytes alone are read.
    unsafe { tai_from_str(epoch, text.as_ptr(), text.len()) }
}

/// `tai_display` into any line.
#[inline]
pub fn display(
    epoch: Epoch,
    secs: i64,
    nanos: u32,
    precision: Option<usize>,
    line: &mut [u8],
    at: usize,
) -> LengthResult {
    let (given, digits) = precision.map_or((0, 0), |digits| (1, digits));
    let (start, len) = (line.as_mut_ptr(), line.len());
    // SAFETY: the pointer and the length are those of a live slice that nobody else uses, whose bytes alone are written.
    unsafe { tai_display(epoch, secs, nanos, given, digits, start, len, at) }
}
