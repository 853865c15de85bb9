//! Examples from the documentation of the crate tai-time 1.0.0 (`docs/src/src/lib.rs`), licensed MIT OR Apache-2.0 (see
//! `NOTICE`): each that stays within what document 01 takes, its lines unchanged, under the item that it documents.
//!
//! Left out are those of clocks, system time, chrono, operators and forms that panic: of `TaiTime`, `duration_since` and
//! `from_unix_timestamp` the whole example, of `new` and `as_secs` the second half.
#![cfg_attr(rustfmt, rustfmt_skip)]
#![allow(unused_imports, unused_mut, unused_variables, clippy::all, clippy::pedantic)]

#[test]
fn construction_from_date_time_fields_and_date_time_strings() {
    use tai_time::{MonotonicTime, Tai1958Time};

    let t0 = MonotonicTime::try_from_date_time(2222, 11, 11, 12, 34, 56, 789000000).unwrap();

    // The `FromStr` implementation accepts date-time stamps with the format:
    // [±][Y]...[Y]YYYY-MM-DD hh:mm:ss[.d[d]...[d]]
    // or:
    // [±][Y]...[Y]YYYY-MM-DD'T'hh:mm:ss[.d[d]...[d]]
    assert_eq!("2222-11-11 12:34:56.789".parse(), Ok(t0));
}

#[test]
fn formatted_display_as_date_time() {
    use tai_time::MonotonicTime;

    let t0 = MonotonicTime::try_from_date_time(1234, 12, 13, 14, 15, 16, 123456000).unwrap();

    assert_eq!(
        format!("{}", t0),
        "1234-12-13 14:15:16.123456"
    );
    assert_eq!(
        format!("{:.0}", t0),
        "1234-12-13 14:15:16"
    );
    assert_eq!(
        format!("{:.3}", t0),
        "1234-12-13 14:15:16.123"
    );
    assert_eq!(
        format!("{:.9}", t0),
        "1234-12-13 14:15:16.123456000"
    );
}

#[test]
fn monotonic_time() {
    use tai_time::MonotonicTime;

    // Set the timestamp one nanosecond after the 1970 TAI epoch.
    let mut timestamp = MonotonicTime::new(0, 1).unwrap();

    assert_eq!(timestamp, "1970-01-01 00:00:00.000000001".parse().unwrap());
}

#[test]
fn gps_time() {
    use tai_time::GpsTime;

    // Set the timestamp one nanosecond after the GPS epoch.
    let mut timestamp = GpsTime::new(0, 1).unwrap();

    assert_eq!(timestamp, "1980-01-06 00:00:19.000000001".parse().unwrap());
}

#[test]
fn gst_time() {
    use tai_time::GstTime;

    // Set the timestamp one nanosecond after the GST epoch.
    let mut timestamp = GstTime::new(0, 1).unwrap();

    assert_eq!(timestamp, "1999-08-22 00:00:19.000000001".parse().unwrap());
}

#[test]
fn bdt_time() {
    use tai_time::BdtTime;

    // Set the timestamp one nanosecond after the BDT epoch.
    let mut timestamp = BdtTime::new(0, 1).unwrap();

    assert_eq!(timestamp, "2006-01-01 00:00:33.000000001".parse().unwrap());
}

#[test]
fn tai_1958_time() {
    use tai_time::Tai1958Time;

    // Set the timestamp one nanosecond after the 1958 TAI epoch.
    let mut timestamp = Tai1958Time::new(0, 1).unwrap();

    assert_eq!(timestamp, "1958-01-01 00:00:00.000000001".parse().unwrap());
}

#[test]
fn tai_1972_time() {
    use tai_time::Tai1972Time;

    // Set the timestamp one nanosecond after the 1972 TAI epoch.
    let mut timestamp = Tai1972Time::new(0, 1).unwrap();

    assert_eq!(timestamp, "1972-01-01 00:00:00.000000001".parse().unwrap());
}

#[test]
fn new() {
    use std::time::Duration;
    use tai_time::MonotonicTime;

    // A timestamp set to 2009-02-13 23:31:30.987654321 TAI.
    let timestamp = MonotonicTime::new(1_234_567_890, 987_654_321).unwrap();
}

#[test]
fn try_from_date_time() {
    use std::time::Duration;
    use tai_time::MonotonicTime;

    // A timestamp set to 2009-02-13 23:31:30.987654321 TAI.
    let timestamp = MonotonicTime::try_from_date_time(2009, 2, 13, 23, 31, 30, 987_654_321);
    assert_eq!(timestamp, Ok(MonotonicTime::new(1_234_567_890, 987_654_321).unwrap()));
}

#[test]
fn as_secs() {
    use std::time::Duration;
    use tai_time::MonotonicTime;

    let timestamp = MonotonicTime::new(1_234_567_890, 987_654_321).unwrap();
    assert_eq!(timestamp.as_secs(), 1_234_567_890);
}

#[test]
fn subsec_nanos() {
    use tai_time::MonotonicTime;

    let timestamp = MonotonicTime::new(1_234_567_890, 987_654_321).unwrap();
    assert_eq!(timestamp.subsec_nanos(), 987_654_321);
}

#[test]
fn as_unix_secs() {
    use tai_time::MonotonicTime;

    // Set the date to 2000-01-01 00:00:00 TAI.
    let timestamp = MonotonicTime::new(946_684_800, 0).unwrap();

    // Convert to a Unix timestamp, accounting for the +32s difference between
    // TAI and UTC on 2000-01-01.
    assert_eq!(
        timestamp.as_unix_secs(32),
        Some(946_684_768)
    );
}

#[test]
fn to_tai_time() {
    use tai_time::{GpsTime, MonotonicTime};

    // Set the date to 2000-01-01 00:00:00 TAI.
    let timestamp = MonotonicTime::new(946_684_800, 0).unwrap();

    // Convert to a GPS timestamp.
    let gps_timestamp: GpsTime = timestamp.to_tai_time().unwrap();
    assert_eq!(
        gps_timestamp,
        GpsTime::new(630_719_981, 0).unwrap()
    );
}

#[test]
fn checked_add() {
    use std::time::Duration;
    use tai_time::MonotonicTime;

    let timestamp = MonotonicTime::new(1_234_567_890, 987_654_321).unwrap();
    assert!(timestamp.checked_add(Duration::new(10, 123_456_789)).is_some());
    assert!(timestamp.checked_add(Duration::MAX).is_none());
}

#[test]
fn checked_sub() {
    use std::time::Duration;
    use tai_time::MonotonicTime;

    let timestamp = MonotonicTime::new(1_234_567_890, 987_654_321).unwrap();
    assert!(timestamp.checked_sub(Duration::new(10, 123_456_789)).is_some());
    assert!(timestamp.checked_sub(Duration::MAX).is_none());
}

#[test]
fn checked_duration_since() {
    use std::time::Duration;
    use tai_time::MonotonicTime;

    let timestamp_earlier = MonotonicTime::new(1_234_567_879, 987_654_321).unwrap();
    let timestamp_later = MonotonicTime::new(1_234_567_900, 123_456_789).unwrap();
    assert!(timestamp_later.checked_duration_since(timestamp_earlier).is_some());
    assert!(timestamp_earlier.checked_duration_since(timestamp_later).is_none());
}
