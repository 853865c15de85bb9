//! What a program written for tai-time relies on: types, arguments, results, and texts of values and errors.

use core::fmt::{Debug, Display};
use core::hash::Hash;
use core::str::FromStr;
use core::time::Duration;

use tai_time::{
    BdtTime, DateTimeError, GpsTime, GstTime, MonotonicTime, OutOfRangeError, ParseDateTimeError,
    Tai1958Time, Tai1972Time, TaiTime,
};

#[test]
fn methods_take_and_give_the_same_types() {
    type Made = Result<GpsTime, DateTimeError>;
    let _: fn(i64, u32) -> Option<GpsTime> = GpsTime::new;
    let _: fn(i32, u8, u8, u8, u8, u8, u32) -> Made = GpsTime::try_from_date_time;
    let _: fn(i64, u32, i64) -> Result<GpsTime, OutOfRangeError> = GpsTime::try_from_unix_timestamp;
    let _: fn(&GpsTime) -> i64 = GpsTime::as_secs;
    let _: fn(&GpsTime) -> u32 = GpsTime::subsec_nanos;
    let _: fn(&GpsTime, i64) -> Option<i64> = GpsTime::as_unix_secs;
    let _: fn(&GpsTime) -> Option<MonotonicTime> = GpsTime::to_tai_time::<0>;
    let _: fn(GpsTime, Duration) -> Option<GpsTime> = GpsTime::checked_add;
    let _: fn(GpsTime, Duration) -> Option<GpsTime> = GpsTime::checked_sub;
    let _: fn(GpsTime, GpsTime) -> Option<Duration> = GpsTime::checked_duration_since;
}

/// Read when the program is compiled.
const ENDS: [(i64, u32); 3] = [
    (GpsTime::MIN.as_secs(), GpsTime::MIN.subsec_nanos()),
    (GpsTime::EPOCH.as_secs(), GpsTime::EPOCH.subsec_nanos()),
    (GpsTime::MAX.as_secs(), GpsTime::MAX.subsec_nanos()),
];

fn timestamp<T>()
where
    T: Copy + Debug + Default + Eq + Hash + Ord + Display + Send + Sync,
    T: FromStr<Err = ParseDateTimeError>,
{
}

fn error<T: Clone + Debug + Display + Eq + Send + Sync>() {}

#[test]
fn types_have_the_same_epochs_constants_and_traits() {
    timestamp::<GpsTime>();
    error::<OutOfRangeError>();
    error::<DateTimeError>();
    error::<ParseDateTimeError>();

    let _: [TaiTime<0>; 2] = [MonotonicTime::EPOCH, MonotonicTime::default()];
    let _: TaiTime<315_964_819> = GpsTime::EPOCH;
    let _: TaiTime<935_280_019> = GstTime::EPOCH;
    let _: TaiTime<1_136_073_633> = BdtTime::EPOCH;
    let _: TaiTime<-378_691_200> = Tai1958Time::EPOCH;
    let _: TaiTime<63_072_000> = Tai1972Time::EPOCH;
    assert_eq!(ENDS, [(i64::MIN, 0), (0, 0), (i64::MAX, 999_999_999)]);
}

#[test]
fn values_and_errors_have_the_same_texts() {
    let time = GpsTime::new(-1, 500_000_000).unwrap();
    assert_eq!(
        format!("{time:?}"),
        "TaiTime { secs: -1, nanos: 500000000 }"
    );
    assert_eq!(format!("[{time:>40}]"), "[1980-01-06 00:00:18.5]");
    let overflow = GpsTime::try_from_unix_timestamp(i64::MIN, 0, 0).unwrap_err();
    assert_eq!(format!("{overflow:?}"), "OutOfRangeError(())");
    assert_eq!(overflow.to_string(), "timestamp out of representable range");
    assert!(matches!(overflow, OutOfRangeError { .. }));

    let texts = [
        (
            DateTimeError::InvalidMonth(13),
            "month numeral '13' is not valid",
        ),
        (
            DateTimeError::InvalidDayOfMonth(0),
            "day of month '0' is not valid for this date",
        ),
        (
            DateTimeError::InvalidHour(24),
            "hour numeral '24' is not valid",
        ),
        (
            DateTimeError::InvalidMinute(60),
            "minute numeral '60' is not valid",
        ),
        (
            DateTimeError::InvalidSecond(60),
            "second numeral '60' is not valid",
        ),
        (
            DateTimeError::InvalidNanosecond(1 << 31),
            "nanosecond value '2147483648' is not valid",
        ),
        (
            DateTimeError::OutOfRange,
            "timestamp outside representable range",
        ),
    ];
    for (error, text) in texts {
        assert_eq!(error.to_string(), text);
        assert_eq!(ParseDateTimeError::RangeError(error).to_string(), text);
    }
    let texts = [
        (
            ParseDateTimeError::InvalidFieldValue,
            "one of the fields is invalid",
        ),
        (
            ParseDateTimeError::InvalidFieldWidth,
            "the width of one of the fields is invalid",
        ),
        (ParseDateTimeError::MissingField, "a fields is missing"),
    ];
    for (error, text) in texts {
        assert_eq!(format!("[{error:50}]"), format!("[{text:50}]"));
    }
}
