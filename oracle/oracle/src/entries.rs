//! One function for each entry that 01 takes from the Rust.

use core::cmp::Ordering;
use core::fmt;
use core::time::Duration as RustDuration;

use tai_time::{DateTimeError, MonotonicTime, ParseDateTimeError, TaiTime};

use crate::epochs::over_epoch;
use crate::{Answer, DateRefusal, DateTime, Duration, Refusal, Timestamp};

/// The largest precision in the domain of the comparison.
pub const LARGEST_PRECISION: usize = 1_000;

const NANOS_PER_SEC: u32 = 1_000_000_000;

/// `TaiTime::new`: a timestamp of its parts; any nanoseconds may be asked.
pub fn new(secs: i64, nanos: u32) -> Answer<Timestamp> {
    match MonotonicTime::new(secs, nanos) {
        Some(time) => Answer::Value(parts(time)),
        None => Answer::Refused(Refusal::BadNanos),
    }
}

/// `TaiTime::try_from_date_time`: a timestamp of calendar fields.
///
/// Nano 1,000,000,000 lies outside the domain: the Rust lets it in, 01 refuses it.
pub fn try_from_date_time(epoch: i64, date: DateTime) -> Answer<Timestamp> {
    if date.nano == NANOS_PER_SEC {
        return Answer::Outside;
    }
    over_epoch!(epoch, Time => {
        let made = Time::try_from_date_time(
            date.year, date.month, date.day, date.hour, date.min, date.sec, date.nano,
        );
        match made {
            Ok(time) => Answer::Value(parts(time)),
            Err(error) => Answer::Refused(Refusal::Date(date_refusal(error))),
        }
    })
}

/// `TaiTime::try_from_unix_timestamp`: Unix to timestamp; any nanoseconds may be asked.
pub fn try_from_unix_timestamp(
    epoch: i64,
    secs: i64,
    nanos: u32,
    leap_secs: i64,
) -> Answer<Timestamp> {
    over_epoch!(epoch, Time => representable(
        Time::try_from_unix_timestamp(secs, nanos, leap_secs).ok().map(parts)
    ))
}

/// `TaiTime::as_unix_secs`: timestamp to Unix seconds.
pub fn as_unix_secs(epoch: i64, stamp: Timestamp, leap_secs: i64) -> Answer<i64> {
    over_epoch!(epoch, Time => match Time::new(stamp.secs, stamp.nanos) {
        Some(time) => representable(time.as_unix_secs(leap_secs)),
        None => Answer::Outside,
    })
}

/// `TaiTime::to_tai_time`: the same moment counted from another epoch.
pub fn to_tai_time(from: i64, to: i64, stamp: Timestamp) -> Answer<Timestamp> {
    over_epoch!(from, Old => match Old::new(stamp.secs, stamp.nanos) {
        Some(time) => over_epoch!(to, New => {
            let moved: Option<New> = time.to_tai_time();
            representable(moved.map(parts))
        }),
        None => Answer::Outside,
    })
}

/// `TaiTime::checked_add`: a timestamp and a duration behind it.
pub fn checked_add(stamp: Timestamp, duration: Duration) -> Answer<Timestamp> {
    let (Some(time), Some(duration)) = (time_of(stamp), duration_of(duration)) else {
        return Answer::Outside;
    };
    representable(time.checked_add(duration).map(parts))
}

/// `TaiTime::checked_sub`: a timestamp and a duration before it.
pub fn checked_sub(stamp: Timestamp, duration: Duration) -> Answer<Timestamp> {
    let (Some(time), Some(duration)) = (time_of(stamp), duration_of(duration)) else {
        return Answer::Outside;
    };
    representable(time.checked_sub(duration).map(parts))
}

/// `TaiTime::checked_duration_since`: the first timestamp minus the second.
pub fn checked_duration_since(stamp: Timestamp, earlier: Timestamp) -> Answer<Duration> {
    let (Some(time), Some(earlier)) = (time_of(stamp), time_of(earlier)) else {
        return Answer::Outside;
    };
    representable(
        time.checked_duration_since(earlier)
            .map(|duration| Duration {
                secs: duration.as_secs(),
                nanos: duration.subsec_nanos(),
            }),
    )
}

/// The derived comparison: the first timestamp against the second.
pub fn compare(first: Timestamp, second: Timestamp) -> Answer<Ordering> {
    let (Some(first), Some(second)) = (time_of(first), time_of(second)) else {
        return Answer::Outside;
    };
    Answer::Value(first.cmp(&second))
}

/// `TaiTime::from_str`: a timestamp read from text; only UTF-8 lies in the domain.
pub fn from_str(epoch: i64, text: &[u8]) -> Answer<Timestamp> {
    let Ok(text) = core::str::from_utf8(text) else {
        return Answer::Outside;
    };
    over_epoch!(epoch, Time => match text.parse::<Time>() {
        Ok(time) => Answer::Value(parts(time)),
        Err(error) => Answer::Refused(match error {
            ParseDateTimeError::MissingField => Refusal::MissingField,
            ParseDateTimeError::InvalidFieldWidth => Refusal::InvalidFieldWidth,
            ParseDateTimeError::InvalidFieldValue => Refusal::InvalidFieldValue,
            ParseDateTimeError::RangeError(inner) => Refusal::RangeError(date_refusal(inner)),
        }),
    })
}

/// `Display`: the text of a timestamp, written behind what `out` holds.
///
/// The error is that of `out`; the Rust's own writing has none.
pub fn print<W: fmt::Write>(
    out: &mut W,
    epoch: i64,
    stamp: Timestamp,
    precision: Option<usize>,
) -> Result<Answer<()>, fmt::Error> {
    if precision.is_some_and(|precision| precision > LARGEST_PRECISION) {
        return Ok(Answer::Outside);
    }
    let printed = over_epoch!(epoch, Time => match Time::new(stamp.secs, stamp.nanos) {
        Some(time) => Answer::Value(match precision {
            Some(precision) => write!(out, "{time:.precision$}"),
            None => write!(out, "{time}"),
        }),
        None => Answer::Outside,
    });
    match printed {
        Answer::Value(written) => written.map(Answer::Value),
        Answer::Refused(refusal) => Ok(Answer::Refused(refusal)),
        Answer::Outside => Ok(Answer::Outside),
    }
}

/// The parts of a Rust timestamp.
fn parts<const EPOCH: i64>(time: TaiTime<EPOCH>) -> Timestamp {
    Timestamp {
        secs: time.as_secs(),
        nanos: time.subsec_nanos(),
    }
}

/// The Rust timestamp of these parts, for entries that depend on no epoch.
fn time_of(stamp: Timestamp) -> Option<MonotonicTime> {
    MonotonicTime::new(stamp.secs, stamp.nanos)
}

/// The Rust duration of these parts; its own constructor would carry nanoseconds of 10^9 and more.
fn duration_of(duration: Duration) -> Option<RustDuration> {
    (duration.nanos < NANOS_PER_SEC).then(|| RustDuration::new(duration.secs, duration.nanos))
}

/// The Rust's `None` is 01's NotRepresentable.
pub(crate) fn representable<T>(result: Option<T>) -> Answer<T> {
    match result {
        Some(value) => Answer::Value(value),
        None => Answer::Refused(Refusal::NotRepresentable),
    }
}

/// 01's name for the Rust's refusal of calendar fields.
fn date_refusal(error: DateTimeError) -> DateRefusal {
    match error {
        DateTimeError::InvalidMonth(month) => DateRefusal::InvalidMonth(month),
        DateTimeError::InvalidDayOfMonth(day) => DateRefusal::InvalidDayOfMonth(day),
        DateTimeError::InvalidHour(hour) => DateRefusal::InvalidHour(hour),
        DateTimeError::InvalidMinute(min) => DateRefusal::InvalidMinute(min),
        DateTimeError::InvalidSecond(sec) => DateRefusal::InvalidSecond(sec),
        DateTimeError::InvalidNanosecond(nano) => DateRefusal::InvalidNanosecond(nano),
        DateTimeError::OutOfRange => DateRefusal::OutOfRange,
    }
}
