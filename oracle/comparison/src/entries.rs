//! One case of each entry but the printer: both sides are asked and held against each other.

use oracle::{Answer, DateTime, Duration, Refusal, Timestamp};
use port::{Epoch, LeapOffset, TimeResult, UnixSeconds};

use crate::encode;
use crate::tally::{Entry, Split, Tally};

/// The nanoseconds that the Rust lets in among fields as one too many.
pub const FULL_SECOND: u32 = 1_000_000_000;

pub fn new(tally: &mut Tally, secs: i64, nanos: u32) {
    let rust = encode::time(oracle::new(secs, nanos));
    let port = port::tai_new(secs, nanos);
    tally.hold(Entry::New, rust, port, || format!("new {secs} {nanos}"));
}

/// With nano 1,000,000,000 the port is held against 01: what the Rust says of the next nano, with
/// this one's value.
pub fn try_from_date_time(tally: &mut Tally, epoch: i64, date: DateTime) {
    let DateTime {
        year,
        month,
        day,
        hour,
        min,
        sec,
        nano,
    } = date;
    let mut rust;
    if nano == FULL_SECOND {
        let nano = nano + 1;
        rust = encode::time(oracle::try_from_date_time(epoch, DateTime { nano, ..date }));
        if rust.refusal == 5 {
            rust.value = FULL_SECOND;
            tally.add_split(Split::FullSecond);
        }
    } else {
        rust = encode::time(oracle::try_from_date_time(epoch, date));
    }
    let port = port::tai_try_from_date_time(Epoch(epoch), year, month, day, hour, min, sec, nano);
    tally.hold(Entry::TryFromDateTime, rust, port, || {
        format!("date {epoch} {year} {month} {day} {hour} {min} {sec} {nano}")
    });
}

pub fn try_from_unix_timestamp(tally: &mut Tally, epoch: i64, secs: i64, nanos: u32, leap: i64) {
    let rust = oracle::try_from_unix_timestamp(epoch, secs, nanos, leap);
    let exact = oracle::exact_from_unix(epoch, secs, nanos, leap);
    let wanted = encode::time(or_exact(tally, Split::UnixSum, rust, exact));
    let (over, unix, offset) = (Epoch(epoch), UnixSeconds(secs), LeapOffset(leap));
    let port = port::tai_try_from_unix_timestamp(over, unix, nanos, offset);
    tally.hold(Entry::TryFromUnixTimestamp, wanted, port, || {
        format!("unix {epoch} {secs} {nanos} {leap}")
    });
}

pub fn as_unix_secs(tally: &mut Tally, epoch: i64, stamp: Timestamp, leap: i64) {
    let rust = oracle::as_unix_secs(epoch, stamp, leap);
    let exact = oracle::exact_to_unix(epoch, stamp.secs, leap);
    let wanted = encode::unix(or_exact(tally, Split::ToUnixSum, rust, exact));
    let port = port::tai_as_unix_secs(Epoch(epoch), stamp.secs, stamp.nanos, LeapOffset(leap));
    tally.hold(Entry::AsUnixSecs, wanted, port, || {
        format!("to-unix {epoch} {stamp} {leap}")
    });
}

pub fn to_tai_time(tally: &mut Tally, from: i64, to: i64, stamp: Timestamp) {
    let rust = oracle::to_tai_time(from, to, stamp);
    let exact = oracle::exact_over_epoch(from, to, stamp);
    let wanted = encode::time(or_exact(tally, Split::EpochSum, rust, exact));
    let port = port::tai_to_tai_time(Epoch(from), Epoch(to), stamp.secs, stamp.nanos);
    tally.hold(Entry::ToTaiTime, wanted, port, || {
        format!("epoch {from} {to} {stamp}")
    });
}

/// Where the Rust refuses a conversion, the port is held against 02: the exact sum decides.
fn or_exact<T>(tally: &mut Tally, split: Split, rust: Answer<T>, exact: Answer<T>) -> Answer<T>
where
    T: Copy + PartialEq,
{
    let wanted = oracle::or_exact(rust, exact);
    if wanted != rust {
        tally.add_split(split);
    }
    wanted
}

pub fn checked_add(tally: &mut Tally, stamp: Timestamp, duration: Duration) {
    let rust = encode::time(oracle::checked_add(stamp, duration));
    let port = port::tai_checked_add(stamp.secs, stamp.nanos, duration.secs, duration.nanos);
    tally.hold(Entry::CheckedAdd, rust, port, || {
        format!("add {stamp} {duration}")
    });
}

pub fn checked_sub(tally: &mut Tally, stamp: Timestamp, duration: Duration) {
    let rust = encode::time(oracle::checked_sub(stamp, duration));
    let port = port::tai_checked_sub(stamp.secs, stamp.nanos, duration.secs, duration.nanos);
    tally.hold(Entry::CheckedSub, rust, port, || {
        format!("sub {stamp} {duration}")
    });
}

pub fn checked_duration_since(tally: &mut Tally, stamp: Timestamp, earlier: Timestamp) {
    let rust = encode::duration(oracle::checked_duration_since(stamp, earlier));
    let port =
        port::tai_checked_duration_since(stamp.secs, stamp.nanos, earlier.secs, earlier.nanos);
    tally.hold(Entry::CheckedDurationSince, rust, port, || {
        format!("since {stamp} {earlier}")
    });
}

pub fn cmp(tally: &mut Tally, first: Timestamp, second: Timestamp) {
    let rust = encode::ordering(oracle::compare(first, second));
    let port = port::tai_cmp(first.secs, first.nanos, second.secs, second.nanos);
    tally.hold(Entry::Cmp, rust, port, || {
        format!("compare {first} {second}")
    });
}

/// Where reading reaches a `+` inside a field, the port is held against 02: refused (9).
pub fn from_str(tally: &mut Tally, epoch: i64, text: &str) {
    let (rust, port) = read(epoch, text);
    let mut wanted = rust;
    if oracle::reaches_inner_plus(text.as_bytes()) {
        wanted = encode::time(Answer::Refused(Refusal::InvalidFieldValue));
        if rust.refusal == -1 {
            tally.add_split(Split::PlusAccepted);
        } else if rust != wanted {
            tally.add_split(Split::PlusRefused);
        }
    }
    tally.hold(Entry::FromStr, wanted, port, || shown(epoch, text));
}

/// The default text of a timestamp, read again: the timestamp, if the year is within the limit.
pub fn read_back(tally: &mut Tally, epoch: i64, stamp: Timestamp, text: &str) {
    let (rust, port) = read(epoch, text);
    let limit = i64::from(i32::MAX);
    let wanted = if (-limit..=limit).contains(&encode::moment(text).year) {
        encode::time(Answer::Value(stamp))
    } else {
        rust
    };
    tally.hold(Entry::ReadingBack, (rust, wanted), (port, port), || {
        shown(epoch, text)
    });
}

fn read(epoch: i64, text: &str) -> (TimeResult, TimeResult) {
    (
        encode::time(oracle::from_str(epoch, text.as_bytes())),
        port::from_str(Epoch(epoch), text.as_bytes()),
    )
}

/// A request of the reader, short enough for a screen.
fn shown(epoch: i64, text: &str) -> String {
    let (len, start) = (text.len(), text.chars().take(200));
    let start: String = start.collect();
    match start.len() == len {
        true => format!("read {epoch} {start:?}"),
        false => format!("read {epoch} {start:?}.., {len} bytes"),
    }
}
