//! What an entry takes and what it answers, in the numbers and values of 01.

use core::fmt;

/// A timestamp: seconds from its epoch, and nanoseconds that always count forward.
#[derive(Clone, Copy, Debug, PartialEq, Eq)]
pub struct Timestamp {
    pub secs: i64,
    pub nanos: u32,
}

/// A duration: whole seconds and nanoseconds.
#[derive(Clone, Copy, Debug, PartialEq, Eq)]
pub struct Duration {
    pub secs: u64,
    pub nanos: u32,
}

/// The fields of a calendar date with a time of day.
#[derive(Clone, Copy, Debug, PartialEq, Eq)]
pub struct DateTime {
    pub year: i32,
    pub month: u8,
    pub day: u8,
    pub hour: u8,
    pub min: u8,
    pub sec: u8,
    pub nano: u32,
}

/// A refusal of calendar fields, numbers 0 to 6.
#[derive(Clone, Copy, Debug, PartialEq, Eq)]
pub enum DateRefusal {
    InvalidMonth(u8),
    InvalidDayOfMonth(u8),
    InvalidHour(u8),
    InvalidMinute(u8),
    InvalidSecond(u8),
    InvalidNanosecond(u32),
    OutOfRange,
}

/// A refusal of any entry that the Rust has, numbers 0 to 11.
#[derive(Clone, Copy, Debug, PartialEq, Eq)]
pub enum Refusal {
    /// Calendar fields refused by themselves.
    Date(DateRefusal),
    /// Calendar fields refused after a text was read; the number is the inner refusal's.
    RangeError(DateRefusal),
    MissingField,
    InvalidFieldWidth,
    InvalidFieldValue,
    /// The Rust's `OutOfRangeError`, and its `None` everywhere but in `new`.
    NotRepresentable,
    /// The Rust's `None` in `new`.
    BadNanos,
}

/// The outcome of an entry.
#[derive(Clone, Copy, Debug, PartialEq, Eq)]
pub enum Answer<T> {
    Value(T),
    Refused(Refusal),
    /// The input lies outside the domain of the comparison: the Rust has no answer.
    Outside,
}

impl<T> Answer<T> {
    /// The same outcome with its value changed.
    pub fn map<U>(self, change: impl FnOnce(T) -> U) -> Answer<U> {
        match self {
            Answer::Value(value) => Answer::Value(change(value)),
            Answer::Refused(refusal) => Answer::Refused(refusal),
            Answer::Outside => Answer::Outside,
        }
    }
}

impl DateRefusal {
    /// The number in the table of 01.
    pub const fn number(self) -> u8 {
        match self {
            Self::InvalidMonth(_) => 0,
            Self::InvalidDayOfMonth(_) => 1,
            Self::InvalidHour(_) => 2,
            Self::InvalidMinute(_) => 3,
            Self::InvalidSecond(_) => 4,
            Self::InvalidNanosecond(_) => 5,
            Self::OutOfRange => 6,
        }
    }

    /// The name in the table of 01.
    pub const fn name(self) -> &'static str {
        match self {
            Self::InvalidMonth(_) => "InvalidMonth",
            Self::InvalidDayOfMonth(_) => "InvalidDayOfMonth",
            Self::InvalidHour(_) => "InvalidHour",
            Self::InvalidMinute(_) => "InvalidMinute",
            Self::InvalidSecond(_) => "InvalidSecond",
            Self::InvalidNanosecond(_) => "InvalidNanosecond",
            Self::OutOfRange => "OutOfRange",
        }
    }

    /// The field value that was refused, where the refusal carries one.
    pub const fn value(self) -> Option<u32> {
        match self {
            Self::InvalidMonth(field)
            | Self::InvalidDayOfMonth(field)
            | Self::InvalidHour(field)
            | Self::InvalidMinute(field)
            | Self::InvalidSecond(field) => Some(field as u32),
            Self::InvalidNanosecond(nano) => Some(nano),
            Self::OutOfRange => None,
        }
    }
}

impl Refusal {
    /// The number in the table of 01.
    pub const fn number(self) -> u8 {
        match self {
            Self::Date(inner) | Self::RangeError(inner) => inner.number(),
            Self::MissingField => 7,
            Self::InvalidFieldWidth => 8,
            Self::InvalidFieldValue => 9,
            Self::NotRepresentable => 10,
            Self::BadNanos => 11,
        }
    }
}

impl fmt::Display for Timestamp {
    /// The seconds and the nanoseconds, a blank between.
    fn fmt(&self, f: &mut fmt::Formatter<'_>) -> fmt::Result {
        write!(f, "{} {}", self.secs, self.nanos)
    }
}

impl fmt::Display for Duration {
    /// The seconds and the nanoseconds, a blank between.
    fn fmt(&self, f: &mut fmt::Formatter<'_>) -> fmt::Result {
        write!(f, "{} {}", self.secs, self.nanos)
    }
}

impl fmt::Display for DateRefusal {
    /// The name, and the value behind a blank.
    fn fmt(&self, f: &mut fmt::Formatter<'_>) -> fmt::Result {
        f.write_str(self.name())?;
        match self.value() {
            Some(value) => write!(f, " {value}"),
            None => Ok(()),
        }
    }
}

impl fmt::Display for Refusal {
    /// The name and the values, each behind a blank.
    fn fmt(&self, f: &mut fmt::Formatter<'_>) -> fmt::Result {
        match self {
            Self::Date(inner) => inner.fmt(f),
            Self::RangeError(inner) => write!(f, "RangeError {inner}"),
            Self::MissingField => f.write_str("MissingField"),
            Self::InvalidFieldWidth => f.write_str("InvalidFieldWidth"),
            Self::InvalidFieldValue => f.write_str("InvalidFieldValue"),
            Self::NotRepresentable => f.write_str("NotRepresentable"),
            Self::BadNanos => f.write_str("BadNanos"),
        }
    }
}
