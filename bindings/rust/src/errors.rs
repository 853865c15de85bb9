//! The refusals, with the names and texts of tai-time's errors, its slip in one of them included.

use core::error::Error;
use core::fmt;

use crate::Epoch;

/// A result that no timestamp or duration holds (refusal 10).
#[derive(Clone, Copy, Debug, PartialEq, Eq)]
pub struct OutOfRangeError(pub(crate) ());

/// Calendar fields that are refused (0 to 6), each with the value that was wrong.
#[derive(Clone, Copy, Debug, PartialEq, Eq)]
pub enum DateTimeError {
    /// The month is not between 1 and 12.
    InvalidMonth(u8),
    /// The day is 0 or past the month's end.
    InvalidDayOfMonth(u8),
    /// The hour is above 23.
    InvalidHour(u8),
    /// The minute is above 59.
    InvalidMinute(u8),
    /// The second is above 59.
    InvalidSecond(u8),
    /// The nanoseconds are 10^9 or more.
    InvalidNanosecond(u32),
    /// No timestamp over this epoch reads as the date.
    OutOfRange,
}

/// A text that is refused (7 to 9), or whose date is.
#[derive(Clone, Copy, Debug, PartialEq, Eq)]
pub enum ParseDateTimeError {
    /// Anything but digits in a field of the right width or behind the point, or a year that is too large.
    InvalidFieldValue,
    /// A field has the wrong width.
    InvalidFieldWidth,
    /// A delimiter is absent, or nothing follows the point.
    MissingField,
    /// The text was read, and its date is refused.
    RangeError(DateTimeError),
}

/// A line that has no place for a text (12, 13).
#[derive(Clone, Copy, Debug, PartialEq, Eq)]
pub enum PrintError {
    /// The place lies beyond the line's length.
    StartOutside,
    /// The text is longer than what is left of the line.
    NoRoom {
        /// The length of the text: as many bytes from the same place on are enough.
        wanted: usize,
    },
}

/// A stamp over another epoch than the type names.
#[derive(Clone, Copy, Debug, PartialEq, Eq)]
pub struct EpochMismatchError {
    pub(crate) given: Epoch,
    pub(crate) wanted: Epoch,
}

impl fmt::Display for OutOfRangeError {
    fn fmt(&self, f: &mut fmt::Formatter<'_>) -> fmt::Result {
        "timestamp out of representable range".fmt(f)
    }
}

impl fmt::Display for DateTimeError {
    fn fmt(&self, f: &mut fmt::Formatter<'_>) -> fmt::Result {
        match self {
            Self::InvalidMonth(month) => write!(f, "month numeral '{month}' is not valid"),
            Self::InvalidDayOfMonth(day) => {
                write!(f, "day of month '{day}' is not valid for this date")
            }
            Self::InvalidHour(hour) => write!(f, "hour numeral '{hour}' is not valid"),
            Self::InvalidMinute(min) => write!(f, "minute numeral '{min}' is not valid"),
            Self::InvalidSecond(sec) => write!(f, "second numeral '{sec}' is not valid"),
            Self::InvalidNanosecond(nano) => write!(f, "nanosecond value '{nano}' is not valid"),
            Self::OutOfRange => "timestamp outside representable range".fmt(f),
        }
    }
}

impl fmt::Display for ParseDateTimeError {
    fn fmt(&self, f: &mut fmt::Formatter<'_>) -> fmt::Result {
        match self {
            Self::InvalidFieldValue => "one of the fields is invalid".fmt(f),
            Self::InvalidFieldWidth => "the width of one of the fields is invalid".fmt(f),
            Self::MissingField => "a fields is missing".fmt(f),
            Self::RangeError(error) => error.fmt(f),
        }
    }
}

impl fmt::Display for PrintError {
    fn fmt(&self, f: &mut fmt::Formatter<'_>) -> fmt::Result {
        match self {
            Self::StartOutside => f.write_str("the place lies beyond the line's length"),
            Self::NoRoom { wanted } => {
                write!(
                    f,
                    "the text has {wanted} bytes, more than are left of the line"
                )
            }
        }
    }
}

impl fmt::Display for EpochMismatchError {
    fn fmt(&self, f: &mut fmt::Formatter<'_>) -> fmt::Result {
        let (given, wanted) = (self.given.0, self.wanted.0);
        write!(f, "the stamp counts from {given}, and not from {wanted}")
    }
}

impl Error for OutOfRangeError {}
impl Error for DateTimeError {}
impl Error for ParseDateTimeError {}
impl Error for PrintError {}
impl Error for EpochMismatchError {}
