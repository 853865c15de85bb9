//! What a result of the archive says. Its `refusal` decides before anything else of it is looked at: -1 alone is accepted.
//! Each caller then names the numbers that it knows, and every other number ends in [`Refusal::unknown`].

use crate::raw::{
    DurationResult, LengthResult, OrderingResult, TimeResult, UnixResult, UnixSeconds,
};
use crate::{Count, DateTimeError, ParseDateTimeError, PrintError};
use core::time::Duration;

/// A refusal as the archive told it.
#[derive(Clone, Copy, Debug, PartialEq, Eq)]
pub struct Refusal {
    entry: &'static str,
    number: i32,
    value: u32,
    in_range_error: i32,
}

/// A result that is an answer where it is no refusal.
pub trait Told: Copy {
    type Answer;
    /// The number, the value, and whether the refusal arrived inside a range error.
    fn refusal(self) -> (i32, u32, i32);
    /// What is answered, if the number is -1.
    fn answer(self) -> Self::Answer;
}

/// The answer, or the refusal: any number but -1.
pub fn decide<R: Told>(entry: &'static str, result: R) -> Result<R::Answer, Refusal> {
    match result.refusal() {
        (-1, _, _) => Ok(result.answer()),
        (number, value, in_range_error) => Err(Refusal {
            entry,
            number,
            value,
            in_range_error,
        }),
    }
}

/// The answer of an entry that refuses with the one number `known`, or none.
pub fn unless<R: Told>(known: i32, entry: &'static str, result: R) -> Option<R::Answer> {
    match decide(entry, result) {
        Ok(answer) => Some(answer),
        Err(refusal) if refusal.number == known => None,
        Err(refusal) => refusal.unknown(),
    }
}

/// The answer of an entry that refuses nothing of what this crate hands it.
pub fn always<R: Told>(entry: &'static str, result: R) -> R::Answer {
    decide(entry, result).unwrap_or_else(|refusal| refusal.unknown())
}

impl Refusal {
    /// The caller does not know the number, so that the crate and the archive are of two versions.
    #[cold]
    pub fn unknown(self) -> ! {
        panic!(
            "{} answered the refusal {} with the value {}, which admezgast {} does not know there: \
             the archive is of another version",
            self.entry,
            self.number,
            self.value,
            env!("CARGO_PKG_VERSION"),
        )
    }

    /// The refusal of calendar fields.
    pub fn date_time_error(self) -> DateTimeError {
        match (self.in_range_error, self.number) {
            (0, 0..=6) => self.inner(),
            _ => self.unknown(),
        }
    }

    /// The refusal of a text.
    pub fn parse_error(self) -> ParseDateTimeError {
        match (self.in_range_error, self.number) {
            (0, 7) => ParseDateTimeError::MissingField,
            (0, 8) => ParseDateTimeError::InvalidFieldWidth,
            (0, 9) => ParseDateTimeError::InvalidFieldValue,
            (1, 0..=6) => ParseDateTimeError::RangeError(self.inner()),
            _ => self.unknown(),
        }
    }

    /// The refusal of a line.
    pub fn print_error(self) -> PrintError {
        match (self.number, self.value) {
            (12, 0) => PrintError::StartOutside,
            // No text is empty: an archive that wants nothing is of a version that did not tell it.
            (13, 1..) => PrintError::NoRoom {
                wanted: self.value as usize,
            },
            _ => self.unknown(),
        }
    }

    /// The fields' refusal, wherever it arrived.
    fn inner(self) -> DateTimeError {
        let small = || u8::try_from(self.value).unwrap_or_else(|_| self.unknown());
        match self.number {
            0 => DateTimeError::InvalidMonth(small()),
            1 => DateTimeError::InvalidDayOfMonth(small()),
            2 => DateTimeError::InvalidHour(small()),
            3 => DateTimeError::InvalidMinute(small()),
            4 => DateTimeError::InvalidSecond(small()),
            5 => DateTimeError::InvalidNanosecond(self.value),
            6 => DateTimeError::OutOfRange,
            _ => self.unknown(),
        }
    }
}

impl Told for TimeResult {
    type Answer = Count;
    fn refusal(self) -> (i32, u32, i32) {
        (self.refusal, self.value, self.in_range_error)
    }
    fn answer(self) -> Count {
        Count {
            secs: self.secs,
            nanos: self.nanos,
        }
    }
}

impl Told for UnixResult {
    type Answer = UnixSeconds;
    fn refusal(self) -> (i32, u32, i32) {
        (self.refusal, 0, 0)
    }
    fn answer(self) -> UnixSeconds {
        self.secs
    }
}

impl Told for DurationResult {
    type Answer = Duration;
    fn refusal(self) -> (i32, u32, i32) {
        (self.refusal, 0, 0)
    }
    fn answer(self) -> Duration {
        Duration::new(self.secs, self.nanos)
    }
}

impl Told for OrderingResult {
    type Answer = i32;
    fn refusal(self) -> (i32, u32, i32) {
        (self.refusal, 0, 0)
    }
    fn answer(self) -> i32 {
        self.ordering
    }
}

impl Told for LengthResult {
    type Answer = usize;
    fn refusal(self) -> (i32, u32, i32) {
        (self.refusal, self.wanted, 0)
    }
    fn answer(self) -> usize {
        self.length
    }
}

#[cfg(test)]
mod tests;
