//! A count with its epoch beside it, and the calendar moment of one.

use core::fmt;

use crate::raw::{Epoch, MomentResult};
use crate::{Count, EpochMismatchError, TaiTime};

/// No text has more bytes (a theorem of the library).
pub const LONGEST_TEXT: usize = 38;

/// A [`Count`] with its epoch as a value beside it. `Display` takes a precision, as `{:.3}`.
///
/// Stamps have no order, since the counts of two alone do not tell which is earlier; each [`TaiTime`] has one.
/// Stamps are equal if their counts and their epochs are.
///
/// ```
/// use admezgast::{Count, Epoch, GpsTime, MonotonicTime, Stamp};
///
/// let stamp = Count::EPOCH.over(Epoch::GPS_TIME);
/// assert_eq!(format!("{stamp:.3}"), "1980-01-06 00:00:19.000");
/// assert_eq!(GpsTime::try_from(stamp), Ok(GpsTime::EPOCH));
/// assert!(MonotonicTime::try_from(stamp).is_err());
/// assert_eq!(Stamp::from(GpsTime::EPOCH), stamp);
/// ```
#[derive(Clone, Copy, Debug, PartialEq, Eq, Hash)]
pub struct Stamp {
    count: Count,
    epoch: Epoch,
}

impl Stamp {
    pub(crate) const fn new(count: Count, epoch: Epoch) -> Self {
        Self { count, epoch }
    }

    /// The count, without its epoch.
    #[must_use]
    pub const fn count(self) -> Count {
        self.count
    }

    /// What it counts from.
    #[must_use]
    pub const fn epoch(self) -> Epoch {
        self.epoch
    }
}

impl fmt::Display for Stamp {
    fn fmt(&self, f: &mut fmt::Formatter<'_>) -> fmt::Result {
        let mut line = [0; LONGEST_TEXT];
        let length = self
            .count
            .write_text(self.epoch, f.precision(), &mut line, 0)
            .map_err(|_| fmt::Error)?;
        f.write_str(core::str::from_utf8(&line[..length]).map_err(|_| fmt::Error)?)
    }
}

impl<const EPOCH_REF: i64> From<TaiTime<EPOCH_REF>> for Stamp {
    fn from(time: TaiTime<EPOCH_REF>) -> Self {
        time.count().over(Epoch(EPOCH_REF))
    }
}

/// A stamp over the epoch that the type names; it is not moved from another.
impl<const EPOCH_REF: i64> TryFrom<Stamp> for TaiTime<EPOCH_REF> {
    type Error = EpochMismatchError;

    fn try_from(stamp: Stamp) -> Result<Self, EpochMismatchError> {
        if stamp.epoch == Epoch(EPOCH_REF) {
            Ok(Self::from_count(stamp.count))
        } else {
            Err(EpochMismatchError {
                given: stamp.epoch,
                wanted: Epoch(EPOCH_REF),
            })
        }
    }
}

/// The calendar moment that a timestamp reads as. Moments are ordered as they follow one another.
#[derive(Clone, Copy, Debug, PartialEq, Eq, PartialOrd, Ord, Hash)]
pub struct Moment {
    /// The year, with a year 0.
    pub year: i64,
    /// 1 to 12.
    pub month: u8,
    /// 1 to the month's end.
    pub day: u8,
    /// 0 to 23.
    pub hour: u8,
    /// 0 to 59.
    pub minute: u8,
    /// 0 to 59.
    pub second: u8,
}

impl Moment {
    pub(crate) const fn of(m: MomentResult) -> Self {
        Self {
            year: m.year,
            month: m.month,
            day: m.day,
            hour: m.hour,
            minute: m.minute,
            second: m.second,
        }
    }
}
