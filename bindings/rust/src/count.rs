//! A bare count, and every entry with the epoch as a value.

use core::cmp::Ordering;
use core::time::Duration;

use crate::raw::{self, Epoch, LeapOffset, UnixSeconds};
use crate::refusals::{Refusal, always, decide, unless};
use crate::{DateTimeError, Moment, OutOfRangeError, ParseDateTimeError, PrintError, Stamp};

impl Epoch {
    /// 1970-01-01 00:00:00 TAI.
    pub const MONOTONIC_TIME: Self = Self(0);
    /// The GPS start, 1980-01-06 00:00:19 TAI.
    pub const GPS_TIME: Self = Self(315_964_819);
    /// The Galileo start, 1999-08-22 00:00:19 TAI.
    pub const GST_TIME: Self = Self(935_280_019);
    /// The `BeiDou` start, 2006-01-01 00:00:33 TAI.
    pub const BDT_TIME: Self = Self(1_136_073_633);
    /// 1958-01-01 00:00:00 TAI.
    pub const TAI_1958_TIME: Self = Self(-378_691_200);
    /// 1972-01-01 00:00:00 TAI.
    pub const TAI_1972_TIME: Self = Self(63_072_000);
}

/// The numbers of refusals that leave nothing to tell but that there is no answer.
const NOT_REPRESENTABLE: i32 = 10;
const BAD_NANOS: i32 = 11;

/// Seconds from an epoch that is told at each call, and nanoseconds below 10^9 that count forward from there.
///
/// Nothing holds a count to its epoch: two counts are ordered, and subtracted, as if they had one. Where the epoch is
/// known when the program is written, [`TaiTime`](crate::TaiTime) has it in its type; [`over`](Self::over) puts it
/// beside the count.
///
/// ```
/// use admezgast::{Count, Epoch};
///
/// let epoch = Epoch(1_000_000_000); // known when the program runs
/// let count = Count::try_from_date_time(epoch, 2024, 2, 29, 12, 0, 0, 0).unwrap();
/// assert_eq!(count.as_secs(), 709_208_000);
/// assert_eq!(count.over(epoch).to_string(), "2024-02-29 12:00:00");
/// ```
#[derive(Clone, Copy, Debug, Default, PartialEq, Eq, Hash)]
pub struct Count {
    pub(crate) secs: i64,
    pub(crate) nanos: u32,
}

impl Count {
    /// The epoch itself.
    pub const EPOCH: Self = Self { secs: 0, nanos: 0 };
    /// The earliest count.
    pub const MIN: Self = Self {
        secs: i64::MIN,
        nanos: 0,
    };
    /// The latest count.
    pub const MAX: Self = Self {
        secs: i64::MAX,
        nanos: 999_999_999,
    };

    /// A count of its parts; `None` for 10^9 nanoseconds or more.
    #[must_use]
    pub fn new(secs: i64, subsec_nanos: u32) -> Option<Self> {
        unless(BAD_NANOS, "tai_new", raw::tai_new(secs, subsec_nanos))
    }

    /// The count over an epoch that reads as the calendar fields.
    ///
    /// # Errors
    ///
    /// The first field that is wrong, or [`DateTimeError::OutOfRange`] where no count over the epoch reads as the date.
    ///
    /// ```
    /// use admezgast::{Count, DateTimeError, Epoch};
    ///
    /// let refused = Count::try_from_date_time(Epoch(0), 1900, 2, 29, 0, 0, 0, 0);
    /// assert_eq!(refused, Err(DateTimeError::InvalidDayOfMonth(29)));
    /// ```
    #[allow(clippy::too_many_arguments)] // tai-time's seven, and the epoch
    pub fn try_from_date_time(
        epoch: Epoch,
        year: i32,
        month: u8,
        day: u8,
        hour: u8,
        min: u8,
        sec: u8,
        nano: u32,
    ) -> Result<Self, DateTimeError> {
        decide(
            "tai_try_from_date_time",
            raw::tai_try_from_date_time(epoch, year, month, day, hour, min, sec, nano),
        )
        .map_err(Refusal::date_time_error)
    }

    /// The count of a Unix time over an epoch; whole seconds in the nanoseconds are carried.
    ///
    /// # Errors
    ///
    /// `secs + carry + leap - epoch` leaves `i64`: the exact sum decides. (tai-time also refuses where only a partial sum
    /// leaves it; this does not.)
    ///
    /// ```
    /// use admezgast::{Count, Epoch, LeapOffset, UnixSeconds};
    ///
    /// let (unix, leap) = (UnixSeconds(1_700_000_000), LeapOffset(37));
    /// let count = Count::try_from_unix_timestamp(Epoch::GPS_TIME, unix, 0, leap);
    /// assert_eq!(count, Ok(Count::new(1_384_035_218, 0).unwrap()));
    ///
    /// let (latest, carried) = (UnixSeconds(i64::MAX), 1_000_000_000);
    /// let top = |leap| Count::try_from_unix_timestamp(Epoch(0), latest, carried, LeapOffset(leap));
    /// assert_eq!(top(-1), Ok(Count::new(i64::MAX, 0).unwrap()));
    /// assert!(top(0).is_err());
    /// ```
    ///
    /// Two of the numbers swapped do not compile:
    ///
    /// ```compile_fail,E0308
    /// use admezgast::{Count, Epoch, LeapOffset, UnixSeconds};
    ///
    /// let (unix, leap) = (UnixSeconds(1_700_000_000), LeapOffset(37));
    /// let count = Count::try_from_unix_timestamp(Epoch::GPS_TIME, leap, 0, unix);
    /// ```
    pub fn try_from_unix_timestamp(
        epoch: Epoch,
        secs: UnixSeconds,
        subsec_nanos: u32,
        leap: LeapOffset,
    ) -> Result<Self, OutOfRangeError> {
        unless(
            NOT_REPRESENTABLE,
            "tai_try_from_unix_timestamp",
            raw::tai_try_from_unix_timestamp(epoch, secs, subsec_nanos, leap),
        )
        .ok_or(OutOfRangeError(()))
    }

    /// The Unix seconds, rounded down; `None` where `secs - leap + epoch` leaves `i64`: the exact sum decides. (tai-time also
    /// refuses where only a partial sum leaves it; this does not.)
    ///
    /// ```
    /// use admezgast::{Count, Epoch, LeapOffset, UnixSeconds};
    ///
    /// let unix = Count::MIN.as_unix_secs(Epoch(1), LeapOffset(1));
    /// assert_eq!(unix, Some(UnixSeconds(i64::MIN)));
    /// assert_eq!(Count::MIN.as_unix_secs(Epoch(0), LeapOffset(1)), None);
    /// ```
    #[must_use]
    pub fn as_unix_secs(self, epoch: Epoch, leap: LeapOffset) -> Option<UnixSeconds> {
        unless(
            NOT_REPRESENTABLE,
            "tai_as_unix_secs",
            raw::tai_as_unix_secs(epoch, self.secs, self.nanos, leap),
        )
    }

    /// The count of the same moment over another epoch; `None` where there is none: `old - new + secs` leaves `i64`, and the
    /// exact sum decides. It is tai-time's `to_tai_time`, which also refuses where only a partial sum leaves it.
    ///
    /// ```
    /// use admezgast::{Count, Epoch};
    ///
    /// let count = Count::new(5, 0).unwrap();
    /// let moved = count.change_epoch(Epoch(i64::MIN), Epoch(1));
    /// assert_eq!(moved, Count::new(i64::MIN + 4, 0));
    /// assert_eq!(Count::EPOCH.change_epoch(Epoch(i64::MIN), Epoch(1)), None);
    /// ```
    #[must_use]
    pub fn change_epoch(self, old: Epoch, new: Epoch) -> Option<Self> {
        unless(
            NOT_REPRESENTABLE,
            "tai_to_tai_time",
            raw::tai_to_tai_time(old, new, self.secs, self.nanos),
        )
    }

    /// A duration later; `None` where no count lies there.
    ///
    /// ```
    /// use admezgast::Count;
    /// use core::time::Duration;
    ///
    /// let longest = Duration::new(u64::MAX, 999_999_999);
    /// assert_eq!(Count::MIN.checked_add(longest), Some(Count::MAX));
    /// ```
    #[must_use]
    pub fn checked_add(self, rhs: Duration) -> Option<Self> {
        unless(
            NOT_REPRESENTABLE,
            "tai_checked_add",
            raw::tai_checked_add(self.secs, self.nanos, rhs.as_secs(), rhs.subsec_nanos()),
        )
    }

    /// A duration earlier; `None` where no count lies there.
    #[must_use]
    pub fn checked_sub(self, rhs: Duration) -> Option<Self> {
        unless(
            NOT_REPRESENTABLE,
            "tai_checked_sub",
            raw::tai_checked_sub(self.secs, self.nanos, rhs.as_secs(), rhs.subsec_nanos()),
        )
    }

    /// How long after `earlier` this is, both over one epoch; `None` if it is before it.
    #[must_use]
    pub fn checked_duration_since(self, earlier: Self) -> Option<Duration> {
        unless(
            NOT_REPRESENTABLE,
            "tai_checked_duration_since",
            raw::tai_checked_duration_since(self.secs, self.nanos, earlier.secs, earlier.nanos),
        )
    }

    /// Reads a text, any bytes, over an epoch. Its form is that of
    /// [`TaiTime`](crate::TaiTime#impl-FromStr-for-TaiTime%3CEPOCH_REF%3E).
    ///
    /// # Errors
    ///
    /// What is wrong first in the text; where it can be read, what is wrong with its date.
    pub fn from_text(epoch: Epoch, text: &[u8]) -> Result<Self, ParseDateTimeError> {
        decide("tai_from_str", raw::from_str(epoch, text)).map_err(Refusal::parse_error)
    }

    /// Writes the text over an epoch into the line from the place `at`, and tells its length, at most
    /// [`LONGEST_TEXT`](crate::LONGEST_TEXT). The bytes before it and behind it stay.
    ///
    /// # Errors
    ///
    /// There is no such place, or no room, and then how much is wanted; the line stays as it is.
    ///
    /// ```
    /// use admezgast::{Count, Epoch, PrintError};
    ///
    /// let mut line = *b"fill: ....................";
    /// assert_eq!(Count::EPOCH.write_text(Epoch(0), None, &mut line, 6), Ok(19));
    /// assert_eq!(&line, b"fill: 1970-01-01 00:00:00.");
    /// let no_room = PrintError::NoRoom { wanted: 19 };
    /// assert_eq!(Count::EPOCH.write_text(Epoch(0), None, &mut line, 8), Err(no_room));
    /// ```
    pub fn write_text(
        self,
        epoch: Epoch,
        precision: Option<usize>,
        line: &mut [u8],
        at: usize,
    ) -> Result<usize, PrintError> {
        let result = raw::display(epoch, self.secs, self.nanos, precision, line, at);
        decide("tai_display", result).map_err(Refusal::print_error)
    }

    /// The calendar moment over an epoch.
    #[must_use]
    pub fn moment(self, epoch: Epoch) -> Moment {
        Moment::of(raw::tai_secs_to_date_time(epoch, self.secs))
    }

    /// The count with its epoch beside it.
    #[must_use]
    pub const fn over(self, epoch: Epoch) -> Stamp {
        Stamp::new(self, epoch)
    }

    /// The seconds from the epoch, rounded down.
    #[must_use]
    pub const fn as_secs(self) -> i64 {
        self.secs
    }

    /// The nanoseconds since that second began.
    #[must_use]
    pub const fn subsec_nanos(self) -> u32 {
        self.nanos
    }
}

/// The order over one epoch.
impl Ord for Count {
    fn cmp(&self, other: &Self) -> Ordering {
        let result = raw::tai_cmp(self.secs, self.nanos, other.secs, other.nanos);
        always("tai_cmp", result).cmp(&0)
    }
}

impl PartialOrd for Count {
    fn partial_cmp(&self, other: &Self) -> Option<Ordering> {
        Some(self.cmp(other))
    }
}
