//! A timestamp with its epoch in its type: tai-time's type, with its methods.

use core::cmp::Ordering;
use core::fmt;
use core::str::FromStr;
use core::time::Duration;

use crate::raw::{Epoch, LeapOffset, UnixSeconds};
use crate::{Count, DateTimeError, Moment, OutOfRangeError, ParseDateTimeError, PrintError, Stamp};

/// Over 1970-01-01 00:00:00 TAI.
pub type MonotonicTime = TaiTime<{ Epoch::MONOTONIC_TIME.0 }>;
/// Over the GPS start, 1980-01-06 00:00:19 TAI.
pub type GpsTime = TaiTime<{ Epoch::GPS_TIME.0 }>;
/// Over the Galileo start, 1999-08-22 00:00:19 TAI.
pub type GstTime = TaiTime<{ Epoch::GST_TIME.0 }>;
/// Over the `BeiDou` start, 2006-01-01 00:00:33 TAI.
pub type BdtTime = TaiTime<{ Epoch::BDT_TIME.0 }>;
/// Over 1958-01-01 00:00:00 TAI.
pub type Tai1958Time = TaiTime<{ Epoch::TAI_1958_TIME.0 }>;
/// Over 1972-01-01 00:00:00 TAI.
pub type Tai1972Time = TaiTime<{ Epoch::TAI_1972_TIME.0 }>;

/// Seconds from the epoch that the type names, and nanoseconds below 10^9 that count forward from there.
///
/// `EPOCH_REF` is the epoch in seconds from 1970-01-01 00:00:00 TAI. Timestamps over two epochs are of two types, and
/// comparing them does not compile. `Display` takes a precision, as `{:.3}`.
///
/// ```
/// use admezgast::{GpsTime, MonotonicTime, TaiTime};
///
/// type PanelTime = TaiTime<86_400>; // a clock that counts from 1970-01-02
///
/// let noon: GpsTime = "2024-02-29 12:00:00".parse().unwrap();
/// let on_the_panel: PanelTime = noon.to_tai_time().unwrap();
/// assert_eq!((noon.as_secs(), on_the_panel.as_secs()), (1_393_243_181, 1_709_121_600));
/// assert_eq!(on_the_panel.to_string(), noon.to_string());
/// assert!(MonotonicTime::EPOCH < MonotonicTime::new(0, 1).unwrap());
/// ```
#[derive(Clone, Copy, Debug, Default, PartialEq, Eq, Hash)]
pub struct TaiTime<const EPOCH_REF: i64> {
    secs: i64,
    nanos: u32,
}

impl<const EPOCH_REF: i64> TaiTime<EPOCH_REF> {
    /// The epoch itself.
    pub const EPOCH: Self = Self::from_count(Count::EPOCH);
    /// The earliest timestamp.
    pub const MIN: Self = Self::from_count(Count::MIN);
    /// The latest timestamp.
    pub const MAX: Self = Self::from_count(Count::MAX);

    pub(crate) const fn from_count(count: Count) -> Self {
        Self {
            secs: count.secs,
            nanos: count.nanos,
        }
    }

    pub(crate) const fn count(self) -> Count {
        Count {
            secs: self.secs,
            nanos: self.nanos,
        }
    }

    /// A timestamp of its parts; `None` for 10^9 nanoseconds or more.
    ///
    /// ```
    /// use admezgast::GpsTime;
    ///
    /// assert_eq!(GpsTime::new(-1, 500_000_000).unwrap().to_string(), "1980-01-06 00:00:18.5");
    /// assert_eq!(GpsTime::new(5, 1_000_000_000), None);
    /// ```
    #[must_use]
    pub fn new(secs: i64, subsec_nanos: u32) -> Option<Self> {
        Count::new(secs, subsec_nanos).map(Self::from_count)
    }

    /// The timestamp that reads as the calendar fields. Years have a year 0, and are Gregorian throughout.
    ///
    /// # Errors
    ///
    /// The first field that is wrong, or [`DateTimeError::OutOfRange`] where no timestamp reads as the date.
    ///
    /// ```
    /// use admezgast::{DateTimeError, GpsTime, MonotonicTime};
    ///
    /// let leap_day = GpsTime::try_from_date_time(2024, 2, 29, 12, 0, 0, 0);
    /// assert_eq!(leap_day, Ok(GpsTime::new(1_393_243_181, 0).unwrap()));
    /// let none = MonotonicTime::try_from_date_time(1900, 2, 29, 0, 0, 0, 0);
    /// assert_eq!(none, Err(DateTimeError::InvalidDayOfMonth(29)));
    /// ```
    pub fn try_from_date_time(
        year: i32,
        month: u8,
        day: u8,
        hour: u8,
        min: u8,
        sec: u8,
        nano: u32,
    ) -> Result<Self, DateTimeError> {
        Count::try_from_date_time(Epoch(EPOCH_REF), year, month, day, hour, min, sec, nano)
            .map(Self::from_count)
    }

    /// The timestamp of a Unix time; `leap_secs` is TAI minus UTC. Whole seconds in the nanoseconds are carried.
    ///
    /// # Errors
    ///
    /// `secs + carry + leap_secs - EPOCH_REF` leaves `i64`: the exact sum decides. (tai-time also refuses where only a
    /// partial sum leaves it; this does not.)
    ///
    /// ```
    /// use admezgast::GpsTime;
    ///
    /// let time = GpsTime::try_from_unix_timestamp(1_700_000_000, 0, 37).unwrap();
    /// assert_eq!(time.as_secs(), 1_384_035_218);
    /// assert_eq!(time.as_unix_secs(37), Some(1_700_000_000));
    /// assert!(GpsTime::try_from_unix_timestamp(i64::MIN, 0, 0).is_err());
    /// ```
    pub fn try_from_unix_timestamp(
        secs: i64,
        subsec_nanos: u32,
        leap_secs: i64,
    ) -> Result<Self, OutOfRangeError> {
        let (secs, leap) = (UnixSeconds(secs), LeapOffset(leap_secs));
        Count::try_from_unix_timestamp(Epoch(EPOCH_REF), secs, subsec_nanos, leap)
            .map(Self::from_count)
    }

    /// Reads a text, any bytes; of a `str`, [`parse`](str::parse) does. Its form stands
    /// [there](Self#impl-FromStr-for-TaiTime%3CEPOCH_REF%3E).
    ///
    /// # Errors
    ///
    /// What is wrong first in the text; where it can be read, what is wrong with its date.
    pub fn from_text(text: &[u8]) -> Result<Self, ParseDateTimeError> {
        Count::from_text(Epoch(EPOCH_REF), text).map(Self::from_count)
    }

    /// The seconds from the epoch, rounded down.
    #[must_use]
    pub const fn as_secs(&self) -> i64 {
        self.secs
    }

    /// The nanoseconds since that second began.
    #[must_use]
    pub const fn subsec_nanos(&self) -> u32 {
        self.nanos
    }

    /// The Unix seconds, rounded down; `leap_secs` is TAI minus UTC. `None` where `secs - leap_secs + EPOCH_REF` leaves `i64`:
    /// the exact sum decides. (tai-time also refuses where only a partial sum leaves it; this does not.)
    ///
    /// ```
    /// use admezgast::GpsTime;
    ///
    /// assert_eq!(GpsTime::EPOCH.as_unix_secs(19), Some(315_964_800));
    /// assert_eq!(GpsTime::MAX.as_unix_secs(19), None);
    /// ```
    #[must_use]
    pub fn as_unix_secs(&self, leap_secs: i64) -> Option<i64> {
        self.count()
            .as_unix_secs(Epoch(EPOCH_REF), LeapOffset(leap_secs))
            .map(|unix| unix.0)
    }

    /// The same moment over another epoch; `None` where no timestamp lies there: `EPOCH_REF - OTHER_EPOCH_REF + secs` leaves
    /// `i64`, and the exact sum decides. (tai-time also refuses where only a partial sum leaves it; this does not.)
    ///
    /// ```
    /// use admezgast::{GpsTime, MonotonicTime, TaiTime};
    ///
    /// assert_eq!(GpsTime::EPOCH.to_tai_time(), MonotonicTime::new(315_964_819, 0));
    ///
    /// let far = TaiTime::<{ i64::MIN }>::new(5, 0).unwrap();
    /// assert_eq!(far.to_tai_time(), TaiTime::<1>::new(i64::MIN + 4, 0));
    /// assert_eq!(GpsTime::MAX.to_tai_time::<0>(), None);
    /// ```
    #[must_use]
    pub fn to_tai_time<const OTHER_EPOCH_REF: i64>(&self) -> Option<TaiTime<OTHER_EPOCH_REF>> {
        self.count()
            .change_epoch(Epoch(EPOCH_REF), Epoch(OTHER_EPOCH_REF))
            .map(TaiTime::from_count)
    }

    /// A duration later; `None` where no timestamp lies there.
    ///
    /// ```
    /// use admezgast::GpsTime;
    /// use core::time::Duration;
    ///
    /// let longest = Duration::new(u64::MAX, 999_999_999);
    /// assert_eq!(GpsTime::MIN.checked_add(longest), Some(GpsTime::MAX));
    /// ```
    #[must_use]
    pub fn checked_add(self, rhs: Duration) -> Option<Self> {
        self.count().checked_add(rhs).map(Self::from_count)
    }

    /// A duration earlier; `None` where no timestamp lies there.
    #[must_use]
    pub fn checked_sub(self, rhs: Duration) -> Option<Self> {
        self.count().checked_sub(rhs).map(Self::from_count)
    }

    /// How long after `earlier` this is; `None` if it is before it.
    #[must_use]
    pub fn checked_duration_since(self, earlier: Self) -> Option<Duration> {
        self.count().checked_duration_since(earlier.count())
    }

    /// Writes the text into the line from the place `at`, and tells its length, at most
    /// [`LONGEST_TEXT`](crate::LONGEST_TEXT). The bytes before it and behind it stay.
    ///
    /// # Errors
    ///
    /// There is no such place, or no room, and then how much is wanted; the line stays as it is.
    ///
    /// ```
    /// use admezgast::{GpsTime, PrintError};
    ///
    /// let analysed = GpsTime::new(0, 500_000_000).unwrap();
    /// let mut line = b"analysed ".to_vec();
    /// let place = line.len();
    /// if let Err(PrintError::NoRoom { wanted }) = analysed.write_text(None, &mut line, place) {
    ///     line.resize(place + wanted, 0); // exactly enough
    /// }
    /// assert_eq!(analysed.write_text(None, &mut line, place), Ok(21));
    /// assert_eq!(line, b"analysed 1980-01-06 00:00:19.5");
    /// ```
    pub fn write_text(
        self,
        precision: Option<usize>,
        line: &mut [u8],
        at: usize,
    ) -> Result<usize, PrintError> {
        self.count()
            .write_text(Epoch(EPOCH_REF), precision, line, at)
    }

    /// The calendar moment.
    #[must_use]
    pub fn moment(self) -> Moment {
        self.count().moment(Epoch(EPOCH_REF))
    }
}

impl<const EPOCH_REF: i64> Ord for TaiTime<EPOCH_REF> {
    fn cmp(&self, other: &Self) -> Ordering {
        self.count().cmp(&other.count())
    }
}

impl<const EPOCH_REF: i64> PartialOrd for TaiTime<EPOCH_REF> {
    fn partial_cmp(&self, other: &Self) -> Option<Ordering> {
        Some(self.cmp(other))
    }
}

impl<const EPOCH_REF: i64> fmt::Display for TaiTime<EPOCH_REF> {
    fn fmt(&self, f: &mut fmt::Formatter<'_>) -> fmt::Result {
        Stamp::from(*self).fmt(f)
    }
}

/// `[±][Y]...[Y]YYYY-MM-DD hh:mm:ss[.d[d]...[d]]`, with a `T` or `t` for the blank as well. A field is digits only, where
/// tai-time lets one begin with a `+` (and goes on: it may refuse such a text for something later):
///
/// ```
/// use admezgast::{MonotonicTime, ParseDateTimeError};
///
/// let may = "2020-+5-01 00:00:00".parse::<MonotonicTime>();
/// assert_eq!(may, Err(ParseDateTimeError::InvalidFieldValue));
/// ```
impl<const EPOCH_REF: i64> FromStr for TaiTime<EPOCH_REF> {
    type Err = ParseDateTimeError;

    fn from_str(text: &str) -> Result<Self, ParseDateTimeError> {
        Self::from_text(text.as_bytes())
    }
}
