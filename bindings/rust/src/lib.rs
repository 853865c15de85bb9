//! Timestamps, calendar, text and durations for the records box: tai-time 1.0.0's types and methods over the proved
//! library.
//!
//! What is worked out is worked out by the archive `librecords_box.a`, whose functions are proved; what stands here is the
//! boundary: types and their equality, lengths, pointers, and the numbers of refusals.
//!
//! # The epoch in the type
//!
//! [`TaiTime`] has its epoch in its type, under tai-time's aliases [`MonotonicTime`], [`GpsTime`], [`GstTime`],
//! [`BdtTime`], [`Tai1958Time`] and [`Tai1972Time`], and tai-time's methods, arguments, results, errors and texts. A
//! program changes its `use` lines, or none with `tai-time = { package = "admezgast", path = … }` in its manifest.
//! Left out are clocks, system time, the features, operators and the forms that panic; and only reading the parts and the
//! constants is `const`. Refused, where tai-time is lenient, are 10^9 nanoseconds among calendar fields and a `+` inside a
//! field of a text, as [`ParseDateTimeError::InvalidFieldValue`] for `2020-+5-01 00:00:00`. Answered, where tai-time
//! refuses, is a conversion of Unix seconds or a change of epoch whose result fits while a partial sum does not.
//!
//! A quad may leave if its gas was analysed after the last fill:
//!
//! ```
//! use admezgast::{GpsTime, MonotonicTime, ParseDateTimeError};
//!
//! fn may_leave(analysis: &str, last_fill: MonotonicTime) -> Result<bool, ParseDateTimeError> {
//!     let analysed: GpsTime = analysis.parse()?; // counts from the GPS start
//!     let filled: Option<GpsTime> = last_fill.to_tai_time(); // the panel counts from 1970
//!     Ok(filled.is_some_and(|filled| analysed > filled))
//! }
//!
//! let last_fill = MonotonicTime::new(1_709_208_000, 0).unwrap(); // 2024-02-29 12:00:00
//! assert_eq!(may_leave("2024-02-29 12:00:01", last_fill), Ok(true));
//! assert_eq!(may_leave("2024-02-29 11:59:59", last_fill), Ok(false));
//! ```
//!
//! With the conversion forgotten it does not compile:
//!
//! ```compile_fail,E0308
//! use admezgast::{GpsTime, MonotonicTime, ParseDateTimeError};
//!
//! fn may_leave(analysis: &str, last_fill: MonotonicTime) -> Result<bool, ParseDateTimeError> {
//!     let analysed: GpsTime = analysis.parse()?; // counts from the GPS start
//!     Ok(analysed > last_fill) // the panel counts from 1970
//! }
//! ```
//!
//! # The epoch as a value
//!
//! Where the epoch is known only when the program runs, [`Count`] takes it as an [`Epoch`] with each call. An epoch, a
//! [`LeapOffset`] and [`UnixSeconds`] are three types, and one does not pass for another. A count does not tell its
//! epoch, so that counts over unlike epochs can be compared, and the answer says nothing; a [`Stamp`] is a count with its
//! epoch, to be printed or handed about, and has no order: to compare two, bring one to the other's epoch.
//!
//! ```
//! use admezgast::{Count, Epoch, GpsTime, LeapOffset, UnixSeconds};
//!
//! let (unix, leap) = (UnixSeconds(1_700_000_000), LeapOffset(37));
//! let count = Count::try_from_unix_timestamp(Epoch::GPS_TIME, unix, 0, leap).unwrap();
//! assert_eq!(count.as_secs(), 1_384_035_218);
//! assert_eq!(count.as_unix_secs(Epoch::GPS_TIME, leap), Some(unix));
//!
//! let stamp = count.over(Epoch::GPS_TIME);
//! assert_eq!(stamp.to_string(), "2023-11-14 22:13:57");
//! assert_eq!(GpsTime::try_from(stamp).unwrap().as_secs(), 1_384_035_218);
//!
//! let later = Count::new(1_700_000_038, 0).unwrap().over(Epoch::MONOTONIC_TIME);
//! let moved = stamp.count().change_epoch(stamp.epoch(), later.epoch());
//! assert!(moved.is_some_and(|moved| moved < later.count()));
//! ```
//!
//! # Panics
//!
//! No value that a call is given makes it panic. Where the archive answers with a refusal that this crate does not know, the
//! two are not of one version; the call then panics and names its entry and the number, and never takes it for an answer.
//!
//! # The archive
//!
//! It is the repository's `crates/records_box/out/librecords_box.a`, or the file that the variable `ADMEZGAST_ARCHIVE`
//! names, and is for x86-64 Linux.
#![no_std]
#![deny(missing_docs)]

#[cfg(test)]
extern crate std;

mod count;
mod errors;
mod raw;
mod refusals;
mod stamp;
mod tai_time;

pub use count::Count;
pub use errors::{
    DateTimeError, EpochMismatchError, OutOfRangeError, ParseDateTimeError, PrintError,
};
pub use raw::{Epoch, LeapOffset, UnixSeconds};
pub use stamp::{LONGEST_TEXT, Moment, Stamp};
pub use tai_time::{BdtTime, GpsTime, GstTime, MonotonicTime, Tai1958Time, Tai1972Time, TaiTime};
