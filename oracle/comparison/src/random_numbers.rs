//! Random cases of the entries on numbers, half of them near a limit.

use oracle::{DateTime, Duration, EPOCHS, Random, Timestamp};

use crate::entries::{self, FULL_SECOND};
use crate::grids::PRECISIONS;
use crate::lines::{self, Asked, Text};
use crate::tally::{Entry, Tally};

/// The seconds near which random ones are taken.
pub struct Bases(pub Vec<i64>);

impl Bases {
    fn secs(&self, random: &mut Random) -> i64 {
        match random.below(4) {
            0 => random.signed(64),
            1 => random.any() as i64,
            2 => random.pick(&self.0).wrapping_add(random.signed(20)),
            // Between the years 1938 and 2107.
            _ => random.below(1 << 32).wrapping_mul(5) as i64 / 4 - 1_000_000_000,
        }
    }

    fn stamp(&self, random: &mut Random) -> Timestamp {
        Timestamp {
            secs: self.secs(random),
            nanos: random.nanos(),
        }
    }

    /// A case of one of the entries on numbers.
    pub fn one(&self, tally: &mut Tally, random: &mut Random) {
        let epoch = random.pick(&EPOCHS);
        match random.below(12) {
            0 => entries::new(tally, self.secs(random), any_nanos(random)),
            1 | 2 => self.unix(tally, random, epoch),
            3 => self.to_unix(tally, random, epoch),
            4 => self.change_epoch(tally, random, epoch),
            5 | 6 => self.sums(tally, random),
            7 => self.differences(tally, random),
            _ => self.date(tally, random, epoch),
        }
    }

    fn unix(&self, tally: &mut Tally, random: &mut Random, epoch: i64) {
        let (leap, nanos) = (self.secs(random), any_nanos(random));
        let carry = i128::from(nanos / FULL_SECOND);
        let wanted = end(random) + i128::from(epoch) - i128::from(leap) - carry;
        let secs = self.or_any(random, wanted);
        entries::try_from_unix_timestamp(tally, epoch, secs, nanos, leap);
    }

    fn to_unix(&self, tally: &mut Tally, random: &mut Random, epoch: i64) {
        let (leap, nanos) = (self.secs(random), random.nanos());
        let wanted = end(random) - i128::from(epoch) + i128::from(leap);
        let secs = self.or_any(random, wanted);
        entries::as_unix_secs(tally, epoch, Timestamp { secs, nanos }, leap);
    }

    fn change_epoch(&self, tally: &mut Tally, random: &mut Random, from: i64) {
        let (to, nanos) = (random.pick(&EPOCHS), random.nanos());
        let wanted = end(random) - i128::from(from) + i128::from(to);
        let secs = self.or_any(random, wanted);
        entries::to_tai_time(tally, from, to, Timestamp { secs, nanos });
    }

    /// A sum and the same taken away; in one case of two near an end of the type.
    fn sums(&self, tally: &mut Tally, random: &mut Random) {
        let stamp = self.stamp(random);
        let way = match random.below(4) {
            0 => stamp.secs.abs_diff(i64::MAX),
            1 => stamp.secs.abs_diff(i64::MIN),
            2 => random.unsigned(),
            _ => stamp.secs.abs_diff(self.secs(random)),
        };
        let secs = way.wrapping_add(random.below(3)).wrapping_sub(1);
        let nanos = match random.below(3) {
            0 => random.nanos(),
            1 => stamp.nanos,
            _ => 999_999_999 - stamp.nanos,
        };
        entries::checked_add(tally, stamp, Duration { secs, nanos });
        entries::checked_sub(tally, stamp, Duration { secs, nanos });
    }

    fn differences(&self, tally: &mut Tally, random: &mut Random) {
        let (first, mut second) = (self.stamp(random), self.stamp(random));
        match random.below(4) {
            0 => second.secs = first.secs,
            1 => second.secs = first.secs.wrapping_add(random.below(3) as i64 - 1),
            _ => {}
        }
        entries::checked_duration_since(tally, first, second);
        entries::cmp(tally, first, second);
    }

    /// Fields, one of four cases with any value for one or two of them.
    fn date(&self, tally: &mut Tally, random: &mut Random, epoch: i64) {
        let mut date = DateTime {
            year: random.signed(32) as i32,
            month: random.below(12) as u8 + 1,
            day: random.below(31) as u8 + 1,
            hour: random.below(24) as u8,
            min: random.below(60) as u8,
            sec: random.below(60) as u8,
            nano: random.nanos(),
        };
        if random.below(2) == 0 {
            date.year = 1970 + random.signed(8) as i32;
        }
        if random.below(4) == 0 {
            for _ in 0..=random.below(2) {
                let any = random.any() as u8;
                match random.below(6) {
                    0 => date.month = any % 16,
                    1 => date.day = any % 64,
                    2 => date.hour = any % 32,
                    3 => date.min = any,
                    4 => date.sec = any,
                    _ => date.nano = any_nanos(random),
                }
            }
        }
        entries::try_from_date_time(tally, epoch, date);
    }

    /// A text at one place, its moment, and the default text read back.
    pub fn print(&self, tally: &mut Tally, random: &mut Random) {
        let epoch = random.pick(&EPOCHS);
        let stamp = self.stamp(random);
        let precision = match random.below(3) {
            0 => random.pick(&PRECISIONS),
            1 => Some(random.below(1001) as usize),
            _ => None,
        };
        let asked = Asked {
            epoch,
            stamp,
            precision,
        };
        let text = Text::of(asked);
        let (len, place) = lines::place(text.len(), random.any() as usize);
        lines::at(tally, Entry::Display, asked, &text, len, place);
        lines::moment(tally, asked, &text);
        if precision.is_none() {
            entries::read_back(tally, epoch, stamp, text.as_str());
        } else {
            entries::from_str(tally, epoch, text.as_str());
        }
    }

    /// These seconds if they are some, in one case of two; else random ones.
    fn or_any(&self, random: &mut Random, wanted: i128) -> i64 {
        let any = self.secs(random);
        match random.below(2) {
            0 => i64::try_from(wanted).unwrap_or(any),
            _ => any,
        }
    }
}

/// An end of i64, or up to two seconds before or past it.
fn end(random: &mut Random) -> i128 {
    i128::from(random.pick(&[i64::MIN, i64::MAX])) + i128::from(random.below(5)) - 2
}

/// Nanoseconds of any u32, whole seconds and their neighbours more often than by chance.
fn any_nanos(random: &mut Random) -> u32 {
    let whole = random.below(5) as u32 * FULL_SECOND;
    match random.below(3) {
        0 => random.any() as u32,
        1 => whole.wrapping_add(random.below(3) as u32).wrapping_sub(1),
        _ => random.nanos(),
    }
}
