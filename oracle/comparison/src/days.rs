//! Every day of whole cycles of 400 years, and every value of the fields.

use oracle::{DateTime, EPOCHS, Timestamp};

use crate::entries::{self, FULL_SECOND};
use crate::lines::{self, Asked, Text};
use crate::tally::Tally;

/// Days and seconds of 400 years, and the second of year 0 counted from 1970.
const CYCLE_DAYS: i64 = 146_097;
const CYCLE: i64 = CYCLE_DAYS * 86_400;
const YEAR_0: i64 = -62_167_219_200;

/// The first years of the cycles that are gone through day by day.
pub const CYCLES: [i32; 4] = [-400, 0, 1600, 2000];

/// Every day of a cycle, printed at a varying second over a varying epoch, and read back.
pub fn every_day(tally: &mut Tally, first_year: i32) {
    let start = YEAR_0 + i64::from(first_year / 400) * CYCLE;
    for day in 0..CYCLE_DAYS {
        let second = match day % 8 {
            0 => 0,
            1 => 86_399,
            _ => day * 7919 % 86_400,
        };
        let epoch = EPOCHS[day as usize % 8];
        let stamp = Timestamp {
            secs: start + day * 86_400 + second - epoch,
            nanos: (day * 6_700_417 % 1_000_000_000) as u32,
        };
        let asked = Asked {
            epoch,
            stamp,
            precision: None,
        };
        lines::once(tally, asked, day as usize);
        entries::read_back(tally, epoch, stamp, Text::of(asked).as_str());
    }
}

/// Days 0 to 32 of every month of a cycle at a varying time of day, by fields and by text.
pub fn every_date(tally: &mut Tally, first_year: i32) {
    let mut which = 0u32;
    for year in first_year..first_year + 400 {
        for month in 1..=12 {
            for day in 0..=32 {
                which += 1;
                let date = DateTime {
                    year,
                    month,
                    day,
                    hour: (which % 24) as u8,
                    min: (which / 7 % 60) as u8,
                    sec: (which / 3 % 60) as u8,
                    nano: which.wrapping_mul(6_700_417) % 1_000_000_000,
                };
                let epoch = EPOCHS[which as usize % 8];
                entries::try_from_date_time(tally, epoch, date);
                entries::from_str(tally, epoch, &text_of(date));
            }
        }
    }
}

/// The fields as a text; a year below 0 has its sign in front of its four digits.
fn text_of(date: DateTime) -> String {
    let DateTime {
        year,
        month,
        day,
        hour,
        min,
        sec,
        nano,
    } = date;
    let sign = if year < 0 { "-" } else { "" };
    let size = year.unsigned_abs();
    let separator = [' ', 'T', 't'][nano as usize % 3];
    format!("{sign}{size:04}-{month:02}-{day:02}{separator}{hour:02}:{min:02}:{sec:02}.{nano:09}")
}

/// Every month with every day, every value of the clock's fields, and all limits together.
pub fn every_field(tally: &mut Tally, year: i32) {
    let good = DateTime {
        year,
        month: 2,
        day: 28,
        hour: 23,
        min: 59,
        sec: 59,
        nano: 999_999_999,
    };
    for value in 0..=255 {
        for day in 0..=255 {
            let date = DateTime {
                month: value,
                day,
                ..good
            };
            entries::try_from_date_time(tally, 0, date);
        }
        for date in [
            DateTime {
                hour: value,
                ..good
            },
            DateTime { min: value, ..good },
            DateTime { sec: value, ..good },
        ] {
            for epoch in EPOCHS {
                entries::try_from_date_time(tally, epoch, date);
            }
        }
    }
    for month in [0, 1, 2, 12, 13, 255] {
        for day in [0, 1, 28, 29, 30, 31, 32, 255] {
            for hour in [0, 1, 23, 24, 255] {
                for min in [0, 1, 59, 60, 255] {
                    for sec in [0, 1, 59, 60, 255] {
                        for nano in NANOS {
                            let date = DateTime {
                                year,
                                month,
                                day,
                                hour,
                                min,
                                sec,
                                nano,
                            };
                            for epoch in [0, i64::MIN] {
                                entries::try_from_date_time(tally, epoch, date);
                            }
                        }
                    }
                }
            }
        }
    }
}

/// Nanoseconds among fields around their limit, the listed split too.
const NANOS: [u32; 7] = [
    0,
    1,
    999_999_998,
    999_999_999,
    FULL_SECOND,
    FULL_SECOND + 1,
    u32::MAX,
];

/// The years whose fields are all tried.
pub const YEARS: [i32; 8] = [i32::MIN, -400, -1, 0, 1900, 2000, 2019, i32::MAX];
