//! Requests of calendar fields: `date`.

use oracle::{DateTime, EPOCHS};

use crate::list::List;
use crate::values::{ANY_NANOS, BOTTOM, YEARS, ordinary_epochs};

/// Nanoseconds of a second that the Rust lets in as one too many.
const FULL_SECOND: u32 = 1_000_000_000;

pub fn add_all(list: &mut List) {
    add_year_edges(list);
    add_month_edges(list);
    add_clock_edges(list);
    add_range_edges(list);
    add_several_faults(list);
    add_random(list);
    add_random_faults(list);
}

fn add_date(list: &mut List, epoch: i64, date: DateTime) {
    let DateTime {
        year,
        month,
        day,
        hour,
        min,
        sec,
        nano,
    } = date;
    let words = format!("{year} {month} {day} {hour} {min} {sec} {nano}");
    list.add("date", &[epoch], words);
}

/// Midnight of a day.
fn midnight(year: i32, month: u8, day: u8) -> DateTime {
    DateTime {
        year,
        month,
        day,
        hour: 0,
        min: 0,
        sec: 0,
        nano: 0,
    }
}

/// The last nanosecond of a day.
fn last_of_day(year: i32, month: u8, day: u8) -> DateTime {
    DateTime {
        year,
        month,
        day,
        hour: 23,
        min: 59,
        sec: 59,
        nano: 999_999_999,
    }
}

/// The year's ends and the leap day.
fn add_year_edges(list: &mut List) {
    for (year, &epoch) in YEARS.into_iter().zip(ordinary_epochs().iter().cycle()) {
        add_date(list, 0, midnight(year, 1, 1));
        add_date(list, 0, midnight(year, 2, 29));
        add_date(list, 0, midnight(year, 3, 1));
        add_date(list, 0, last_of_day(year, 12, 31));
        add_date(list, epoch, last_of_day(year, 2, 28));
        add_date(list, epoch, midnight(year, 2, 30));
    }
}

/// Days 0, 1 and 28 to 32 of every month of common and leap years, and months that are none.
fn add_month_edges(list: &mut List) {
    for year in [-100, -4, 0, 1900, 2000, 2019] {
        for month in (0..=13).chain([254, 255]) {
            for day in [0, 1, 28, 29, 30, 31, 32, 255] {
                add_date(list, 0, midnight(year, month, day));
            }
        }
    }
}

/// Hours, minutes, seconds and nanoseconds around their limits.
fn add_clock_edges(list: &mut List) {
    let day = last_of_day(2020, 2, 29);
    for hour in [0, 1, 22, 23, 24, 25, 59, 60, 99, 128, 255] {
        add_date(list, 0, DateTime { hour, ..day });
    }
    for value in [0, 1, 58, 59, 60, 61, 99, 128, 255] {
        add_date(list, 0, DateTime { min: value, ..day });
        add_date(list, 0, DateTime { sec: value, ..day });
    }
    for nano in ANY_NANOS.into_iter().filter(|&nano| nano != FULL_SECOND) {
        add_date(list, 0, DateTime { nano, ..day });
    }
}

/// Dates around the first and last that are a timestamp over each epoch.
fn add_range_edges(list: &mut List) {
    for epoch in EPOCHS {
        for year in [
            i32::MIN,
            -1,
            0,
            1958,
            1969,
            1970,
            1972,
            1980,
            2006,
            i32::MAX,
        ] {
            add_date(list, epoch, midnight(year, 1, 1));
            add_date(list, epoch, last_of_day(year, 12, 31));
        }
        for sec in [57, 58] {
            add_date(
                list,
                epoch,
                DateTime {
                    sec,
                    ..last_of_day(1969, 12, 31)
                },
            );
        }
        add_date(
            list,
            epoch,
            DateTime {
                sec: 1,
                ..midnight(1970, 1, 1)
            },
        );
    }
}

/// Every choice of wrong fields at once, the range included: the first in order is refused.
fn add_several_faults(list: &mut List) {
    for faults in 0..128u8 {
        let wrong = |place: u8| faults & (1 << place) != 0;
        let date = DateTime {
            year: 2021,
            month: if wrong(0) { 13 } else { 2 },
            day: if wrong(1) { 29 } else { 28 },
            hour: if wrong(2) { 24 } else { 23 },
            min: if wrong(3) { 60 } else { 59 },
            sec: if wrong(4) { 60 } else { 59 },
            nano: if wrong(5) {
                FULL_SECOND + 1
            } else {
                999_999_999
            },
        };
        add_date(list, if wrong(6) { BOTTOM } else { 0 }, date);
    }
}

/// Random dates, most of them of the calendar.
fn add_random(list: &mut List) {
    for _ in 0..1500 {
        let random = &mut list.random;
        let date = DateTime {
            year: random.signed(32) as i32,
            month: random.below(12) as u8 + 1,
            day: random.below(31) as u8 + 1,
            hour: random.below(24) as u8,
            min: random.below(60) as u8,
            sec: random.below(60) as u8,
            nano: random.nanos(),
        };
        let epoch = random.pick(ordinary_epochs());
        add_date(list, epoch, date);
    }
}

/// Random fields on both sides of their limits over each of the ten epochs.
fn add_random_faults(list: &mut List) {
    for _ in 0..1500 {
        let random = &mut list.random;
        let nanos = [random.nanos(), random.pick(&ANY_NANOS), random.any() as u32];
        let date = DateTime {
            year: 1970 + random.signed(8) as i32,
            month: random.below(14) as u8,
            day: random.below(33) as u8,
            hour: random.below(25) as u8,
            min: random.below(62) as u8,
            sec: random.below(62) as u8,
            nano: random.pick(&nanos),
        };
        let epoch = random.pick(&EPOCHS);
        if date.nano != FULL_SECOND {
            add_date(list, epoch, date);
        }
    }
}
