//! Requests of the printer: `print`.

use oracle::{Answer, DateTime, EPOCHS};

use crate::list::List;
use crate::values::{BOTTOM, TOP, YEARS, ordinary_epochs};

/// Precisions as the requests write them; `-` is the absent one.
const PRECISIONS: [&str; 16] = [
    "-", "0", "1", "2", "3", "4", "5", "6", "7", "8", "9", "10", "11", "12", "20", "1000",
];

/// Nanoseconds with zeros and nines at every place.
const NANOS: [u32; 16] = [
    0,
    1,
    9,
    10,
    999,
    1_000,
    123_456,
    1_000_000,
    99_999_999,
    100_000_000,
    123_450_000,
    123_456_789,
    500_000_000,
    987_654_321,
    999_999_990,
    999_999_999,
];

/// Seconds of 400 years, and from year 0 to 1970.
const CYCLE: i64 = 12_622_780_800;
const YEAR_0: i64 = -62_167_219_200;

pub fn add_all(list: &mut List) {
    add_fractions(list);
    add_ends(list);
    add_year_edges(list);
    add_month_edges(list);
    add_cycle_edges(list);
    add_random(list);
}

/// Asks for the second, counted from 1970, over an ordinary epoch.
fn add_second(list: &mut List, second: i64) {
    let epoch = list.random.pick(ordinary_epochs());
    let nanos = list.random.pick(&[0, 0, 999_999_999]);
    if let Some(secs) = second.checked_sub(epoch) {
        list.add("print", &[epoch], format_args!("{secs} {nanos} -"));
    }
}

/// The second, counted from 1970, at which a day begins.
fn day_start(year: i32, month: u8, day: u8) -> i64 {
    let date = DateTime {
        year,
        month,
        day,
        hour: 0,
        min: 0,
        sec: 0,
        nano: 0,
    };
    match oracle::try_from_date_time(0, date) {
        Answer::Value(stamp) => stamp.secs,
        _ => unreachable!("a day of the calendar"),
    }
}

/// Every precision with every fraction.
fn add_fractions(list: &mut List) {
    for nanos in NANOS {
        for precision in PRECISIONS {
            list.add("print", &[0], format_args!("951782400 {nanos} {precision}"));
        }
    }
}

/// Both ends of the seconds over each epoch, the epochs themselves, and years 0 and 1970.
fn add_ends(list: &mut List) {
    for epoch in EPOCHS {
        for secs in [BOTTOM, BOTTOM + 1, -1, 0, 1, TOP - 1, TOP] {
            list.add("print", &[epoch], format_args!("{secs} 0 -"));
            list.add("print", &[epoch], format_args!("{secs} 999999999 9"));
        }
        for second in [YEAR_0 - 1, YEAR_0, -1, 0, 1] {
            if let Some(secs) = second.checked_sub(epoch) {
                list.add("print", &[epoch], format_args!("{secs} 500000000 -"));
            }
        }
    }
}

/// The seconds around each year's start and around the first of March.
fn add_year_edges(list: &mut List) {
    for year in YEARS {
        for start in [day_start(year, 1, 1), day_start(year, 3, 1)] {
            for second in [start - 1, start] {
                add_second(list, second);
            }
        }
        add_second(list, day_start(year, 12, 31));
        add_second(list, day_start(year, 2, 28));
    }
}

/// The first and last second of every month of common and leap years, of every day of a leap year,
/// and of every hour.
fn add_month_edges(list: &mut List) {
    for year in [-101, -4, 0, 1900, 2000, 2019] {
        for month in 1..=12 {
            let start = day_start(year, month, 1);
            add_second(list, start - 1);
            add_second(list, start);
        }
    }
    for day in 0..366 {
        let start = day_start(2000, 1, 1) + 86_400 * day;
        add_second(list, start);
        add_second(list, start + 86_399);
    }
    let start = day_start(2020, 2, 29);
    for hour in 0..24 {
        add_second(list, start + 3600 * hour);
        add_second(list, start + 3600 * hour + 60 * hour + 59);
    }
}

/// The limits inside 400 years, and cycles of 400 years from end to end of i64.
fn add_cycle_edges(list: &mut List) {
    let days = [
        0, 365, 366, 730, 731, 1095, 1096, 1460, 1461, 1462, 36_523, 36_524, 36_525, 36_526,
        37_984, 37_985, 37_986, 73_048, 73_049, 73_050, 109_572, 109_573, 109_574, 146_095,
        146_096, 146_097,
    ];
    for cycle in [-1, 0, 5] {
        for day in days {
            let start = YEAR_0 + cycle * CYCLE + day * 86_400;
            add_second(list, start - 1);
            add_second(list, start);
        }
    }
    // Years of 5 to 12 digits begin where a power of ten does.
    for digits in 4..=11 {
        for cycles in [10i64.pow(digits) / 400, -(10i64.pow(digits) / 400)] {
            let start = YEAR_0 + cycles * CYCLE;
            add_second(list, start - 1);
            add_second(list, start);
        }
    }
    // The first and last cycles that begin inside i64.
    for cycles in [-730_692_556, -730_692_555, 730_692_565, 730_692_566] {
        let start = i128::from(YEAR_0) + cycles * i128::from(CYCLE);
        for second in [start - 1, start] {
            list.add("print", &[0], format_args!("{second} 0 -"));
        }
    }
}

fn add_random(list: &mut List) {
    for _ in 0..3000 {
        let (epoch, stamp) = (list.random.pick(&EPOCHS), list.random.timestamp());
        let precision = list.random.pick(&PRECISIONS);
        list.add("print", &[epoch], format_args!("{stamp} {precision}"));
    }
}
