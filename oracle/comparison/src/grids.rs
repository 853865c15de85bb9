//! Boundary values of every type with their neighbours, all of them with one another.

use std::collections::BTreeSet;

use oracle::{DateTime, Duration, EPOCHS, Timestamp};

use crate::entries;
use crate::lines::{self, Asked, Text};
use crate::tally::Tally;

/// Nanoseconds below 10^9.
const NANOS: [u32; 5] = [0, 1, 500_000_000, 999_999_998, 999_999_999];

/// Nanoseconds of any u32, where whole seconds are refused or carried.
const ANY_NANOS: [u32; 14] = [
    0,
    1,
    999_999_998,
    999_999_999,
    1_000_000_000,
    1_000_000_001,
    1_999_999_999,
    2_000_000_000,
    2_147_483_647,
    2_147_483_648,
    3_999_999_999,
    4_000_000_000,
    4_294_967_294,
    4_294_967_295,
];

/// Nanoseconds with zeros and nines at every place.
const FRACTIONS: [u32; 9] = [
    0,
    1,
    10,
    999,
    1_000_000,
    123_450_000,
    123_456_789,
    900_000_000,
    999_999_999,
];

/// The precisions: absent, 0 to 12, 20 and 1,000.
pub const PRECISIONS: [Option<usize>; 16] = {
    let mut all = [None; 16];
    let mut digits = 0;
    while digits <= 12 {
        all[digits + 1] = Some(digits);
        digits += 1;
    }
    all[14] = Some(20);
    all[15] = Some(1000);
    all
};

/// Seconds at the ends of i64 and of narrower types, at each epoch on both sides of 0, at the
/// starts of year 0 and of its cycles, each with its neighbours.
pub fn seconds() -> Vec<i64> {
    let mut bases = vec![
        i64::MIN,
        i64::MAX,
        0,
        -62_167_219_200,
        -67_768_100_567_971_200,
    ];
    bases.extend([
        -67_768_040_609_740_800,
        67_767_976_233_532_799,
        253_402_300_799,
    ]);
    bases.extend(EPOCHS.map(|epoch| epoch.wrapping_neg()));
    bases.extend(EPOCHS);
    for bits in [8, 16, 31, 32, 53, 62] {
        bases.extend([1 << bits, -(1 << bits)]);
    }
    for cycles in [-730_692_555, -1, 1, 730_692_565] {
        bases.push(-62_167_219_200 + cycles * 12_622_780_800);
    }
    let near = |base: i64| (-1..=1).filter_map(move |step| base.checked_add(step));
    let all: BTreeSet<i64> = bases.into_iter().flat_map(near).collect();
    all.into_iter().collect()
}

/// Seconds of durations: the ends of u64 and the distances between the seconds above.
fn durations() -> Vec<u64> {
    let mut all = BTreeSet::from([0, 1, 2, u64::MAX - 1, u64::MAX]);
    for secs in seconds() {
        all.extend([
            secs.abs_diff(0),
            secs.abs_diff(i64::MIN),
            secs.abs_diff(i64::MAX),
        ]);
    }
    all.into_iter().collect()
}

fn timestamps() -> Vec<Timestamp> {
    let with_nanos = |secs| NANOS.map(|nanos| Timestamp { secs, nanos });
    seconds().into_iter().flat_map(with_nanos).collect()
}

/// `new`, the sums, the differences and the comparison.
pub fn counts(tally: &mut Tally) {
    for secs in seconds() {
        for nanos in ANY_NANOS {
            entries::new(tally, secs, nanos);
        }
    }
    let (stamps, durations) = (timestamps(), durations());
    for &stamp in &stamps {
        for &secs in &durations {
            for nanos in NANOS {
                entries::checked_add(tally, stamp, Duration { secs, nanos });
                entries::checked_sub(tally, stamp, Duration { secs, nanos });
            }
        }
        for &other in &stamps {
            entries::checked_duration_since(tally, stamp, other);
            entries::cmp(tally, stamp, other);
        }
    }
}

/// Unix seconds and changes of epoch over one epoch.
pub fn epochs(tally: &mut Tally, epoch: i64) {
    let seconds = seconds();
    for &secs in &seconds {
        for &leap in &seconds {
            for nanos in ANY_NANOS {
                entries::try_from_unix_timestamp(tally, epoch, secs, nanos, leap);
            }
            for nanos in NANOS {
                entries::as_unix_secs(tally, epoch, Timestamp { secs, nanos }, leap);
            }
        }
        for other in EPOCHS {
            for nanos in NANOS {
                entries::to_tai_time(tally, epoch, other, Timestamp { secs, nanos });
            }
        }
    }
}

/// Years at both ends and on both sides of multiples of 4, 100 and 400, by fields and by text.
pub fn dates(tally: &mut Tally, epoch: i64) {
    let bases = [
        i32::MIN,
        i32::MAX,
        -10_000,
        -2000,
        -400,
        -100,
        -4,
        0,
        4,
        100,
        400,
    ];
    let more = [
        1582, 1900, 1958, 1970, 1972, 1980, 2000, 2100, 9999, 99_999, 1_000_000,
    ];
    for base in bases.into_iter().chain(more) {
        for year in (-1..=1).filter_map(|step| base.checked_add(step)) {
            for (month, day) in [(1, 1), (1, 31), (2, 28), (2, 29), (2, 30), (3, 1), (12, 31)] {
                for (hour, min, sec) in [(0, 0, 0), (12, 0, 1), (23, 59, 58), (23, 59, 59)] {
                    for nano in NANOS {
                        let date = DateTime {
                            year,
                            month,
                            day,
                            hour,
                            min,
                            sec,
                            nano,
                        };
                        entries::try_from_date_time(tally, epoch, date);
                    }
                    for sign in ["", "+", "-"] {
                        let size = year.unsigned_abs();
                        let text = format!(
                            "{sign}{size:04}-{month:02}-{day:02}T{hour:02}:{min:02}:{sec:02}"
                        );
                        entries::from_str(tally, epoch, &text);
                    }
                }
            }
        }
    }
}

/// Every second above with every fraction and precision over one epoch; the default text read back;
/// one precision of each with all places and rooms around the text's length.
pub fn prints(tally: &mut Tally, epoch: i64) {
    let mut which = 0;
    for secs in seconds() {
        for nanos in FRACTIONS {
            let stamp = Timestamp { secs, nanos };
            let asked = |precision| Asked {
                epoch,
                stamp,
                precision,
            };
            for precision in PRECISIONS {
                which += 1;
                lines::once(tally, asked(precision), which);
            }
            which += 1;
            lines::around(tally, asked(PRECISIONS[which % PRECISIONS.len()]));
            entries::read_back(tally, epoch, stamp, Text::of(asked(None)).as_str());
        }
    }
    for secs in [i64::MIN, -1, 0, i64::MAX] {
        for precision in PRECISIONS {
            let stamp = Timestamp {
                secs,
                nanos: 123_456_780,
            };
            let asked = Asked {
                epoch,
                stamp,
                precision,
            };
            lines::everywhere(tally, asked);
            if precision.is_none() {
                lines::megabyte(tally, asked);
            }
        }
    }
}
