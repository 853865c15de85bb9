//! The inputs of the benchmark, the same on every run.

use std::time::Duration;

use oracle::{DateTime, Random, Timestamp};
use tai_time::MonotonicTime;

const SEED: u64 = 1958;

/// More than a processor's memory of past branches learns by heart.
pub const CALLS: usize = 16_384;

/// The seconds from 1970 of 1958-01-01 and of 2101-01-01.
const FIRST: i64 = -378_691_200;
const END: i64 = 4_133_980_800;

/// The seconds from 1970 of 0000-01-01 and of 10000-01-01: between them a year has four digits and no sign.
const FOUR_DIGITS: std::ops::Range<i64> = -62_167_219_200..253_402_300_800;

/// Every day of a common year may be drawn.
const DAYS_IN_MONTH: [u64; 12] = [31, 28, 31, 30, 31, 30, 31, 31, 30, 31, 30, 31];

/// Stamps of one kind, as each side takes them.
pub struct Stamps {
    pub kind: &'static str,
    pub stamps: Vec<Timestamp>,
    pub times: Vec<MonotonicTime>,
    pub texts: Vec<String>,
}

impl Stamps {
    fn new(kind: &'static str, mut draw: impl FnMut() -> Timestamp) -> Self {
        let stamps: Vec<Timestamp> = (0..CALLS).map(|_| draw()).collect();
        let times: Vec<MonotonicTime> = stamps
            .iter()
            .map(|stamp| MonotonicTime::new(stamp.secs, stamp.nanos).expect("good nanoseconds"))
            .collect();
        Stamps {
            kind,
            texts: times.iter().map(|time| time.to_string()).collect(),
            stamps,
            times,
        }
    }
}

pub struct Inputs {
    /// Random stamps between the years 1958 and 2100, as document 02's ask 9 draws them.
    pub near: Stamps,
    /// The same years in milliseconds and in whole seconds; and years below 0 or of five to ten
    /// digits, whose texts have not the usual shape.
    pub others: [Stamps; 3],
    pub dates: Vec<DateTime>,
    pub durations: Vec<Duration>,
}

impl Inputs {
    pub fn new() -> Self {
        let mut random = Random::new(SEED);
        let nanos = |random: &mut Random| random.below(1_000_000_000) as u32;
        let secs = |random: &mut Random| FIRST + random.below((END - FIRST) as u64) as i64;
        let near = Stamps::new("nanoseconds", || Timestamp {
            secs: secs(&mut random),
            nanos: nanos(&mut random),
        });
        let milliseconds = Stamps::new("milliseconds", || Timestamp {
            secs: secs(&mut random),
            nanos: random.below(1_000) as u32 * 1_000_000,
        });
        let whole_seconds = Stamps::new("whole seconds", || Timestamp {
            secs: secs(&mut random),
            nanos: 0,
        });
        let far_years = Stamps::new("far years", || {
            let secs = loop {
                let secs = random.signed(56);
                if !FOUR_DIGITS.contains(&secs) {
                    break secs;
                }
            };
            Timestamp {
                secs,
                nanos: nanos(&mut random),
            }
        });
        let dates = (0..CALLS)
            .map(|_| {
                let month = random.below(12);
                DateTime {
                    year: 1958 + random.below(143) as i32,
                    month: 1 + month as u8,
                    day: 1 + random.below(DAYS_IN_MONTH[month as usize]) as u8,
                    hour: random.below(24) as u8,
                    min: random.below(60) as u8,
                    sec: random.below(60) as u8,
                    nano: nanos(&mut random),
                }
            })
            .collect();
        let durations = (0..CALLS)
            .map(|_| Duration::new(random.below(1 << 32), nanos(&mut random)))
            .collect();
        Inputs {
            near,
            others: [milliseconds, whole_seconds, far_years],
            dates,
            durations,
        }
    }
}
