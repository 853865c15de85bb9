//! The boundary values that several verbs share.

use oracle::{Duration, EPOCHS, Timestamp};

/// The ends of i64.
pub const BOTTOM: i64 = i64::MIN;
pub const TOP: i64 = i64::MAX;

/// Both ends of u32 and of a second, and their neighbours; 10^9 is for `new` and `unix` alone.
pub const ANY_NANOS: [u32; 13] = [
    0,
    1,
    500_000_000,
    999_999_998,
    999_999_999,
    1_000_000_000,
    1_000_000_001,
    1_999_999_999,
    2_000_000_000,
    2_147_483_647,
    4_000_000_000,
    4_294_967_294,
    4_294_967_295,
];

/// The epochs over which every calendar date is a timestamp.
pub fn ordinary_epochs() -> &'static [i64] {
    &EPOCHS[..8]
}

/// Years at both ends of i32, and around multiples of 4, 100 and 400 on both sides of year 0.
pub const YEARS: [i32; 62] = [
    i32::MIN,
    i32::MIN + 1,
    -100_000,
    -10_000,
    -9999,
    -2000,
    -1900,
    -404,
    -401,
    -400,
    -399,
    -396,
    -300,
    -200,
    -104,
    -101,
    -100,
    -99,
    -96,
    -8,
    -5,
    -4,
    -3,
    -2,
    -1,
    0,
    1,
    2,
    3,
    4,
    5,
    8,
    96,
    99,
    100,
    101,
    104,
    200,
    300,
    399,
    400,
    401,
    1582,
    1600,
    1900,
    1957,
    1958,
    1969,
    1970,
    1971,
    1972,
    1980,
    1999,
    2000,
    2001,
    2004,
    2100,
    9999,
    10_000,
    99_999,
    i32::MAX - 1,
    i32::MAX,
];

const fn at(secs: i64, nanos: u32) -> Timestamp {
    Timestamp { secs, nanos }
}

const fn lasting(secs: u64, nanos: u32) -> Duration {
    Duration { secs, nanos }
}

/// Timestamps at both ends, around 0, and with nanoseconds at both ends.
pub const TIMESTAMPS: [Timestamp; 15] = [
    at(BOTTOM, 0),
    at(BOTTOM, 1),
    at(BOTTOM, 999_999_999),
    at(BOTTOM + 1, 0),
    at(-1, 0),
    at(-1, 500_000_000),
    at(-1, 999_999_999),
    at(0, 0),
    at(0, 1),
    at(0, 999_999_999),
    at(1, 0),
    at(TOP - 1, 999_999_999),
    at(TOP, 0),
    at(TOP, 999_999_998),
    at(TOP, 999_999_999),
];

/// Durations at both ends of u64 and around the top of i64.
pub const DURATIONS: [Duration; 15] = [
    lasting(0, 0),
    lasting(0, 1),
    lasting(0, 500_000_000),
    lasting(0, 999_999_999),
    lasting(1, 0),
    lasting(1, 999_999_999),
    lasting(TOP as u64 - 1, 999_999_999),
    lasting(TOP as u64, 0),
    lasting(TOP as u64, 999_999_999),
    lasting(TOP as u64 + 1, 0),
    lasting(TOP as u64 + 1, 1),
    lasting(TOP as u64 + 2, 0),
    lasting(u64::MAX - 1, 999_999_999),
    lasting(u64::MAX, 0),
    lasting(u64::MAX, 999_999_999),
];
