//! The ten epochs that the Rust is built for, and the choice among them at run time.

use tai_time::TaiTime;

/// The six named epochs, then 1, -1 and both ends of i64.
pub const EPOCHS: [i64; 10] = [
    0,
    315_964_819,
    935_280_019,
    1_136_073_633,
    -378_691_200,
    63_072_000,
    1,
    -1,
    i64::MIN,
    i64::MAX,
];

/// The names of the first six of [`EPOCHS`] in a request of the desk program.
pub const EPOCH_NAMES: [&str; 6] = ["monotonic", "gps", "gst", "bdt", "tai1958", "tai1972"];

// The Rust's own names stand for the same six epochs: otherwise these lines do not build.
const _: TaiTime<{ EPOCHS[0] }> = tai_time::MonotonicTime::EPOCH;
const _: TaiTime<{ EPOCHS[1] }> = tai_time::GpsTime::EPOCH;
const _: TaiTime<{ EPOCHS[2] }> = tai_time::GstTime::EPOCH;
const _: TaiTime<{ EPOCHS[3] }> = tai_time::BdtTime::EPOCH;
const _: TaiTime<{ EPOCHS[4] }> = tai_time::Tai1958Time::EPOCH;
const _: TaiTime<{ EPOCHS[5] }> = tai_time::Tai1972Time::EPOCH;

/// Runs an expression with the Rust type of an epoch, or answers `Outside` where none was built.
macro_rules! over_epoch {
    ($epoch:expr, $Time:ident => $answer:expr) => {
        over_epoch!(@among 0 1 2 3 4 5 6 7 8 9; $epoch, $Time => $answer)
    };
    (@among $($place:literal)+; $epoch:expr, $Time:ident => $answer:expr) => {
        match $epoch {
            $(epoch if epoch == $crate::EPOCHS[$place] => {
                type $Time = tai_time::TaiTime<{ $crate::EPOCHS[$place] }>;
                $answer
            })+
            _ => $crate::Answer::Outside,
        }
    };
}

pub(crate) use over_epoch;
