//! Times the port's archive against the Rust: one process, both optimised, the same inputs in turn.
//! A result is looked at where it lies, on both sides: a copy of it would be timed as well.

mod inputs;
mod line;
mod timing;

use std::fmt::{self, Write};
use std::hint::black_box;

use inputs::{CALLS, Inputs, Stamps};
use line::Line;
use oracle::DateTime;
use port::Epoch;
use tai_time::{DateTimeError, MonotonicTime};
use timing::Report;

/// Takes every text and keeps nothing.
struct Nowhere;

impl Write for Nowhere {
    #[inline]
    fn write_str(&mut self, text: &str) -> fmt::Result {
        black_box(text);
        Ok(())
    }
}

fn main() {
    let inputs = Inputs::new();
    let mut report = Report::new("Rust", CALLS);
    let kinds = || std::iter::once(&inputs.near).chain(&inputs.others);
    for stamps in kinds() {
        both_agree(stamps);
        printing(&mut report, stamps);
    }
    for stamps in kinds() {
        reading(&mut report, stamps);
    }
    dates(&mut report, &inputs);
    sums(&mut report, &inputs);
    moments(&mut report, &inputs.near);
    report.print_rounds();
}

/// What is timed is the same text, accepted, on both sides.
fn both_agree(stamps: &Stamps) {
    let mut line = [0; 64];
    for (stamp, text) in stamps.stamps.iter().zip(&stamps.texts) {
        let length = port::display(Epoch(0), stamp.secs, stamp.nanos, None, &mut line, 0).length;
        assert_eq!(&line[..length], text.as_bytes());
        let read = port::from_str(Epoch(0), text.as_bytes());
        assert_eq!((read.secs, read.nanos), (stamp.secs, stamp.nanos));
    }
}

fn printing(report: &mut Report, stamps: &Stamps) {
    let mut lent = [0; 64];
    let port = || {
        for stamp in &stamps.stamps {
            let stamp = black_box(stamp);
            let printed = port::display(Epoch(0), stamp.secs, stamp.nanos, None, &mut lent, 0);
            black_box(printed);
            black_box(&mut lent);
        }
    };
    let mut line = Line::new();
    let rust = || {
        for time in &stamps.times {
            line.restart();
            black_box(write!(line, "{}", black_box(time))).expect("the line has room");
            black_box(&mut line);
        }
    };
    report.measure(&format!("printing, {}", stamps.kind), port, rust);
}

fn reading(report: &mut Report, stamps: &Stamps) {
    let port = || {
        for text in &stamps.texts {
            black_box(&port::from_str(Epoch(0), black_box(text).as_bytes()));
        }
    };
    let rust = || {
        for text in &stamps.texts {
            black_box(&black_box(text).parse::<MonotonicTime>());
        }
    };
    report.measure(&format!("reading, {}", stamps.kind), port, rust);
}

/// The Rust's date as the archive's is: behind a call, not built into the caller.
#[inline(never)]
fn date_behind_a_call(d: &DateTime) -> Result<MonotonicTime, DateTimeError> {
    MonotonicTime::try_from_date_time(d.year, d.month, d.day, d.hour, d.min, d.sec, d.nano)
}

fn dates(report: &mut Report, inputs: &Inputs) {
    let port = || {
        for date in &inputs.dates {
            let d = black_box(date);
            black_box(&port::tai_try_from_date_time(
                Epoch(0),
                d.year,
                d.month,
                d.day,
                d.hour,
                d.min,
                d.sec,
                d.nano,
            ));
        }
    };
    report.measure("dates to counts", port, || {
        for date in &inputs.dates {
            let d = black_box(date);
            let made = MonotonicTime::try_from_date_time(
                d.year, d.month, d.day, d.hour, d.min, d.sec, d.nano,
            );
            black_box(&made);
        }
    });
    report.measure("  both behind a call", port, || {
        for date in &inputs.dates {
            black_box(&date_behind_a_call(black_box(date)));
        }
    });
}

/// The Rust's sum behind a call as well.
#[inline(never)]
fn add_behind_a_call(
    time: &MonotonicTime,
    duration: core::time::Duration,
) -> Option<MonotonicTime> {
    time.checked_add(duration)
}

fn sums(report: &mut Report, inputs: &Inputs) {
    let near = &inputs.near;
    let port = || {
        for (stamp, duration) in near.stamps.iter().zip(&inputs.durations) {
            let (stamp, duration) = (black_box(stamp), black_box(duration));
            let (secs, nanos) = (duration.as_secs(), duration.subsec_nanos());
            black_box(&port::tai_checked_add(stamp.secs, stamp.nanos, secs, nanos));
        }
    };
    report.measure("adding", port, || {
        for (time, duration) in near.times.iter().zip(&inputs.durations) {
            black_box(&black_box(time).checked_add(*black_box(duration)));
        }
    });
    report.measure("  both behind a call", port, || {
        for (time, duration) in near.times.iter().zip(&inputs.durations) {
            black_box(&add_behind_a_call(black_box(time), *black_box(duration)));
        }
    });
}

/// The Rust offers no moments: its printing at precision 0 into nothing is timed.
fn moments(report: &mut Report, near: &Stamps) {
    let port = || {
        for stamp in &near.stamps {
            black_box(&port::tai_secs_to_date_time(
                Epoch(0),
                black_box(stamp).secs,
            ));
        }
    };
    let rust = || {
        for time in &near.times {
            black_box(write!(Nowhere, "{:.0}", black_box(time))).expect("it takes all");
        }
    };
    report.measure("counts to moments (printed, Rust)", port, rust);
}
