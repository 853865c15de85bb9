//! Times the port's archive against other Rust crates: one process, both optimised, the same moments in turn.
//! Each crate prints and reads a text of its own form, by the quickest way that it offers: humantime
//! is told the precision, and what it prints is made ready before.

#[path = "../benchmark/src/line.rs"]
mod line;
#[path = "../benchmark/src/timing.rs"]
mod timing;

use std::fmt::{self, Write};
use std::hint::black_box;
use std::io;
use std::time::{Duration, SystemTime, UNIX_EPOCH};

use chrono::{DateTime, NaiveDateTime};
use humantime::Rfc3339Timestamp;
use line::Line;
use oracle::Random;
use port::Epoch;
use time::OffsetDateTime;
use time::format_description::well_known::Rfc3339;
use timing::Report;

const SEED: u64 = 1970;
const CALLS: usize = 16_384;

/// The seconds from 1970, before which humantime takes no moment, of 2101-01-01.
const END: u64 = 4_133_980_800;

impl io::Write for Line {
    #[inline]
    fn write(&mut self, bytes: &[u8]) -> io::Result<usize> {
        self.push(bytes).ok_or(io::ErrorKind::WriteZero)?;
        Ok(bytes.len())
    }

    fn flush(&mut self) -> io::Result<()> {
        Ok(())
    }
}

/// Moments as each crate holds them, and their texts: with a space, and with `T` and `Z`.
struct Moments {
    kind: &'static str,
    stamps: Vec<(i64, u32)>,
    humantime: Vec<Rfc3339Timestamp>,
    time: Vec<OffsetDateTime>,
    chrono: Vec<NaiveDateTime>,
    spaced: Vec<String>,
    rfc3339: Vec<String>,
}

impl Moments {
    fn new(kind: &'static str, step: u32, format: fn(SystemTime) -> Rfc3339Timestamp) -> Self {
        let mut random = Random::new(SEED);
        let mut draw = || {
            let nanos = random.below(u64::from(1_000_000_000 / step)) as u32 * step;
            (random.below(END), nanos)
        };
        let drawn: Vec<(u64, u32)> = (0..CALLS).map(|_| draw()).collect();
        let system = |&(secs, nanos): &(u64, u32)| UNIX_EPOCH + Duration::new(secs, nanos);
        let system: Vec<SystemTime> = drawn.iter().map(system).collect();
        let spaced: Vec<String> = drawn
            .iter()
            .map(|&(secs, nanos)| text(secs, nanos))
            .collect();
        Moments {
            kind,
            stamps: drawn
                .iter()
                .map(|&(secs, nanos)| (secs as i64, nanos))
                .collect(),
            humantime: system.iter().map(|&moment| format(moment)).collect(),
            time: system.iter().map(|&moment| moment.into()).collect(),
            chrono: drawn
                .iter()
                .map(|&(secs, nanos)| {
                    NaiveDateTime::from_timestamp_opt(secs as i64, nanos).expect("a near moment")
                })
                .collect(),
            rfc3339: spaced
                .iter()
                .map(|text| text.replace(' ', "T") + "Z")
                .collect(),
            spaced,
        }
    }
}

/// The port's text.
fn text(secs: u64, nanos: u32) -> String {
    let mut line = [0; 64];
    let length = port::display(Epoch(0), secs as i64, nanos, None, &mut line, 0).length;
    String::from_utf8_lossy(&line[..length]).into_owned()
}

fn main() {
    let kinds = [
        Moments::new("nanoseconds", 1, humantime::format_rfc3339_nanos),
        Moments::new("milliseconds", 1_000_000, humantime::format_rfc3339_millis),
        Moments::new(
            "whole seconds",
            1_000_000_000,
            humantime::format_rfc3339_seconds,
        ),
    ];
    let mut report = Report::new("peer", CALLS);
    for moments in &kinds {
        printing(&mut report, moments);
    }
    for moments in &kinds {
        reading(&mut report, moments);
    }
    report.print_rounds();
}

/// Prints each moment into a line of its own that is not cleared.
fn printed<T>(moments: &[T], mut print: impl FnMut(&mut Line, &T)) {
    let mut line = Line::new();
    for moment in moments {
        line.restart();
        print(&mut line, black_box(moment));
        black_box(&mut line);
    }
}

fn printing(report: &mut Report, moments: &Moments) {
    let port = || {
        let mut lent = [0; 64];
        for stamp in &moments.stamps {
            let &(secs, nanos) = black_box(stamp);
            black_box(port::display(Epoch(0), secs, nanos, None, &mut lent, 0));
            black_box(&mut lent);
        }
    };
    let row = |peer: &str| format!("printing {}, {peer}", moments.kind);
    report.measure(&row("humantime"), port, || {
        printed(&moments.humantime, |line, moment| {
            write!(line, "{moment}").expect("the line has room");
        });
    });
    report.measure(&row("time"), port, || {
        printed(&moments.time, |line, moment| {
            black_box(moment.format_into(line, &Rfc3339)).expect("the line has room");
        });
    });
    report.measure(&row("chrono"), port, || {
        printed(&moments.chrono, |line, moment| {
            write!(line, "{moment}").expect("the line has room");
        });
    });
}

/// Reads each text, which is a moment of each crate.
fn read<T, E: fmt::Debug>(texts: &[String], parse: impl Fn(&str) -> Result<T, E>) {
    for text in texts {
        black_box(&parse(black_box(text)));
    }
}

fn reading(report: &mut Report, moments: &Moments) {
    let accepted = |read: port::TimeResult| {
        if read.refusal == -1 {
            Ok(read)
        } else {
            Err(read)
        }
    };
    let port = || {
        for text in &moments.spaced {
            black_box(&port::from_str(Epoch(0), black_box(text).as_bytes()));
        }
    };
    for (text, own) in moments.spaced.iter().zip(&moments.rfc3339) {
        accepted(port::from_str(Epoch(0), text.as_bytes())).expect("a moment");
        humantime::parse_rfc3339_weak(text).expect("a moment");
        OffsetDateTime::parse(own, &Rfc3339).expect("a moment");
        DateTime::parse_from_rfc3339(own).expect("a moment");
    }
    let row = |peer: &str| format!("reading {}, {peer}", moments.kind);
    report.measure(&row("humantime"), port, || {
        read(&moments.spaced, humantime::parse_rfc3339_weak);
    });
    report.measure(&row("time"), port, || {
        read(&moments.rfc3339, |text| {
            OffsetDateTime::parse(text, &Rfc3339)
        });
    });
    report.measure(&row("chrono"), port, || {
        read(&moments.rfc3339, DateTime::parse_from_rfc3339);
    });
}
