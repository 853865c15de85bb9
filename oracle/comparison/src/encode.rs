//! The Rust's outcome in the form in which the port's archive gives its own.

use std::cmp::Ordering;

use oracle::{Answer, Duration, Refusal, Timestamp};
use port::{DurationResult, MomentResult, OrderingResult, TimeResult, UnixResult, UnixSeconds};

/// The value, or the refusal; the inputs of the comparison never leave the domain.
fn outcome<T>(answer: Answer<T>) -> Result<T, Refusal> {
    match answer {
        Answer::Value(value) => Ok(value),
        Answer::Refused(refusal) => Err(refusal),
        Answer::Outside => unreachable!("an input outside the domain of the comparison"),
    }
}

pub fn time(answer: Answer<Timestamp>) -> TimeResult {
    match outcome(answer) {
        Ok(stamp) => TimeResult {
            refusal: -1,
            in_range_error: 0,
            value: 0,
            nanos: stamp.nanos,
            secs: stamp.secs,
        },
        Err(refusal) => {
            let (inside, value) = match refusal {
                Refusal::Date(inner) => (0, inner.value()),
                Refusal::RangeError(inner) => (1, inner.value()),
                _ => (0, None),
            };
            TimeResult {
                refusal: refusal.number().into(),
                in_range_error: inside,
                value: value.unwrap_or(0),
                nanos: 0,
                secs: 0,
            }
        }
    }
}

pub fn unix(answer: Answer<i64>) -> UnixResult {
    let (refusal, secs) = match outcome(answer) {
        Ok(secs) => (-1, secs),
        Err(refusal) => (refusal.number().into(), 0),
    };
    UnixResult {
        refusal,
        secs: UnixSeconds(secs),
    }
}

pub fn duration(answer: Answer<Duration>) -> DurationResult {
    let (refusal, duration) = match outcome(answer) {
        Ok(duration) => (-1, duration),
        Err(refusal) => (refusal.number().into(), Duration { secs: 0, nanos: 0 }),
    };
    DurationResult {
        refusal,
        nanos: duration.nanos,
        secs: duration.secs,
    }
}

pub fn ordering(answer: Answer<Ordering>) -> OrderingResult {
    match outcome(answer) {
        Ok(ordering) => OrderingResult {
            refusal: -1,
            ordering: ordering as i32,
        },
        Err(refusal) => OrderingResult {
            refusal: refusal.number().into(),
            ordering: 0,
        },
    }
}

/// The moment that a text of the Rust's names: it offers moments in no other way.
pub fn moment(text: &str) -> MomentResult {
    let blank = text.find(' ').expect("a printed stamp has one");
    let two = |at: usize| text[at..at + 2].parse().expect("two digits");
    MomentResult {
        year: text[..blank - 6].parse().expect("a year"),
        month: two(blank - 5),
        day: two(blank - 2),
        hour: two(blank + 1),
        minute: two(blank + 4),
        second: two(blank + 7),
    }
}
