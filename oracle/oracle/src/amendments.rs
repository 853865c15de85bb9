//! Where document 02 decides against the Rust: the comparison holds the port to it there.

use crate::entries::representable;
use crate::{Answer, Timestamp};

/// What a conversion has to answer: the Rust's answer, and where the Rust refuses, that of the exact sum (02, ask 5).
pub fn or_exact<T>(rust: Answer<T>, exact: Answer<T>) -> Answer<T> {
    match rust {
        Answer::Refused(_) => exact,
        _ => rust,
    }
}

/// Unix to timestamp by its exact sum.
pub fn exact_from_unix(epoch: i64, secs: i64, nanos: u32, leap_secs: i64) -> Answer<Timestamp> {
    let carry = i128::from(nanos / 1_000_000_000);
    let sum = i128::from(secs) + carry + i128::from(leap_secs) - i128::from(epoch);
    within_i64(sum).map(|secs| Timestamp {
        secs,
        nanos: nanos % 1_000_000_000,
    })
}

/// Timestamp to Unix by its exact sum.
pub fn exact_to_unix(epoch: i64, secs: i64, leap_secs: i64) -> Answer<i64> {
    within_i64(i128::from(secs) - i128::from(leap_secs) + i128::from(epoch))
}

/// The change of epoch by its exact sum.
pub fn exact_over_epoch(from: i64, to: i64, stamp: Timestamp) -> Answer<Timestamp> {
    let sum = i128::from(from) - i128::from(to) + i128::from(stamp.secs);
    within_i64(sum).map(|secs| Timestamp { secs, ..stamp })
}

fn within_i64(sum: i128) -> Answer<i64> {
    representable(i64::try_from(sum).ok())
}

/// Whether reading reaches a field of the right width that holds a `+`, which is refused (9) whatever the Rust says
/// (02, ask 3).
///
/// A field is reached if each one before it has its width and its delimiter. (One that is no number for another reason,
/// or too large, is 9 on both sides.)
pub fn reaches_inner_plus(text: &[u8]) -> bool {
    let mut rest = match text {
        [b'+' | b'-', rest @ ..] => rest,
        _ => text,
    };
    for (place, delimiters) in ["-", "-", " Tt", ":", ":", "."].into_iter().enumerate() {
        let end = (rest.iter()).position(|byte| delimiters.as_bytes().contains(byte));
        let field = &rest[..end.unwrap_or(rest.len())];
        let right_width = match place {
            0 => end.is_some() && field.len() >= 4,
            _ => field.len() == 2,
        };
        if right_width && field.contains(&b'+') {
            return true;
        }
        match end {
            Some(end) if right_width => rest = &rest[end + 1..],
            _ => return false,
        }
    }
    false
}
